"""A language server for texts of `fbr` (docs/EDITORS.md).

What is right, and what it costs, is said by `fbr explain --json`; names are found by a scanner that judges nothing."""
