"""Shows a running device in the browser, out of its record (docs/PAGE.md)."""
