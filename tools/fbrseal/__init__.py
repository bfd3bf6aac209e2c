"""Seals of datagrams, as `fbr serve --keys FILE --state FILE` makes and opens them. It is not proved; docs/KEYS.md says what the files hold."""
