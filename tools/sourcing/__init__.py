"""Sources of authentication vectors: they read requests from standard input and write vectors to standard output (docs/LAB.md)."""
