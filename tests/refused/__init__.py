"""Memory, reads and writes that are refused."""
