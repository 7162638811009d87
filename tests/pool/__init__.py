"""Several MMEs as one pool."""
