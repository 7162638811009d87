"""The library for C and Python, by what is right elsewhere."""
