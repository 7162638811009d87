"""The tools, as programs and as modules."""
