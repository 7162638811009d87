"""Calls of the crates' parts, and what they answer."""
