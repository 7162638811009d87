"""Benchmarks, which are programs, and what they share."""
