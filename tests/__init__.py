"""The tests of this repository, each folder with its own `run`, and what they share."""
