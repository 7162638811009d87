"""Hostile use: stations and phones that lie, and what anybody else may see of it."""
