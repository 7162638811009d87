"""The packages in a clean root."""
