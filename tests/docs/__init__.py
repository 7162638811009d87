"""What the documents say, compared with the program and the code."""
