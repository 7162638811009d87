"""What `./mme` has in Python: the program and the library are proved, built, known by their records, and explained."""
