"""A second implementation of what stations, phones and an MME say, which knows the standards and not the MME: its octets, phones
step by step, the rows of traces that they make, and what `mme sim` owes for a script. Tests and benchmarks take from here what is
right, soizkadur.standards has `lte` and `phones`, and nothing here reads the MME's code or what it printed.
"""
