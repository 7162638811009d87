"""The tools of a laboratory beside the MME: programs, and the modules and packages that they are made of."""
