"""Scripts, each with the trace that `mme sim` owes."""
