"""Traces, each with the answers that the MME owes."""
