"""What becomes of secrets: branches and addresses that depend on one, and what stays of one in memory."""
