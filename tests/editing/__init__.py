"""What tests/edits is made of: the texts and the record, what the prover says of an edit, the trials, and the guards."""
