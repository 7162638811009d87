"""What the tools know of the Evolved Packet System: its messages decoded whole, its ciphers, and its procedures as an independent
model. All of it comes from the standards and docs/PROFILE.md, and none of it from the MME's code; nothing here is part of a proof.
"""
