"""Diameter (RFC 6733) and its application S6a (TS 29.272), as an MME speaks them with an HSS: tools/s6a."""
