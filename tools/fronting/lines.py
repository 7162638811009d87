"""Lines that come in pieces."""


class Lines:
    """Takes lines out of octets as they come; one that is too long is None."""

    def __init__(self, longest):
        self.longest, self.rest, self.is_too_long = longest, b"", False

    def take(self, octets):
        """The lines that have come to their end."""
        *lines, self.rest = (self.rest + octets).split(b"\n")
        if lines and self.is_too_long:
            lines[0], self.is_too_long = None, False
        if len(self.rest) > self.longest:
            self.rest, self.is_too_long = b"", True
        return [line if line is None or len(line) <= self.longest else None for line in lines]

    def last(self):
        """The last line, where it has no end."""
        return self.take(b"\n") if self.rest or self.is_too_long else []
