"""How the script `mme` speaks: a line on standard error that begins with its name, and its exit statuses."""
import sys

BAD_WORDS = 2
FAILED = 70  # what was asked can't be done here (EX_SOFTWARE)


class Failed(Exception):
    """Why something ends here; its text is for people, its status for programs."""

    def __init__(self, text, status=FAILED):
        super().__init__(text)
        self.status = status


def say(text):
    """Says it on standard error."""
    print("mme: %s" % text, file=sys.stderr, flush=True)
