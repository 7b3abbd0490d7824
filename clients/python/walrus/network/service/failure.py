"""How a command fails."""


class Failure(Exception):
    """A command that failed: why, in a sentence, and the exit status."""
