"""What ends a run, said in one sentence."""


class ReadError(Exception):
    """The input can't be read; the message is one sentence, and the exit status 2."""
