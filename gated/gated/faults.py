"""What can go wrong in more than one part."""


class CannotFollow(Exception):
    """There is no gate that follows its node any more, and another one has to be opened; the message says why, in one line."""
