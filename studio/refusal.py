"""What the studio can't do, told to whoever asked for it."""


class Refusal(Exception):
    """Something that was asked for can't be done; the text says which file it is about, why, and what to do."""
