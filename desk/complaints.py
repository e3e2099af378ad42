"""What ends a run early, as one line for a person."""


class BadInput(Exception):
    """What a person wrote cannot be used; the text names the file, and the key where there is one."""


class Trouble(Exception):
    """The program could not be built or run, or what it answered not written."""


def one_line(text: str) -> str:
    """A text without what would break a line or a terminal."""
    return "".join(c if c.isprintable() else "?" for c in text)


def brief(text: str) -> str:
    """What a file says, short enough to leave room for what is wrong with it."""
    return text if len(text) <= 40 else text[:40] + ".."


def reason(error: Exception) -> str:
    """Why a file could not be had, in the system's words."""
    return getattr(error, "strerror", None) or str(error)
