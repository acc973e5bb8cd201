"""Texts of strangers as they are shown: a letter that would not be seen, or would turn a line round, by its number."""
import re
from html import escape
from typing import TextIO

# What stands before the host of an address.
PASSWORD = re.compile(r"(?<=://)[^/?#\s]*@")
UNSEEN = re.compile("[\x00-\x1f\x7f-\x9f\u061c\u200b-\u200f\u2028-\u202e\u2060-\u2069\ufeff\ud800-\udfff]")


def plain(text: str) -> str:
    """One line of text."""
    return UNSEEN.sub(lambda found: "\\u%04x" % ord(found[0]), text)


def secretless(text: str) -> str:
    """The same without the names and passwords that stand in addresses."""
    return PASSWORD.sub("..@", text)


def tell(text: str, stream: TextIO) -> None:
    """A line in which no letter of a stranger's text would be a command to a terminal, and no password stands."""
    stream.write(secretless(plain(text)) + "\n")


def tell_all(text: str, stream: TextIO) -> None:
    """Several lines, each such a line."""
    for line in text.rstrip("\n").split("\n"):
        tell(line, stream)


def grouped(count: int) -> str:
    """A number as pages write it."""
    return format(count, ",")


def markup(text: str) -> str:
    """The same within a page, also as the value of an attribute."""
    return escape(plain(text))
