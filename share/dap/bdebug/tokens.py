"""The tokens of B."""
import re
from typing import Iterator, NamedTuple

from .language import BINARY, ESCAPES

_ASSIGNMENTS = sorted(("=" + it for it in BINARY), key=len, reverse=True)
_SIGNS = sorted((*_ASSIGNMENTS, *BINARY, "++", "--", "=", "!", *"?:,;()[]{}"), key=len, reverse=True)
_TOKEN = re.compile(
    r"(?P<blank>[ \t\n\r\f\v]+|/\*.*?\*/)|(?P<name>[A-Za-z_]\w*)|(?P<number>\d+)"
    r"|(?P<character>'(?:\*.|[^'*])*')|(?P<string>\"(?:\*.|[^\"*])*\")"
    r"|(?P<sign>" + "|".join(map(re.escape, _SIGNS)) + ")", re.A | re.S)


class TokenFault(Exception):
    """What isn't of the language, in words for the user."""


class Token(NamedTuple):
    """A token: its kind, which is name, number, character, string, sign or end, and its text."""

    kind: str
    text: str


def tokens_of(text: str) -> Iterator[Token]:
    """The tokens of a text, and an end after them. A TokenFault tells what begins none."""
    at = 0
    while at < len(text):
        found = _TOKEN.match(text, at)
        if found is None:
            raise TokenFault(f"no token begins with {text[at]!r}")
        if found.lastgroup != "blank":
            yield Token(found.lastgroup, found[0])
        at = found.end()
    yield Token("end", "")


def constant_of(token: Token) -> int:
    """The word of a number or of a character constant."""
    if token.kind == "number":
        octal = token.text.startswith("0")
        if octal and set(token.text) & {"8", "9"}:
            raise TokenFault(f"{token.text} has a digit that isn't octal")
        return int(token.text, 8 if octal else 10) & 0xFFFF
    codes = re.findall(r"\*(.)|(.)", token.text[1:-1], re.S)
    if not 1 <= len(codes) <= 2 or any(escape and escape not in ESCAPES for escape, _ in codes):
        raise TokenFault(f"{token.text} is no character constant")
    word = 0
    for escape, plain in codes:
        word = word << 8 | (ESCAPES[escape] if escape else ord(plain) & 0xFF)
    return word
