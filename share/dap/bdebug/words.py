"""Words of 16 bits, as a debugger shows them, and the module of the library."""
import functools
import importlib
import pathlib
import sys

WORD = 0xFFFF
END_OF_STRING = 4
_ESCAPES = {0: "*0", 4: "*e", 9: "*t", 10: "*n", 34: '*"', 39: "*'", 42: "**"}
_MOST_OF_A_STRING = 80  # characters that are shown


@functools.lru_cache(None)
def library():
    """The module b, from beside this folder where it is there."""
    beside = pathlib.Path(__file__).resolve().parents[2] / "python"
    if (beside / "b.py").is_file():
        sys.path.insert(0, str(beside))
    return importlib.import_module("b")


def signed(word: int) -> int:
    """The number that a word is, from -32768 to 32767."""
    return (word & WORD ^ 0x8000) - 0x8000


def spelled(byte: int) -> str:
    return _ESCAPES.get(byte) or (chr(byte) if 32 <= byte < 127 else "?")


def is_shown(byte: int) -> bool:
    return 32 <= byte < 127


def character(word: int) -> str:
    """The constant of B that a word is, with one character or two, or nothing."""
    high, low = word >> 8, word & 0xFF
    pair = [high, low] if high else [low]
    return "'" + "".join(map(spelled, pair)) + "'" if all(map(is_shown, pair)) else ""


def string_at(address: int, word_at) -> str:
    """The string constant of B at an address, or nothing where there is none. A long one is cut."""
    text = []
    for at in range(2 * address, min(2 * address + _MOST_OF_A_STRING, 2 * WORD)):
        byte = word_at(at >> 1) >> 8 * (at & 1) & 0xFF
        if byte == END_OF_STRING:
            return '"' + "".join(map(spelled, text)) + '"' if text else ""
        if not is_shown(byte) and byte not in (9, 10):
            return ""
        text.append(byte)
    return '"' + "".join(map(spelled, text)) + '.."'
