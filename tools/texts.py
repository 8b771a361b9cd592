"""What the forms of text share: lines of words, numbers, and what is wrong with them."""
import math
import re
import struct


class Wrong(Exception):
    """What is wrong, and in which line."""


KINDS = {"point": 1, "line": 2, "polygon": 3}


def number(word, place, low, high):
    try:
        value = int(word, 10)
    except ValueError:
        raise Wrong(f"{place}: '{word}' is no whole number")
    if not low <= value <= high:
        raise Wrong(f"{place}: {value} is not between {low} and {high}")
    return value


def signed(word, place):
    return number(word, place, -(2**31), 2**31 - 1)


def unsigned(word, place):
    return number(word, place, 0, 2**32 - 1)


DECIMAL = re.compile(r"[+-]?([0-9]+\.?[0-9]*|\.[0-9]+)([eE][+-]?[0-9]+)?")
HEX = re.compile(r"[+-]?0[xX]([0-9a-fA-F]+\.?[0-9a-fA-F]*|\.[0-9a-fA-F]+)([pP][+-]?[0-9]+)?")
PATTERN = re.compile(r"bits:0[xX][0-9a-fA-F]{1,16}")


def double(word, place):
    """The eight bytes of a double: the one nearest to a decimal or hex number, nan, inf, -inf, or the one with these bits."""
    if PATTERN.fullmatch(word):
        return struct.pack("<Q", int(word[5:], 16))
    if word in ("nan", "inf", "-inf"):
        return struct.pack("<d", float(word))
    try:
        if DECIMAL.fullmatch(word):
            value = float(word)
        elif HEX.fullmatch(word):
            value = float.fromhex(word)
        else:
            raise Wrong(f"{place}: '{word}' is no double: write a decimal, a hex number as 0x1.8p3, nan, inf, -inf, or bits:0x and up to 16 hex digits")
    except OverflowError:
        value = math.inf
    if math.isinf(value):
        raise Wrong(f"{place}: '{word}' is beyond the largest double; an infinity is written inf or -inf")
    return struct.pack("<d", value)


def kind_of(word, place):
    """A kind by its name or its number; any number, so that a refusal can be asked for."""
    return KINDS[word] if word in KINDS else unsigned(word, place)


def point(words, place):
    if len(words) != 2:
        raise Wrong(f"{place}: a point is two numbers, x and y")
    return [signed(word, place) for word in words]


def surveyed(words, place):
    if len(words) != 2:
        raise Wrong(f"{place}: a surveyed point is two numbers, x and y")
    return [double(word, place) for word in words]


def box(words, place):
    if len(words) != 5:
        raise Wrong(f"{place}: a box is four numbers: x_min x_max y_min y_max")
    return [signed(word, place) for word in words[1:]]
