"""A tile written as its bytes in hex."""
import re

from texts import Wrong


def packed(name, lines):
    """Lines 'bytes H H …', one behind the other, each byte with two hex digits."""
    out = b""
    for at, line in enumerate(lines, 1):
        words, place = line.split("#")[0].split(), f"{name}:{at}"
        if not words:
            continue
        if words[0] != "bytes":
            raise Wrong(f"{place}: a tile's bytes have lines 'bytes H H …' alone")
        for word in words[1:]:
            if not re.fullmatch("[0-9a-fA-F]{2}", word):
                raise Wrong(f"{place}: '{word}' is no byte: write two hex digits")
            out += bytes([int(word, 16)])
    return out
