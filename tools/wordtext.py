"""A list of words written as text, and its word file (docs/RULES.md, section 11)."""
import struct

from texts import Wrong, unsigned


def packed(name, lines):
    """Lines 'words W W …', one behind the other."""
    out = b""
    for at, line in enumerate(lines, 1):
        words, place = line.split("#")[0].split(), f"{name}:{at}"
        if not words:
            continue
        if words[0] != "words":
            raise Wrong(f"{place}: a list of words has lines 'words W W …' alone")
        out += b"".join(struct.pack("<I", unsigned(word, place)) for word in words[1:])
    return out
