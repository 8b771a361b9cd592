"""A tile written as text, and its tile script (oracle/README.md, "Tile script")."""
import shlex
import struct

import jobtext
from texts import Wrong, box, kind_of, number, point, unsigned

BITS = {"float": ("<f", "<I"), "double": ("<d", "<Q")}


def text(string):
    """A text: its length in bytes, then its bytes, filled up to a multiple of four."""
    data = string.encode("utf-8")
    return struct.pack("<I", len(data)) + data + bytes(-len(data) % 4)


def real(kind, word, place):
    """A float or a double: a number, or 'bits' and its bits, where a NaN's own bits matter."""
    value_form, bits_form = BITS[kind]
    try:
        if word.startswith("bits:"):
            return struct.pack(bits_form, int(word[5:], 0))
        return struct.pack(value_form, float(word))
    except (ValueError, OverflowError, struct.error):
        raise Wrong(f"{place}: '{word}' is no {kind}")


def value(kind, words, place):
    """A value's kind and content."""
    if len(words) != 1:
        raise Wrong(f"{place}: a tag is its key, its kind and one value; quote what has spaces")
    word = words[0]
    if kind == "text":
        return struct.pack("<I", 1) + text(word)
    if kind == "float":
        return struct.pack("<I", 2) + real(kind, word, place)
    if kind == "double":
        return struct.pack("<I", 3) + real(kind, word, place)
    if kind in ("int", "sint"):
        whole = number(word, place, -(2**63), 2**63 - 1)
        return struct.pack("<Iq", 4 if kind == "int" else 6, whole)
    if kind == "uint":
        return struct.pack("<IQ", 5, number(word, place, 0, 2**64 - 1))
    if kind == "bool" and word in ("true", "false"):
        return struct.pack("<II", 7, word == "true")
    raise Wrong(f"{place}: a value is text, float, double, int, uint, sint, or bool true or false")


class Script:
    """The script so far, and the geometry that is being read."""

    def __init__(self, encode):
        self.encode = encode
        self.out = b""
        self.extent = None
        self.edges = None
        self.open = None

    def geometry(self, words, place):
        """A line of the open feature's geometry; whether it was one."""
        if self.open is None:
            return False
        _, parts, given, _ = self.open
        if words[0] == "part" and len(words) == 1 and not given:
            parts.append([])
        elif words[0] == "words" and not parts:
            given.extend(unsigned(word, place) for word in words[1:])
        elif parts and words[0].lstrip("-").isdigit():
            parts[-1].append(point(words, place))
        else:
            return False
        return True

    def close_geometry(self):
        """Ends the geometry: its words as given, or as the encoder makes them of its parts."""
        if self.open is None:
            return
        kind, parts, given, place = self.open
        if parts:
            if self.edges is None:
                raise Wrong(f"{place}: points need a line 'box x_min x_max y_min y_max' before them")
            given = self.encode(jobtext.packed(kind, self.edges, parts), place)
        self.out += struct.pack(f"<3I{len(given)}I", 2, kind, len(given), *given)
        self.open = None

    def create(self, operation, words, place):
        """A layer by one of the two operations that create one: its name and, if it is another, its extent."""
        extent = unsigned(words[1], place) if len(words) == 2 else self.extent
        self.out += struct.pack("<2I", operation, extent) + text(words[0])

    def line(self, words, place):
        if self.geometry(words, place):
            return
        self.close_geometry()
        name, rest = words[0], words[1:]
        if name == "tile" and len(rest) == 1 and self.extent is None:
            self.extent = unsigned(rest[0], place)
            self.out = struct.pack("<I", self.extent)
        elif self.extent is None:
            raise Wrong(f"{place}: a tile begins with 'tile EXTENT'")
        elif name == "box":
            self.edges = box(words, place)
        elif name == "layer" and len(rest) in (1, 2):
            self.create(1, rest, place)
        elif name == "strict" and rest[:1] == ["layer"] and len(rest) in (2, 3):
            self.create(8, rest[1:], place)
        elif name == "feature" and len(rest) == 1:
            self.open = (kind_of(rest[0], place), [], [], place)
        elif name == "id" and len(rest) == 1:
            self.out += struct.pack("<IQ", 3, number(rest[0], place, 0, 2**64 - 1))
        elif name == "tag" and len(rest) >= 2:
            self.out += struct.pack("<I", 4) + text(rest[0]) + value(rest[1], rest[2:], place)
        elif name in ("close", "abandon", "add") and not rest:
            self.out += struct.pack("<I", {"close": 5, "abandon": 6, "add": 7}[name])
        else:
            raise Wrong(f"{place}: '{' '.join(words)}' is no line of a tile; 'pack --help' lists them")


def script(name, lines, encode):
    """The script of these lines. `encode` gives the words of a job file."""
    made = Script(encode)
    for at, line in enumerate(lines, 1):
        place = f"{name}:{at}"
        try:
            words = shlex.split(line, comments=True)
        except ValueError as error:
            raise Wrong(f"{place}: {error}")
        if words:
            made.line(words, place)
    made.close_geometry()
    if made.extent is None:
        raise Wrong(f"{name}: no line 'tile EXTENT'")
    return made.out
