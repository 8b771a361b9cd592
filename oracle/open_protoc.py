"""Tiles read by protoc, by the schema in vector_tile.proto, and printed as our program `open_tile` prints them.

protoc is a judge of good tiles alone: it takes groups, known fields with a wrong wire type and numbers of more than 64 bits, which request (i) refuses. Of good
tiles it reads the same, but for what `expected` says: it refuses a key or a length of more than five bytes, and takes a type that MVT does not name as an unknown field.
A text that is no UTF-8 it reads, with a warning; a NaN's bits it does not print.
"""

import os
import shutil
import struct
import subprocess

import opening
from opening import SCHEMA, TILE, Part

HERE = os.path.dirname(os.path.abspath(__file__))
NAMED = {"UNKNOWN": 0, "POINT": 1, "LINE": 2, "POLYGON": 3}
KINDS = {"text": 1, "float": 2, "double": 3, "int": 4, "uint": 5, "sint": 6, "bool": 7}
SIMPLE = {"n": 10, "r": 13, "t": 9, '"': 34, "'": 39, "\\": 92}


def is_there():
    return shutil.which("protoc") is not None


# ---- what is expected

class AsProtoc(opening.Grammar):
    """Reads a tile as protoc does: the last type that MVT names counts."""

    def feature(self, part):
        read = super().feature(part)
        types = [given % 2**32 for number, _, given in self.fields(opening.FEATURE, part) if number == 3]
        return read._replace(type=next((given for given in reversed(types) if given in NAMED.values()), 0))


def has_long_form(data, message=TILE, part=None):
    """Whether a key or a length of a good tile has more than five bytes."""
    part = part or Part(0, len(data))
    at, end = part.start, part.start + part.length
    while at < end:
        key, behind = opening.varint(data, at, end)
        if behind - at > 5:
            return True
        wire, holds = key & 7, SCHEMA[message].get(key >> 3)
        given, at = opening.content(data, behind, end, wire)
        if wire == 2 and given.start - behind > 5:
            return True
        if holds in SCHEMA and has_long_form(data, holds, given):
            return True
    return False


def without_nan(line):
    """A line with the bits of a NaN left out."""
    words = line.split(b" ")
    if words[:2] == [b"value", b"float"] and is_nan(int(words[2], 16), 23, 8):
        return b"value float nan"
    if words[:2] == [b"value", b"double"] and is_nan(int(words[2], 16), 52, 11):
        return b"value double nan"
    return line


def is_nan(bits, fraction, exponent):
    return bits >> fraction & 2**exponent - 1 == 2**exponent - 1 and bits % 2**fraction != 0


def expected(data):
    """The lines with which protoc answers to a good tile."""
    if has_long_form(data):
        return [b"refused"]
    return [without_nan(line) for line in opening.lines_of(data, AsProtoc(data).tile())]


# ---- what protoc says

def fields(text):
    """protoc's text form as nested lists of names and values."""
    top = [[]]
    for line in text.split("\n"):
        line = line.strip()
        if line.endswith("{"):
            top.append([])
            top[-2].append((line[:-1].strip(), top[-1]))
        elif line == "}":
            top.pop()
        elif line:
            name, value = line.split(": ", 1)
            top[-1].append((name, value))
    return top[0]


def all_of(message, name):
    return [value for key, value in message if key == name]


def unquoted(value):
    out, at = bytearray(), 1
    while at < len(value) - 1:
        if value[at] != "\\":
            out += value[at].encode()
            at += 1
        elif value[at + 1] in SIMPLE:
            out.append(SIMPLE[value[at + 1]])
            at += 2
        else:
            out.append(int(value[at + 1:at + 4], 8))
            at += 4
    return bytes(out)


def last(values, otherwise):
    return values[-1] if values else otherwise


def value_line(message):
    found = sorted((KINDS[name], name, value) for name, value in message if name in KINDS)
    if not found:
        return b"value empty"
    _, name, value = found[0]
    if name == "text":
        return b"value text " + opening.quoted(unquoted(value))
    if name in ("float", "double"):
        size, form, bits = (8, "<f", "<I") if name == "float" else (16, "<d", "<Q")
        if "nan" in value:
            return f"value {name} nan".encode()
        return f"value {name} 0x{struct.unpack(bits, struct.pack(form, float(value)))[0]:0{size}x}".encode()
    return f"value {name} {value}".encode()


def lines_of(text):
    layers = all_of(fields(text), "layers")
    lines = [b"layers %d" % len(layers)]
    for layer in layers:
        keys, values, features = (all_of(layer, name) for name in ("keys", "values", "features"))
        lines.append(b"layer %s version %s extent %s keys %d values %d features %d" % (
            opening.quoted(unquoted(last(all_of(layer, "name"), '""'))), last(all_of(layer, "version"), "1").encode(), last(all_of(layer, "extent"), "4096").encode(),
            len(keys), len(values), len(features)))
        lines += [b"key " + opening.quoted(unquoted(key)) for key in keys]
        lines += [value_line(value) for value in values]
        for feature in features:
            number = all_of(feature, "id")
            lines.append(b"feature type %d" % NAMED[last(all_of(feature, "type"), "UNKNOWN")] + (b" id " + number[-1].encode() if number else b""))
            lines += [" ".join([name, *all_of(feature, name)]).encode() for name in ("tags", "geometry")]
    return lines


def told(data):
    """The lines of protoc's answer, or `refused`."""
    run = subprocess.run(["protoc", "--decode=vector_tile.Tile", "-I", HERE, os.path.join(HERE, "vector_tile.proto")], input=data, stdout=subprocess.PIPE, stderr=subprocess.DEVNULL)
    return [b"refused"] if run.returncode else lines_of(run.stdout.decode())
