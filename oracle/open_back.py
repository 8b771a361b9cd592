"""Tiles written by document 01's rules and read back: the layers that a tile script gives are those that are read.

What the layers are given is kept from document.py's calls; the bytes are the Rust's where it has answered the script (answers/tiles.txt), else those of document.py,
which `oracle/document-check` holds against the Rust.
"""

import os

import cases
import document
import opening
from cases import Random
from opening import Feature, Layer

ANSWERS = os.path.join(os.path.dirname(os.path.abspath(__file__)), "answers", "tiles.txt")


class Kept(document.Tile):
    """A tile that keeps the layers which were added to it."""

    def __init__(self, extent):
        super().__init__(extent)
        self.added = []

    def add(self, layer):
        super().add(layer)
        self.added.append(layer)


def run(script):
    """The script's tile with its layers."""
    of_document = document.Tile
    document.Tile = Kept
    try:
        return document.Run(script).tile
    finally:
        document.Tile = of_document


def scripts(seed, count):
    """Scripts with the Rust's bytes, or with None where it is not asked."""
    with open(ANSWERS, encoding="ascii") as file:
        for line in file:
            script, answer = line.rstrip("\n").split("\t")
            said = answer.split("; bytes ")
            yield bytes.fromhex(script), bytes.fromhex("".join(said[1].split(" ")[1:])) if len(said) == 2 else None
    random = Random(seed)
    for case in [*cases.tiles(random, count), *cases.large_tiles(random, 0)]:
        yield case, None


def given(layer):
    """A layer as it must be read, its texts as bytes and its contents as they are given."""
    features = [Feature(feature["id"], feature["kind"], feature["tags"], feature["words"]) for feature in layer.features]
    return Layer(layer.name, 2, layer.extent, layer.keys, layer.values, features)


def content(data, value):
    """A value that was read, its text as bytes and its number by 64 bits."""
    kind, bits = value
    if kind == 1:
        return kind, opening.part_of(data, bits)
    return kind, opening.zigzag(bits) % 2**64 if kind == 6 else bits


def found(data):
    """The layers that are read in the same form."""
    return [layer._replace(name=opening.part_of(data, layer.name), keys=[opening.part_of(data, key) for key in layer.keys],
                           values=[content(data, value) for value in layer.values]) for layer in opening.layers_of(data)]


def tiles(seed, count):
    """Each script's bytes, and what differs, or None."""
    for script, by_rust in scripts(seed, count):
        tile = run(script)
        data = tile.out if by_rust is None else by_rust
        differs = None
        try:
            if found(data) != [given(layer) for layer in tile.added]:
                differs = f"script {script.hex()[:2000]}: {found(data)} is read, given were {[given(layer) for layer in tile.added]}"
        except opening.Bad as bad:
            differs = f"script {script.hex()[:2000]}: {bad}"
        yield data, differs
