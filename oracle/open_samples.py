#!/usr/bin/env python3
"""Makes the tiles of samples/ that are given by their bytes, and what our program must print of each tile of samples/.

    open_samples.py            writes samples/NAME.mvt for each samples/NAME.txt with lines `bytes ...`, and samples/NAME.open for each NAME.mvt
    open_samples.py --check    makes them and compares

A text's lines `bytes 1a 05` are in hex, a comment begins with '#'; `./brinepost pack` makes the same bytes of it. What must be printed is said by opening.py. A
text whose tile is refused says so in its comments, `# The answer: refused 15 at P.`, and no other does.
"""

import pathlib
import re
import sys

import opening

SAMPLES = pathlib.Path(__file__).resolve().parent.parent / "samples"


def bytes_of(text):
    """The bytes of a text, or None where it has no such lines."""
    lines = [line.split("#")[0].split() for line in text.split("\n")]
    rows = [words[1:] for words in lines if words[:1] == ["bytes"]]
    return bytes.fromhex("".join(word for row in rows for word in row)) if rows else None


def made():
    """Each file that is made, with its bytes."""
    tiles = {path: path.read_bytes() for path in SAMPLES.glob("*.mvt")}
    for path in sorted(SAMPLES.glob("*.txt")):
        text = path.read_text(encoding="utf-8")
        data = bytes_of(text)
        if data is None:
            continue
        tiles[path.with_suffix(".mvt")] = data
        yield path.with_suffix(".mvt"), data
        answer = opening.text(data).decode()
        said = re.findall(r"^# The answer: (.*)\.$", text, re.MULTILINE)
        if said != ([answer.strip()] if answer.startswith("refused") else []):
            sys.exit(f"open_samples.py: {path.name} says {said}, the rules {answer.splitlines()[0]}")
    for path, data in sorted(tiles.items()):
        yield path.with_suffix(".open"), opening.text(data)


def main(arguments):
    if arguments not in ([], ["--check"]):
        sys.exit(__doc__)
    count = 0
    for path, data in made():
        count += 1
        if not arguments:
            path.write_bytes(data)
        elif not path.exists() or path.read_bytes() != data:
            sys.exit(f"open_samples.py: {path.name} is not what is made")
    print(f"open_samples.py: {count} files")


if __name__ == "__main__":
    main(sys.argv[1:])
