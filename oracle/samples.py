#!/usr/bin/env python3
"""Runs document 01's samples through the Rust and tells every mismatch.

The right-hand sides are copied from document 01. Where it names a refusal that
the Rust does not have, the driver must say which test puts the case outside.

The Rust maps no doubles onto a grid of whole numbers. Of each survey of samples/ it
is asked the grid points, reckoned exactly (mapping.py); the answer in the survey's
text must be its words, or the refusal of document.py.
"""

import re
import sys

import cases
import document
import keep
from cases import ADD, LIMIT, LINE, POINT, POLYGON, TEXT, create, create_strict, job, open_feature, script, tag

TEN, HUNDRED = (0, 10, 0, 10), (0, 100, 0, 100)
CORNER = [(2, 2), (2, 10), (10, 10)]
ACCEPTED = "accepted"  # document 01 says no more than that


def words(text):
    return f"words {len(text.split())} {text}"


def named_tile(length):
    return script(create(b"n" * length), ADD).hex()


def tagged_tile(key, value):
    return script(create(b"a"), open_feature(POINT), tag(b"k" * key, TEXT, b"v" * value)).hex()


# Kind of case, case, what document 01 says.
SAMPLES = [
    ("params", "0", "0"),
    ("params", "-1", "1"),
    ("params", "1", "2"),
    ("params", "2147483647", "4294967294"),
    ("params", "-2147483648", "4294967295"),
    ("jobs", job(POINT, HUNDRED, [[(5, 7), (3, 2)]]).hex(), words("17 10 14 3 9")),
    ("jobs", cases.le([1, 0, 100, 0, 100, 1, 2, 5, 7, 3, 2]).hex(), words("17 10 14 3 9")),
    ("jobs", job(LINE, TEN, [CORNER]).hex(), words("9 4 4 18 0 16 16 0")),
    ("jobs", job(LINE, TEN, [CORNER, [(1, 1), (3, 5)]]).hex(),
     words("9 4 4 18 0 16 16 0 9 17 17 10 4 8")),
    ("jobs", job(POLYGON, HUNDRED, [[(3, 6), (8, 12), (20, 34)]]).hex(),
     words("9 6 12 18 10 12 24 44 15")),
    ("jobs", job(POLYGON, TEN, [[(0, 0), (4, 0), (9, 0), (9, 9)]]).hex(),
     words("9 0 0 18 18 0 0 18 15")),
    ("jobs", job(POLYGON, TEN, [[(0, 0), (4, 0), (4, 4)], [(4, 4), (8, 4), (8, 8)]]).hex(),
     words("9 0 0 18 8 0 0 8 15 18 8 0 0 8 15")),
    ("jobs", job(LINE, TEN, [[(-5, 3), (15, 8)]]).hex(), words("9 0 6 26 0 2 20 6 0 2")),
    ("clips", "-10 0 990 51 0 10 0 10", "0 1 10 2"),
    ("clips", "-1 0 1 -1 0 10 0 10", "0 0 0 0"),
    ("clips", "0 -1 -1 1 0 10 0 10", "0 0 -1 1"),
    ("tiles", script(create(b"a"), ADD).hex(),
     "outcomes ok ok; tags; bytes 10 1a080a01612880207802"),
    # Limits: what is beyond is ours to refuse (3, 5, 3, 11), not the Rust's.
    ("jobs", job(POINT, (0, LIMIT, 0, 10), [[(1, 2)]]).hex(), ACCEPTED),
    ("jobs", job(POINT, (0, LIMIT + 1, 0, 10), [[(1, 2)]]).hex(), "outside BOX"),
    ("jobs", job(POINT, TEN, [[(LIMIT, 2)]]).hex(), ACCEPTED),
    ("jobs", job(POINT, TEN, [[(LIMIT + 1, 2)]]).hex(), "outside COORD"),
    ("jobs", job(POINT, (0, 0, 0, 0), [[(1, 2)]]).hex(), "outside BOX"),
    ("tiles", named_tile(1024), ACCEPTED),
    ("tiles", named_tile(1025), "outside TEXT at 1"),
    ("tiles", tagged_tile(1024, 1024), ACCEPTED),
    ("tiles", tagged_tile(1025, 1), "outside TEXT at 3"),
    ("tiles", tagged_tile(1, 1025), "outside TEXT at 3"),
    # Request (xiv): the Rust has no strict layers.
    ("tiles", script(create_strict(b"a"), ADD).hex(), "outside JOB at 1"),
]


def surveys():
    """A sample for each accepted survey of samples/: the job of its grid points, with the words of its text. A refused one is held to document.py here."""
    for file in sorted((keep.ORACLE.parent / "samples").glob("*.survey")):
        expected = re.search(r"^# The (?:answer|words): (.*)\.$", file.with_suffix(".txt").read_text(), re.M)[1]
        data = file.read_bytes()
        try:
            document.survey(data)
            yield "jobs", job(*document.survey_parts(data)).hex(), words(expected)
        except document.Refused as refused:
            told = f"refused {refused.number} at {refused.accepted}"
            assert told == expected, f"{file.name}: document.py says {told}, the text {expected}"


def main():
    wrong = 0
    samples = [*SAMPLES, *surveys()]
    for kind, case, expected in samples:
        answer, = keep.ask(kind, [case])
        if expected == ACCEPTED and not answer.startswith("outside"):
            continue
        if answer != expected:
            wrong += 1
            print(f"{kind} {case}\n  document 01: {expected}\n  the Rust:    {answer}")
    print(f"{len(samples) - wrong} passed, {wrong} failed")
    sys.exit(wrong != 0)


if __name__ == "__main__":
    main()
