"""Words read back to vertices by MVT 4.3, written apart from our decoder so that the two can be compared.

A vertex is (id, x, y). The faults are those of document 01's "Reading words" as request (iii) amends it, in its order.
As a program it holds its readings against those of `both cases readings`, given on standard input.
"""

import sys

MOVE_TO, LINE_TO, CLOSE_PATH = 1, 2, 7
ROOM, COMMAND, STEP, COUNT, NO_PARAMS, CUT_PARAMS = 7, 8, 10, 16, 17, 18
INT_32 = range(-2**31, 2**31)
MOST_WORDS = 1_048_576


class Fault(Exception):
    """Its arguments are the refusal's number and its place: of the two cuts the index of the command's word, else 0."""


def step(parameter):
    """The signed value of a parameter integer: (p >> 1) ^ -(p & 1)."""
    return (parameter >> 1) ^ -(parameter & 1)


def check_command(number, count, at, follow):
    """Raises the fault of a command's word at an index that so many words follow."""
    if number not in (MOVE_TO, LINE_TO, CLOSE_PATH):
        raise Fault(COMMAND, 0)
    if count != 1 if number == CLOSE_PATH else count == 0:
        raise Fault(COUNT, 0)
    if number != CLOSE_PATH and follow < 2 * count:
        raise Fault(CUT_PARAMS if follow else NO_PARAMS, at)


def vertices(words, room=None):
    """The vertices; they must fit a list of so many numbers, if one is given."""
    found, x, y, at = [], 0, 0, 0
    while at < len(words):
        number, count = words[at] & 7, words[at] >> 3
        check_command(number, count, at, len(words) - at - 1)
        at += 1
        if number == CLOSE_PATH:
            found.append((number, x, y))
            continue
        for _ in range(count):
            x, y, at = x + step(words[at]), y + step(words[at + 1]), at + 2
            if x not in INT_32 or y not in INT_32:
                raise Fault(STEP, 0)
            found.append((number, x, y))
    if len(words) > MOST_WORDS or room is not None and 3 * len(found) > room:
        raise Fault(ROOM, 0)
    return found


def told(words, room):
    """A reading as `both cases readings` tells it."""
    try:
        return f"read {[n for vertex in vertices(words, room) for n in vertex]}"
    except Fault as fault:
        return "refused {} at {}".format(*fault.args)


def main():
    count = 0
    for line in sys.stdin:
        case, answer = line.rstrip("\n").split("\t")
        room, *words = map(int, case.split())
        if told(words, room) != answer:
            sys.exit(f"room {room}, words {words}: {told(words, room)}, in both {answer}")
        count += 1
    if count == 0:
        sys.exit("no readings given")
    print(f"{count} readings of reading.py are those of both")


if __name__ == "__main__":
    main()
