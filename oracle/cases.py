#!/usr/bin/env python3
"""Makes cases for the driver, a line each: cases.py KIND [SEED [COUNT]]

KIND is jobs, states, clips, params, commands, tiles, large_jobs or large_tiles.
First come the fixed cases (short ones exhaustively, each boundary by itself), then
COUNT random ones. The same arguments give the same lines on every machine.
"""

import itertools
import struct
import sys

LIMIT = 1_073_741_823  # of coordinates and box edges
FILE_LIMIT = 65_536  # bytes of a job file or a tile script
KEPT_SEED = 1
KEPT_COUNT = {"jobs": 260, "states": 60, "clips": 400, "params": 100, "commands": 40,
              "tiles": 60, "large_jobs": 8, "large_tiles": 0}


class Random:
    """SplitMix64: our own, so that no library version changes the cases."""

    def __init__(self, seed):
        self.state = seed

    def below(self, n):
        self.state = (self.state + 0x9E3779B97F4A7C15) % 2**64
        z = self.state
        z = (z ^ z >> 30) * 0xBF58476D1CE4E5B9 % 2**64
        z = (z ^ z >> 27) * 0x94D049BB133111EB % 2**64
        return (z ^ z >> 31) % n

    def between(self, low, high):
        return low + self.below(high - low + 1)

    def pick(self, items):
        return items[self.below(len(items))]

    def chance(self, one_in):
        return self.below(one_in) == 0


def le(numbers):
    """32-bit little-endian bytes; signed numbers go out as two's complement."""
    return b"".join(struct.pack("<I", n % 2**32) for n in numbers)


# Jobs

POINT, LINE, POLYGON = 1, 2, 3
BOXES = [
    (0, 10, 0, 10), (0, 1, 0, 1), (0, 100, 0, 100), (-3, 4, 2, 9), (-64, 4160, -64, 4160),
    (-7, -2, -5, -1), (-LIMIT, LIMIT, -LIMIT, LIMIT), (LIMIT - 1, LIMIT, -LIMIT, 1 - LIMIT),
]


def job(kind, box, parts):
    """A job file."""
    ends = list(itertools.accumulate(len(part) for part in parts))
    points = [n for part in parts for point in part for n in point]
    return le([kind, *box, len(parts), *ends, *points])


def survey(kind, box, coefficients, parts):
    """A survey: a job file to its last part's end, then doubles, those of the map and those of the points."""
    head = job(kind, box, [[(0, 0)] * len(part) for part in parts])[:4 * (6 + len(parts))]
    doubles = [*coefficients, *(n for part in parts for point in part for n in point)]
    return head + struct.pack(f"<{len(doubles)}d", *doubles)


def near(random, low, high):
    """A coordinate at or around the edges low and high, or anywhere."""
    choice = random.below(12)
    if choice < 6:
        n = random.pick([low, high]) + random.between(-1, 1)
    elif choice < 9:
        n = random.between(low, high)
    elif choice < 11:
        n = random.between(low - 5, high + 5)
    else:
        n = random.pick([0, -LIMIT, 1 - LIMIT, LIMIT - 1, LIMIT, random.between(-LIMIT, LIMIT)])
    return max(-LIMIT, min(LIMIT, n))


def near_point(random, box):
    return near(random, box[0], box[1]), near(random, box[2], box[3])


def random_part(random, box, last):
    """A part; last is the raw point before it, if there is one."""
    style = random.below(6)
    size = random.pick([0, 1, 1, 2, 2, 3, 4, 5, 7])
    part = [near_point(random, box) for _ in range(size)]
    if style == 1 and size:  # equal points
        part = [random.pick(part[:2]) for _ in part]
    elif style == 2 and size:  # a run along one axis, sometimes turning back
        axis, step = random.below(2), random.pick([-1, 1]) * random.between(1, 3)
        point = list(part[0])
        for at in range(1, size):
            point[axis] += -step if random.chance(5) else step
            part[at] = tuple(max(-LIMIT, min(LIMIT, n)) for n in point)
    elif style == 3:  # across the whole box, which costs the most words
        far = max(box[0] - 3, -LIMIT), min(box[1] + 3, LIMIT)
        part = [(far[at % 2], near(random, box[2], box[3])) for at in range(size)]
    if last and size and random.chance(3):  # starts on the last point, as it was or clamped
        x, y = last
        clamped = max(box[0], min(box[1], x)), max(box[2], min(box[3], y))
        part[0] = random.pick([last, clamped])
    return part


def random_job(random, sizes=(1, 1, 2, 2, 3, 5)):
    box = random.pick(BOXES)
    if random.chance(4):
        x, y = random.between(-50, 50), random.between(-50, 50)
        box = (x, x + random.between(1, 30), y, y + random.between(1, 30))
    parts, last = [], None
    for _ in range(random.pick(sizes)):
        parts.append(random_part(random, box, last))
        last = parts[-1][-1] if parts[-1] else last
    return job(random.between(1, 3), box, parts)


def damaged_job(random, good):
    """A good job with one thing broken. Most of these document 01 refuses."""
    numbers = list(struct.unpack(f"<{len(good) // 4}I", good))
    parts = numbers[5]
    body = 6 + parts
    choice = random.below(10)
    if choice == 0:
        numbers = numbers[:random.below(len(numbers))]
    elif choice == 1:
        numbers.append(0)
    elif choice == 2:
        return good[:-1]
    elif choice == 3:
        numbers[0] = random.pick([0, 4, 2**32 - 1])
    elif choice == 4:
        numbers[2] = numbers[1] - random.below(2)
    elif choice == 5:
        numbers[3] = numbers[4] + random.below(2)
    elif choice == 6:
        numbers[random.between(1, 4)] = random.pick([LIMIT + 1, -LIMIT - 1, 2**31 - 1, -2**31])
    elif choice == 7:
        numbers[5] = random.pick([0, parts + 1, parts - 1, 2**30, 2**32 - 1])
    elif choice == 8:
        numbers[random.between(6, body - 1)] += random.pick([-1, 1, 2**31])
    elif len(numbers) > body:
        numbers[random.between(body, len(numbers) - 1)] = \
            random.pick([LIMIT + 1, -LIMIT - 1, 2**31 - 1, -2**31])
    return le(numbers)


def sample_jobs():
    """Document 01's sample jobs, and others that hit one boundary each."""
    ten, hundred = (0, 10, 0, 10), (0, 100, 0, 100)
    corner = [(2, 2), (2, 10), (10, 10)]
    widest = (-LIMIT, LIMIT, -LIMIT, LIMIT)
    ends = [(-LIMIT, LIMIT), (LIMIT, -LIMIT)]
    yield job(POINT, hundred, [[(5, 7), (3, 2)]])
    yield job(LINE, ten, [corner])
    yield job(LINE, ten, [corner, [(1, 1), (3, 5)]])
    yield job(POLYGON, hundred, [[(3, 6), (8, 12), (20, 34)]])
    yield job(POLYGON, ten, [[(0, 0), (4, 0), (9, 0), (9, 9)]])
    yield job(POLYGON, ten, [[(0, 0), (4, 0), (4, 4)], [(4, 4), (8, 4), (8, 8)]])
    yield job(LINE, ten, [[(-5, 3), (15, 8)]])
    for kind in (POINT, LINE, POLYGON):
        yield job(kind, ten, [[]])  # a feature without words; the Rust panics on points
        yield job(kind, ten, [[], []])
        yield job(kind, ten, [[], [(1, 2)]])
        yield job(kind, ten, [[(1, 2)], []])
        yield job(kind, ten, [[(1, 2)]])
        yield job(kind, ten, [[(0, 0)]])
        yield job(kind, ten, [[(1, 2), (1, 2)]])
        yield job(kind, ten, [[(1, 2)], [(1, 2)], [(1, 2), (3, 4)]])
        yield job(kind, ten, [[(1, 2), (3, 4)]])
        yield job(kind, ten, [[(1, 2), (3, 4)], [(3, 4), (5, 6), (7, 9)]])
        yield job(kind, ten, [[(12, 5), (20, 30)], [(10, 10), (5, 5)]])
        yield job(kind, widest, [ends, ends[::-1]])
        for edge in (LIMIT, LIMIT + 1):
            yield job(kind, (-edge, edge, -edge, edge), [[(1, 2), (3, 4)]])
            yield job(kind, ten, [[(1, 2), (edge, 4)]])
            yield job(kind, ten, [[(1, 2), (3, -edge)]])
        yield job(kind, (0, 0, 0, 10), [[(0, 0)]])
        yield job(kind, (0, 10, 5, 5), [[(0, 0)]])
    # Taking out: a run onwards, back, back past the start, and a turn, on each axis.
    for run in ([0, 4, 9], [9, 4, 0], [0, 9, 4], [4, 0, 9], [4, 9, 0], [4, 4, 9], [0, 4, 4, 9]):
        yield job(POLYGON, ten, [[(n, 3) for n in run]])
        yield job(POLYGON, ten, [[(3, n) for n in run] + [(5, 5)]])


def tiny_jobs():
    """Every two-point line, and every three-point ring on one axis, around box 0..1."""
    box, line = (0, 1, 0, 1), range(-1, 3)
    square = list(itertools.product(line, line))
    for points in itertools.product(square, square):
        yield job(LINE, box, [points])
    for xs in itertools.product(line, repeat=3):
        yield job(POLYGON, box, [[(x, 1) for x in xs]])
        yield job(POLYGON, box, [[(0, x) for x in xs]])


def jobs(random, count):
    yield b""
    yield from sample_jobs()
    yield from tiny_jobs()
    for at in range(count):
        good = random_job(random)
        yield damaged_job(random, good) if at % 8 == 7 else good


def states(random, count):
    yield from sample_jobs()
    for _ in range(count):
        yield random_job(random, sizes=(1, 2, 3))


def large_jobs(random, count):
    """Jobs at the program's sizes: 65,536 bytes and 16,384 words. Not kept."""
    box = (0, 10, 0, 10)
    room = (FILE_LIMIT - 4 * 7) // 8  # points of a job with one part
    for points in (room - 1, room, room + 1):
        part = [(at % 2, at // 2 % 2) for at in range(points)]
        yield job(POINT, box, [part])
        yield job(POINT, box, [part, []])  # of room points: 65,536 bytes exactly
    # Crossing the box costs six words a point: 2,731 points of a line fill the words.
    for points in (2730, 2731, 2732):
        part = [(13, 9) if at % 2 else (-3, 1) for at in range(points)]
        yield job(LINE, box, [part])
        yield job(POLYGON, box, [part])
    for _ in range(count):
        box = random.pick(BOXES)
        points = random.between(room // 4, room)
        yield job(random.between(1, 3), box, [[near_point(random, box) for _ in range(points)]])


# Clips, parameters, commands

def clips(random, count):
    def around(low, high, box):
        return (segment + box for segment in itertools.product(range(low, high + 1), repeat=4))

    yield from around(-1, 2, (0, 1, 0, 1))
    yield from around(-1, 3, (0, 2, 0, 2))
    yield -10, 0, 990, 51, 0, 10, 0, 10
    yield -1, 0, 1, -1, 0, 10, 0, 10
    yield 0, -1, -1, 1, 0, 10, 0, 10
    yield -2, 1, 1, -1, 0, 3, 0, 3
    for edge in (LIMIT, LIMIT + 1):
        yield -edge, -edge, edge, edge, 0, 10, 0, 10
        yield -5, 3, 15, 8, -edge, edge, -edge, edge
    yield -5, 3, 15, 8, 0, 0, 0, 10
    yield -5, 3, 15, 8, 0, 10, 10, 0
    for _ in range(count):
        box = random.pick(BOXES)
        yield near_point(random, box) + near_point(random, box) + box


def params(random, count):
    powers = [2**k for k in range(32)]
    edges = {sign * p + d for p in powers for sign in (1, -1) for d in (-1, 0, 1)}
    yield from ((n,) for n in sorted(edges) if -2**31 <= n < 2**31)
    for _ in range(count):
        yield (random.between(-2**31, 2**31 - 1),)


def commands(random, count):
    counts = sorted({2**k + d for k in range(30) for d in (-1, 0, 1)})
    yield from itertools.product((1, 2, 7), [n for n in counts if n < 2**29])
    yield from ((n, 1) for n in (0, 3, 4, 5, 6, 8))
    yield 1, 2**29
    for _ in range(count):
        yield random.pick([1, 2, 7]), random.below(2**29)


# Tile scripts

TEXT, FLOAT, DOUBLE, INT, UINT, SINT, BOOL = range(1, 8)
# Lengths of a varint change at these numbers.
STEPS = sorted({2**(7 * k) + d for k in range(1, 10) for d in (-1, 0, 1)})
LONGS = [n % 2**64 for n in (0, 1, -1, 2, -2, 2**63 - 1, -2**63, *STEPS, *(-n for n in STEPS))]
FLOATS = [0, 0x8000_0000, 0x3F80_0000, 0xBF80_0000, 1, 0x7F80_0000, 0xFF80_0000, 0x7FC0_0000,
          0x7FC0_0001, 0xFFC0_0000]
DOUBLES = [0, 2**63, 0x3FF0 << 48, 0xBFF0 << 48, 1, 0x7FF0 << 48, 0x7FF8 << 48, (0x7FF8 << 48) + 1]
TEXTS = [b"", b"a", b"b", b"ab", b"abc", b"abcd", b"name", "\u00e9".encode(), "\u65e5\u672c".encode()]
# No texts: bytes of Latin-1, bytes that only continue, longer forms than needed, a surrogate, sequences that are cut, and what
# lies beyond U+10FFFF.
ILL_FORMED = [b"\xe9", b"\x80", b"\xc0\xaf", b"\xc3", b"\xe0\x80\xaf", b"\xed\xa0\x80", b"\xe2\x82", b"\xf0\x80\x80\xaf",
              b"\xf4\x90\x80\x80", b"\xf5\x80\x80\x80", b"abcd\xff", b"nam\xe9s"]
EXTENTS = [0, 1, 127, 128, 4096, 2**32 - 1]


def text(content):
    return le([len(content)]) + content + bytes(-len(content) % 4)


def long(n):
    return le([n % 2**32, n >> 32])


def create(name, extent=4096):
    return le([1, extent]) + text(name)


def create_strict(name, extent=4096):
    return le([8, extent]) + text(name)


def open_feature(kind, words=()):
    return le([2, kind, len(words), *words])


def set_id(n):
    return le([3]) + long(n)


def tag(key, kind, content):
    if kind == TEXT:
        return le([4]) + text(key) + le([kind]) + text(content)
    return le([4]) + text(key) + le([kind]) + (le([content]) if kind in (FLOAT, BOOL) else long(content))


CLOSE, ABANDON, ADD = le([5]), le([6]), le([7])


def script(*operations, extent=4096):
    return le([extent]) + b"".join(operations)


def contents(kind):
    return {TEXT: TEXTS, FLOAT: FLOATS, DOUBLE: DOUBLES, BOOL: [0, 1]}.get(kind, LONGS)


def sample_tiles():
    """Scripts that hit one boundary each."""
    point = open_feature(POINT, [9, 10, 14])
    yield script()
    yield script(create(b"a"))  # created, never added
    yield script(create(b"a"), ADD)
    for extent in EXTENTS:
        yield script(create(b"a", extent), ADD, extent=extent)
        yield script(create(b"a", extent), ADD)
    yield script(create(b"a"), ADD, create(b"b"), ADD, create(b"a"), ADD, create(b"c", 1), ADD,
                 create(b"c"), ADD)
    yield script(create(b"a"), point, CLOSE, ADD, create(b"a"), point, CLOSE, create(b""), ADD)
    for kind in (POINT, LINE, POLYGON):
        yield script(create(b"a"), open_feature(kind), CLOSE, ADD)
        yield script(create(b"a"), open_feature(kind, [9, 4, 4, 18, 0, 16, 16, 0]), CLOSE, ADD)
    # Words at every varint length, as given.
    words = [n for n in [0, 1, *STEPS, 2**32 - 1] if n < 2**32]
    yield script(create(b"a"), open_feature(LINE, words), CLOSE, ADD)
    for number in (0, 1, 127, 128, 2**32 - 1, 2**32, 2**63, 2**64 - 1):
        yield script(create(b"a"), point, set_id(number), CLOSE, ADD)
    yield script(create(b"a"), point, set_id(5), set_id(6), CLOSE, point, set_id(6), CLOSE, ADD)
    # Every content of every kind, each twice: the second time it is found.
    for kind in range(TEXT, BOOL + 1):
        tags = [tag(b"k", kind, content) for content in contents(kind)]
        yield script(create(b"a"), point, *tags, *tags, CLOSE, ADD)
    # The same bits under different kinds, and both zeros in both orders.
    for n in (0, 1):
        tags = [tag(b"k", kind, n) for kind in range(FLOAT, BOOL + 1)]
        yield script(create(b"a"), point, *tags, CLOSE, ADD)
    for zeros in ((0, 0x8000_0000), (0x8000_0000, 0)):
        yield script(create(b"a"), point, *(tag(b"k", FLOAT, n) for n in zeros), CLOSE, ADD)
        yield script(create(b"a"), point, *(tag(b"k", DOUBLE, n << 32) for n in zeros), CLOSE, ADD)
    yield script(create(b"a"), point, tag(b"k", INT, 1), tag(b"k", INT, 1), tag(b"k", INT, 2), CLOSE, ADD)
    # Abandoning: new entries go, old ones stay, and what went comes back as new.
    old, new = tag(b"old", INT, 1), tag(b"new", TEXT, b"new")
    yield script(create(b"a"), point, old, ABANDON, ADD)
    yield script(create(b"a"), point, old, CLOSE, point, old, new, ABANDON, point, new, old, CLOSE, ADD)
    yield script(create(b"a"), point, new, ABANDON, point, tag(b"other", TEXT, b"new"), new, CLOSE, ADD)
    yield script(create(b"a"), point, old, create(b"b"), ADD)  # the new layer takes its place
    # Nested lengths around one byte's 127: geometry, tags, feature, layer, value, texts.
    for size in (114, 115, 116, 117, 118, 119, 125, 126, 127, 128):
        yield script(create(b"a"), open_feature(LINE, [0] * size), CLOSE, ADD)
        yield script(create(b"n" * size), ADD)
    for size in (63, 64):
        yield script(create(b"a"), point, *[tag(b"k", BOOL, 1)] * size, CLOSE, ADD)
    for size in (125, 126, 127, 128):
        yield script(create(b"a"), point, tag(b"k" * size, TEXT, b"v" * size), CLOSE, ADD)
    # More keys than one byte's index.
    tags = [tag(bytes([97 + n % 26, 97 + n // 26]), UINT, n) for n in range(130)]
    yield script(create(b"a"), point, *tags, CLOSE, ADD)
    for size in (1023, 1024, 1025):
        yield script(create(b"n" * size), ADD)
    yield script(create(b"a"), point, tag(b"k" * 1024, TEXT, b"v" * 1024), CLOSE, ADD)
    yield script(create(b"a"), point, tag(b"k" * 1025, INT, 0), CLOSE, ADD)
    yield script(create(b"a"), point, tag(b"k", TEXT, b"v" * 1025), CLOSE, ADD)
    # Outside the comparison: turns the Rust's ownership rules out, and damage.
    for operation in (point, set_id(1), old, CLOSE, ABANDON, ADD):
        yield script(operation)
        yield script(create(b"a"), ADD, operation)
    for operation in (set_id(1), old, CLOSE, ABANDON):
        yield script(create(b"a"), operation)
    yield script(create(b"a"), point, point)
    yield script(create(b"a"), point, ADD)
    yield script(create(b"a", 1), ADD, ADD)
    yield script(create(b"a"), open_feature(0), CLOSE, ADD)
    yield script(create(b"a"), open_feature(4), CLOSE, ADD)
    yield script(create(b"\xe9"), ADD)
    yield script(create(b"a"), point, tag(b"k", 8, 0), CLOSE, ADD)
    yield script(create(b"a"), point, tag(b"k", BOOL, 2), CLOSE, ADD)
    # No text as a layer's name, as a key and as a value, and the calls after it.
    for bad in ILL_FORMED:
        yield script(create(b"a"), create(bad), point, tag(bad, INT, 1), tag(b"k", TEXT, bad), tag(b"k", INT, 1), CLOSE, ADD)
    yield script(create(b"a"), le([0]))
    yield script(create(b"a"), le([8]))
    yield b""


def random_tile(random, texts=TEXTS, create=create):
    extent = random.pick(EXTENTS)
    operations = []
    for _ in range(random.between(1, 3)):
        other = random.chance(5)
        operations.append(create(random.pick(texts), random.pick(EXTENTS) if other else extent))
        for _ in range(random.below(4)):
            words = [random.pick([random.below(200), random.below(2**32)]) for _ in range(random.below(8))]
            operations.append(open_feature(random.between(1, 3), words))
            if random.chance(2):
                operations.append(set_id(random.pick(LONGS)))
            for _ in range(random.below(5)):
                kind = random.between(TEXT, BOOL)
                values = texts if kind == TEXT else contents(kind)
                operations.append(tag(random.pick(texts), kind, random.pick(values)))
            operations.append(ABANDON if random.chance(3) else CLOSE)
        operations.append(ADD)
    return script(*operations, extent=extent)


def damaged_tile(random, good):
    choice = random.below(3)
    if choice == 0:
        return good[:random.below(len(good))]
    if choice == 1:
        return good + le([random.pick([0, 1, 4, 5, 6, 7, 8, 2**32 - 1])])
    at = 4 * random.below(len(good) // 4)
    return good[:at] + le([random.below(10)]) + good[at + 4:]


def tiles(random, count):
    yield from sample_tiles()
    for at in range(count):
        # Three of 64 have names, keys and values that are no texts; the 60 that are kept come before them.
        good = random_tile(random, TEXTS * 3 + ILL_FORMED if at % 64 in (60, 61, 62) else TEXTS)
        yield damaged_tile(random, good) if at % 8 == 7 else good


def large_tiles(_random, _count):
    """Scripts whose nested lengths pass two bytes, and of 65,536 bytes. Not kept."""
    for more in range(-20, 10):  # geometry, feature and layer each pass 16,383 bytes
        words = [2**32 - 1] * 3270 + [0] * (2**14 - 5 * 3270 + more)
        yield script(create(b"a"), open_feature(LINE, words), CLOSE, ADD)
    head = len(script(create(b"a"), open_feature(LINE), CLOSE, ADD))
    for more in (-1, 0, 1):
        words = [128] * ((FILE_LIMIT - head) // 4 + more)
        yield script(create(b"a"), open_feature(LINE, words), CLOSE, ADD)


KINDS = {f.__name__: f for f in (jobs, states, clips, params, commands, tiles, large_jobs, large_tiles)}


def lines(kind, seed=KEPT_SEED, count=None):
    """The cases of a kind as the driver reads them."""
    count = KEPT_COUNT[kind] if count is None else count
    for case in KINDS[kind](Random(seed), count):
        yield case.hex() if isinstance(case, bytes) else " ".join(map(str, case))


def main(arguments):
    if not 1 <= len(arguments) <= 3 or arguments[0] not in KINDS:
        sys.exit(f"usage: cases.py {'|'.join(KINDS)} [SEED [COUNT]]")
    for line in lines(arguments[0], *map(int, arguments[1:])):
        print(line)


if __name__ == "__main__":
    main(sys.argv[1:])
