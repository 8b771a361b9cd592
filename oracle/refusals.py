"""Cases that document 01 refuses, and their nearest accepted neighbours. The Rust is never asked about them: what they
answer are the rules of document.py, and for words those of reading.py. Each kind says what its cases are.
"""

from math import inf, nan

from cases import (ABANDON, ADD, BOOL, CLOSE, FLOAT, INT, KEPT_SEED, LIMIT, LINE, POINT, POLYGON, Random, TEXT, UINT, contents,
                   create, create_strict, job, le, open_feature, random_tile, script, set_id, survey, tag)

TEN = (0, 10, 0, 10)
BEYOND = (LIMIT + 1, -LIMIT - 1, 2**31 - 1, -2**31)
BAD_BOXES = [(0, 0, 0, 10), (0, 10, 5, 5), (10, 0, 0, 10), (0, 10, 10, 0), (-LIMIT - 1, 10, 0, 10),
             (0, LIMIT + 1, 0, 10), (0, 10, -LIMIT - 1, 10), (0, 10, 0, LIMIT + 1), (-2**31, 2**31 - 1, 0, 10)]
CORNER = [(2, 2), (2, 10), (10, 10)]


def replaced(items, at, item):
    return (*items[:at], item, *items[at + 1:])


# Job files

def jobs():
    head = [LINE, *TEN]
    yield le([])
    yield le(head)
    yield le([*head, 0])  # no parts
    yield le([*head, 0, 1, 2])
    yield le([*head, 1])  # cut before the ends, and in them
    yield le([*head, 2, 0])
    yield le([*head, 2**32 - 1, 0])
    yield le([*head, 2, 1, 0])  # ends descend
    yield le([*head, 3, 1, 0, 1, 1, 2])
    yield le([*head, 1, 2, 1, 2])  # the last end is not the point count: cut short, too long
    yield le([*head, 1, 1, 1, 2, 3, 4])
    yield le([*head, 1, 1, 1])  # a coordinate list that is odd
    yield le([*head, 1, 1, 1, 2, 3])
    yield le([0, 0, 0, 0, 0, 0])  # JOB before KIND and BOX
    for kind in (0, 4, 2**32 - 1):
        yield job(kind, TEN, [[(1, 2)]])
    yield job(0, BAD_BOXES[0], [[(LIMIT + 1, 2)]])  # KIND before BOX and COORD
    for box in BAD_BOXES:
        yield job(LINE, box, [[(1, 2)]])
    yield job(LINE, BAD_BOXES[0], [[(LIMIT + 1, 2)]])  # BOX before COORD
    for kind in (POINT, LINE, POLYGON):
        for n in BEYOND:
            yield job(kind, TEN, [[(1, 2), (3, 4), (n, 5)], [(6, 7)]])
            yield job(kind, TEN, [[(1, n)]])
    yield job(POINT, TEN, [[], [(LIMIT + 1, 2)]])  # at the first refused call: EMPTY
    yield job(POINT, TEN, [[(LIMIT + 1, 2)], []])  # and COORD
    # Crossing the box costs six words a point. Of 16,384 words a line's 2,732nd point is too much, and a ring of 2,731 points wants one more for ClosePath.
    across = [(13, 9) if at % 2 else (-3, 1) for at in range(2_732)]
    yield job(LINE, TEN, [across])
    yield job(POLYGON, TEN, [across[:-1]])


# Surveys: of no replay, but of survey-check

SAME = (1, 0, 0, 0, 1, 0)
EDGE = LIMIT + 0.5
NOWHERE = (nan, inf, -inf, EDGE, -EDGE, EDGE + 2**-22, LIMIT + 1, -LIMIT - 1, 2.0**32, -2.0**63, 1e300)
SOMEWHERE = (0.49999999999999994, 0.5, -0.5, 2.5, -2.5, 5e-324, -0.0, LIMIT, -LIMIT, EDGE - 2**-23, 2**-23 - EDGE)


def surveys():
    good = survey(LINE, TEN, SAME, [[(1, 2), (3.5, 4)], [(6, 7)]])
    yield good
    yield survey(LINE, TEN, (0.5, 0.25, -1, -0.25, 0.5, 2), [[(4, 4), (8.6, -2.2)]])
    for size in range(0, len(good), 4):  # cut anywhere: in the head, in the ends, in the map, in a double, between two
        yield good[:size]
    yield good[:-1]
    for more in (1, 2, 4, 8, 16):  # too long, by a point too
        yield good + bytes(more)
    head = [LINE, *TEN]
    doubles = survey(LINE, TEN, SAME, [[]])[28:]
    yield le([*head, 0]) + doubles  # no parts
    yield le([*head, 2, 1, 0]) + doubles  # ends descend
    yield le([*head, 3, 1, 0, 1]) + doubles + bytes(16)
    yield le([*head, 2**32 - 1, 0]) + doubles
    yield le([*head, 1, 2**32 - 1]) + doubles
    yield le([0, 0, 0, 0, 0, 0])  # JOB before KIND and BOX
    for kind in (0, 4, 2**32 - 1):
        yield survey(kind, TEN, SAME, [[(1, 2)]])
    yield survey(0, BAD_BOXES[0], SAME, [[(nan, 2)]])  # KIND before BOX and COORD
    for box in BAD_BOXES:
        yield survey(LINE, box, SAME, [[(nan, 2)]])  # BOX before COORD
    for kind in (POINT, LINE, POLYGON):
        for n in NOWHERE:
            yield survey(kind, TEN, SAME, [[(1, 2), (3, 4), (n, 5)], [(6, 7)]])
            yield survey(kind, TEN, SAME, [[(1, n)]])
        for n in SOMEWHERE:
            yield survey(kind, (-LIMIT, LIMIT, -LIMIT, LIMIT), SAME, [[(1, 2), (n, 5)], [(6, n)]])
        for at in range(6):
            yield survey(kind, TEN, replaced(SAME, at, nan), [[(1, 2)]])
        yield survey(kind, TEN, (nan,) * 6, [[]])  # without points any map will do
    yield survey(POINT, TEN, SAME, [[], [(inf, 2)]])  # at the first refused call: EMPTY
    yield survey(POINT, TEN, SAME, [[(inf, 2)], []])  # and COORD
    yield survey(LINE, (-2**30 + 1, 10, 0, 10), (134217729, -1, 0, 1, 1, 1), [[(134217729, 18014398777917440)], [(1e16, -1e16)]])
    # Of 65,536 bytes: 4,091 points in one part, and one more. Words as for jobs: a line's 2,732nd point that crosses the box is too much.
    for count in (4_091, 4_092):
        yield survey(LINE, TEN, SAME, [[(at % 2 + 0.25, at // 2 % 2 - 0.25) for at in range(count)]])
    across = [(12.6, 9.4) if at % 2 else (-2.6, 0.6) for at in range(2_732)]
    for points in (across[:-1], across):
        yield survey(LINE, TEN, SAME, [points])
    yield survey(POLYGON, TEN, SAME, [across[:-1]])
    for at in (255, 256, 257, 511, 512, 1_000):
        yield survey(LINE, TEN, SAME, [[*across[:at], (nan, 1), (1, 1)]])


# Clips: x1, y1, x2, y2, x_min, x_max, y_min, y_max

def clips():
    for box in BAD_BOXES:
        yield (-5, 3, 15, 8, *box)
        yield (LIMIT + 1, 3, 15, 8, *box)  # BOX before COORD
    for at in range(4):
        for n in BEYOND:
            yield replaced((-5, 3, 15, 8), at, n) + TEN
        yield replaced((-5, 3, 15, 8), at, LIMIT) + TEN
    yield -LIMIT, LIMIT, LIMIT, -LIMIT, -LIMIT, LIMIT, -LIMIT, LIMIT


# Commands: id, count

def commands():
    for name in (0, 3, 4, 5, 6):
        for count in (0, 2**29 - 1, 2**29, 2**32 - 1):  # COMMAND before ROOM
            yield name, count
    for name in (1, 2, 7):
        for count in (2**29, 2**29 + 1, 2**32 - 1):
            yield name, count


# Calls of the encoder with the lent list's length: ("new", kind, box), ("add", point), ("end",), and ("carry", state),
# which is no call but puts a state in place. A state is kind, box, raw end, point before last, last point, last command's
# place, count, used words.

def drawn(kind, points, room):
    """The calls of a part that is not completed."""
    return [(room, "new", kind, TEN), *((room, "add", point) for point in points)]


def bad_states():
    """A line of eight words with one rule of STATE broken, in a list of eight."""
    good = (LINE, TEN, (10, 10), (2, 10), (10, 10), 3, 3, 8)
    yield from (replaced(good, 0, kind) for kind in (0, 4, 2**32 - 1))
    yield from (replaced(good, 1, box) for box in BAD_BOXES)
    for at in (2, 3, 4):
        for n in BEYOND:
            yield replaced(good, at, (n, 10))
            yield replaced(good, at, (10, n))
    yield from (replaced(good, 5, place) for place in (8, 9, 2**32 - 1))
    yield from (replaced(good, 6, count) for count in (6, 7, 2**32 - 1))
    yield from (replaced(good, 7, used) for used in (9, 2**32 - 1))
    yield replaced(replaced(good, 7, 3), 6, 3)  # count above used / 2 + 1, rounded down


def states():
    for state in bad_states():
        yield [*drawn(LINE, CORNER, 8), (8, "carry", state), (8, "add", (5, 5)), (8, "add", (LIMIT + 1, 5)), (8, "end")]
    for kind in (POINT, LINE, POLYGON):
        for n in BEYOND:  # COORD, also before ROOM
            yield [*drawn(kind, CORNER[:2], 16), (16, "add", (n, 5)), (16, "add", (5, n)), (6, "add", (n, n)), (16, "end")]
        # Room for one word less than a call asks; the next call goes on from the state given back.
        for room in range(10):
            yield [*drawn(kind, CORNER[:1], room), (room, "add", (-5, 3)), (room, "end")]
            yield [*drawn(kind, CORNER, 16), (max(room, 8), "add", (15, 8)), (max(room, 8), "end")]
        yield [(8, "new", kind, box) for box in BAD_BOXES]
    # A carried state that keeps every rule, in a longer list; a place beyond the used words is looked at only where the count is not zero.
    yield [*drawn(LINE, CORNER, 8), (16, "carry", (LINE, TEN, (10, 10), (2, 10), (10, 10), 3, 3, 8)), (16, "add", (5, 5)), (16, "end")]
    yield [*drawn(LINE, CORNER, 8), (8, "carry", (LINE, TEN, None, None, (10, 10), 99, 0, 8)), (8, "end")]
    yield [(8, "new", kind, BAD_BOXES[0]) for kind in (0, 4, 2**32 - 1)]  # KIND before BOX
    yield [*drawn(POINT, [], 8), (8, "end"), (0, "end"), (8, "add", (5, 5)), (8, "end")]  # EMPTY


# Words to be read, with the lent list's length

def readings():
    least, most = 2**32 - 1, 2**32 - 2  # the parameters of the least and the greatest i32
    for name in (0, 3, 4, 5, 6):
        for count in (0, 1, 2**29 - 1):  # COMMAND, also where a count of others would be COUNT
            yield 99, [name + 8 * count]
            yield 99, [9, 2, 2, name + 8 * count, 9]  # left to right: COMMAND before the cuts
    yield 0, [9, 2, 2, 3]  # COMMAND before ROOM
    for word in (1, 2, 7, 23, 31, 2**32 - 1):  # COUNT: a MoveTo and a LineTo of 0; a ClosePath of 0, of 2 and more
        yield 99, [word]  # before NOPARAMS
        yield 99, [word, 2]  # before CUTPARAMS
        yield 99, [word, 2, 2]
        yield 99, [9, 2, 2, word, 3, 9]  # left to right: COUNT before COMMAND
        yield 0, [9, 2, 2, 15, word]  # COUNT before ROOM
    yield 99, [3, 7]  # left to right: COMMAND before COUNT
    for name in (1, 2):
        for count, follow in ((1, 0), (1, 1), (2, 0), (2, 1), (2, 3), (3, 5), (2**29 - 1, 0), (2**29 - 1, 4)):
            yield 99, [name + 8 * count, *[2] * follow]  # NOPARAMS where no word follows, else CUTPARAMS, at 0
            yield 0, [9, 2, 2, name + 8 * count, *[2] * follow]  # at 3, before ROOM
            yield 99, [9, 2, 2, 18, 2, 2, 4, 4, 15, name + 8 * count, *[7] * follow]  # at 9, words that would be COUNT
    yield 99, [15, 9]  # NOPARAMS at 1
    yield 99, [25, most, 0, 2, 0]  # CUTPARAMS before STEP, at one command
    for end, on in ((most, 2), (least, 1)):
        yield 99, [9, end, end]
        yield 99, [17, end, 0, on, 0]
        yield 99, [17, 0, end, 0, on]
        yield 0, [9, end, end, 10, on, 0]  # STEP before ROOM
        for word in (3, 7, 9):  # left to right: STEP before COMMAND, COUNT and the cuts
            yield 99, [17, end, 0, on, 0, word]
        yield 99, [25, end, 0, on, 0, on ^ 3, 0]  # and back
    for words, room in (([9, 2, 2], 3), ([15], 3), ([9, 2, 2, 18, 2, 2, 4, 4, 15], 12)):
        yield room, words
        yield room - 1, words
        yield 0, words
    yield 0, []
    yield 9, [9, 2, 2, 15, 15]  # ClosePath twice, and first
    yield 9, [15, 10, 2, 2, 15]
    yield 9, [18, 7, 0, 23, 1]  # parameters that would be COUNT and COMMAND
    # Those of document 01 that request (iii) refuses.
    yield 0, [1, 2]
    yield 9, [9, 2, 2, 7, 23]
    yield 9, [9, 2, 2, 31]


# Tile scripts

def tiles():
    point, good = open_feature(POINT, [9, 10, 14]), tag(b"k", INT, 1)
    long_text = b"v" * 1025
    for kind in (0, 4, 2**32 - 1):
        yield script(create(b"a"), open_feature(kind), point, good, CLOSE, ADD)
        yield script(create(b"a"), point, open_feature(kind), CLOSE, ADD)  # KIND before TURN
    # A refused tag leaves the tables as they were, and a refused layer the one at hand.
    yield script(create(b"a"), point, tag(long_text, INT, 2), tag(b"new", TEXT, long_text), good, CLOSE, ADD)
    yield script(create(b"a"), tag(long_text, INT, 2), tag(b"k", TEXT, long_text), point, good, CLOSE, ADD)  # TEXT before TURN
    yield script(create(b"a"), point, good, create(long_text), CLOSE, ADD)
    yield script(create(b"a"), point, point, ADD, good, CLOSE, set_id(1), good, CLOSE, ADD, ADD)  # TURN, and on
    yield script(create(b"a", 1), point, ADD, CLOSE, ADD, create(b"a"), ADD, create(b"a", 1), ADD, ADD)  # TURN, EXTENT, NAME in this order
    yield script(create(b"a"), ADD, create(b"a"), point, ADD, CLOSE, ADD, ADD)
    yield from ill_formed_tiles(point, good)
    # What cannot be read ends the script; the bytes so far follow.
    added = [create(b"a"), point, good, CLOSE, ADD]
    for damage in (le([0]), le([8]), le([2**32 - 1]), le([1, 4096]), le([1, 4096, 5, 0]), le([1, 4096, 1, 0x6161]),
                   le([2, POINT]), le([2, POINT, 2, 9]), le([2, POINT, 2**32 - 1]), le([3, 1]), tag(b"k", 0, 0),
                   tag(b"k", 8, 0), tag(b"k", BOOL, 2), tag(b"k", INT, 1)[:-4]):
        yield script(*added, damage)
    yield b""


def ill_formed_tiles(point, good):
    """Texts that are not UTF-8; cases.py has others, each as name, key and value."""
    latin, utf8 = b"stra\xdfe", "stra\u00dfe".encode()
    yield script(create(latin), point, create(utf8), point, good, CLOSE, ADD)  # no layer yet
    yield script(create(b"a"), point, tag(latin, TEXT, b"\xe9" * 1025), good, CLOSE, ADD)  # TEXT of the text before UTF8 of the key and of the text
    # UTF8 before TURN, TURN alone, and where no layer is at hand there is no call: TURN.
    yield script(create(b"a"), tag(latin, INT, 2), tag(b"k", TEXT, latin), tag(utf8, TEXT, utf8), point, good, CLOSE, ADD, tag(latin, INT, 2))
    # A refused layer leaves the one at hand, with its feature open.
    yield script(create(b"a"), point, good, create(latin), tag(utf8, TEXT, utf8), CLOSE, ADD, create(latin, 1), ADD)
    # A refused tag leaves the tables: its key is new behind it, and a good key beside an ill-formed text too.
    yield script(create(b"a"), point, tag(b"new", TEXT, latin), tag(latin, TEXT, b"new"), tag(b"new", TEXT, b"new"), good, CLOSE, ADD)
    yield script(create(b"a"), point, *(tag(key, kind, 1) for kind in range(2, 8) for key in (latin, utf8)), CLOSE, ADD)  # every call looks at the key
    # The ends of the table's rows, both sides: a surrogate and its neighbours, the shortest and the longest form, the last scalar value.
    for texts in ((b"\x7f", b"\x80", b"\xc1\xbf", b"\xc2\x80", b"\xdf\xbf"), (b"\xe0\x9f\xbf", b"\xe0\xa0\x80", b"\xed\x9f\xbf", b"\xed\xa0\x80"),
                  (b"\xed\xbf\xbf", b"\xee\x80\x80", b"\xef\xbf\xbf", b"\xf0\x8f\xbf\xbf", b"\xf0\x90\x80\x80"),
                  (b"\xf4\x8f\xbf\xbf", b"\xf4\x90\x80\x80", b"\xef\xbb\xbf", b"\x00", b"abc\xe2\x82", b"abc\xe2\x82\xac")):
        yield script(create(b"a"), point, *(tag(b"k", TEXT, text) for text in texts), CLOSE, ADD)


# Tile scripts with strict layers (request (xiv)), which the Rust does not know. A script's lists always have room, so that AGAIN comes before ROOM is
# not to be seen here.

OPEN, K1, K2 = open_feature(POINT, [9, 10, 14]), tag(b"k", INT, 1), tag(b"k", INT, 2)


def strict_tiles():
    # Many tags, each key once, then all of them again, then one more. This one is first since it does not fit behind the ordinary scripts, so that
    # the strict ones begin a file of their own.
    many = [tag(bytes([97 + n % 26, 97 + n // 26]), UINT, n) for n in range(130)]
    yield script(create_strict(b"a"), OPEN, *many, *many, K1, CLOSE, ADD)
    yield from again_tiles()
    yield from again_in_order()
    yield from again_by_bytes()
    yield from strict_creations()
    random = Random(KEPT_SEED)
    yield from (random_tile(random, create=create_strict) for _ in range(12))


def again_tiles():
    """What the open feature has, and nothing else, is refused; the calls behind it go on."""
    a, point, new = create_strict(b"a"), OPEN, tag(b"new", TEXT, b"new")
    yield script(a, point, K1, K2, new, CLOSE, ADD)  # the refused tag's value is not stored
    yield script(a, point, K1, K1, K1, new, K1, CLOSE, ADD)  # the same value too
    for kind in range(TEXT, BOOL + 1):  # every kind behind every kind
        yield script(a, point, tag(b"k", kind, contents(kind)[1]), *(tag(b"k", other, contents(other)[1]) for other in range(TEXT, BOOL + 1)), CLOSE, ADD)
    yield script(a, point, K1, CLOSE, point, K2, K1, CLOSE, point, new, K1, new, CLOSE, ADD)  # another feature may have the key
    # Abandoned, the feature has no tags any more, and the layer is still strict.
    yield script(a, point, K1, ABANDON, point, K2, K1, CLOSE, ADD)
    yield script(a, point, K1, K2, ABANDON, point, K1, K2, CLOSE, ADD)
    yield script(a, point, K1, CLOSE, point, K2, new, K1, ABANDON, point, new, K2, new, K1, CLOSE, ADD)
    yield script(a, point, K1, ABANDON, point, new, K1, new, ABANDON, point, new, CLOSE, ADD)
    # A word of the geometry, of another feature's tags or of a value's index is no key.
    one, two, three = ([tag(key, INT, n) for n in range(3)] for key in (b"one", b"two", b"three"))
    yield script(a, point, one[0], two[1], three[2], CLOSE, point, one[1], two[2], three[0], three[1], CLOSE, point, one[2], two[0], three[1], one[0], CLOSE, ADD)
    yield script(a, open_feature(LINE, [0, 1, 0, 1]), one[0], two[0], CLOSE, open_feature(LINE, [1, 0, 1, 0]), two[0], one[0], one[0], two[0], CLOSE, ADD)
    yield script(a, point, set_id(0), K1, set_id(1), K2, CLOSE, point, K1, CLOSE, ADD)


def again_in_order():
    """The checks before AGAIN: TEXT, UTF8, TURN."""
    a, point, long_text, latin = create_strict(b"a"), OPEN, b"v" * 1025, b"stra\xdfe"
    yield script(a, point, K1, tag(b"k", TEXT, long_text), tag(b"k", TEXT, latin), tag(b"k", TEXT, b"\xe9" * 1025), tag(b"k", TEXT, b"v"), CLOSE, ADD)
    yield script(a, point, K1, tag(long_text, INT, 1), tag(long_text, INT, 1), tag(latin, INT, 1), tag(latin, INT, 1), CLOSE, ADD)  # no such key is there
    yield script(a, K1, point, K1, CLOSE, K1, K2, point, K2, K1, ABANDON, K1, K2, ADD, K1, K2)  # TURN, though the feature before it has the key
    yield script(a, point, K1, ADD, point, K2, open_feature(0), CLOSE, ADD)


def again_by_bytes():
    """Keys are one where their bytes are, and nothing else makes them one."""
    def once_and_again(*keys):
        return script(create_strict(b"a"), OPEN, *(tag(key, UINT, n) for n, key in enumerate(keys)), *(tag(key, UINT, 0) for key in keys), CLOSE, ADD)

    yield once_and_again(b"")
    yield once_and_again(b"", b"\0", b"\0\0", b" ")
    yield once_and_again(b"a", b"ab", b"abc", b"abcd", b"abcde")  # each a part of the next
    yield once_and_again(b"abcde", b"abcd", b"abc", b"ab", b"a", b"e", b"de")
    yield once_and_again(b"aab", b"aac", b"bab", b"aba", b"A")  # of one length, of one letter
    yield once_and_again("\u00e9".encode(), "e\u0301".encode(), b"e")  # nothing is normalised
    yield once_and_again(b"k" * 1024, b"k" * 1023, b"k" * 1023 + b"l", b"l" + b"k" * 1023)
    # A value's text and the layer's name are no keys.
    yield script(create_strict(b"k"), OPEN, tag(b"v", TEXT, b"k"), tag(b"k", TEXT, b"v"), tag(b"k", TEXT, b"k"), tag(b"v", TEXT, b"v"), CLOSE, ADD)
    yield script(create_strict(b""), OPEN, tag(b"", TEXT, b""), tag(b"a", TEXT, b""), tag(b"", TEXT, b"a"), CLOSE, ADD)
    # Both zeros are one value: the key alone decides.
    yield script(create_strict(b"a"), OPEN, tag(b"k", FLOAT, 0), tag(b"k", FLOAT, 2**31), tag(b"l", FLOAT, 2**31), CLOSE, ADD)


def strict_creations():
    """The layer's choice is its own, and creating asks TEXT and UTF8; what cannot be read ends the script."""
    point, long_text, latin = OPEN, b"n" * 1025, b"stra\xdfe"
    twice = point, K1, K2, K1, CLOSE
    yield script(create(b"a"), *twice, ADD, create_strict(b"b"), *twice, ADD, create(b"c"), *twice, ADD)
    yield script(create_strict(b"a"), point, K1, create(b"b"), *twice, ADD)
    yield script(create(b"a"), point, K1, create_strict(b"b"), *twice, ADD)
    # A refused layer leaves the one at hand, strict or not.
    yield script(create_strict(b"a"), point, K1, create(latin), K2, create(long_text), K2, CLOSE, ADD)
    yield script(create(b"a"), point, K1, create_strict(latin), K2, create_strict(long_text), K2, CLOSE, ADD)
    yield script(create_strict(long_text), create_strict(b"\xe9" * 1025), create_strict(latin), ADD, create_strict(b"n" * 1024), *twice, ADD)
    yield script(create_strict(b"a", 1), *twice, ADD, create_strict(b"a"), ADD, create_strict(b"a"), ADD, create(b"a"), ADD)  # EXTENT, NAME
    added = [create_strict(b"a"), *twice, ADD]
    for damage in (le([8]), le([8, 4096]), le([8, 4096, 5, 0]), le([8, 4096, 1, 0x6161]), le([9])):
        yield script(*added, damage)

