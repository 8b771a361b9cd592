#!/usr/bin/env python3
"""Makes tiles for readers, good ones and damaged ones: open_tiles.py [SEED [COUNT]]

Prints COUNT (100) tiles, a line each: the class and the bytes in hex. The same arguments give the same lines on every machine. The classes:

    written     as our writer lays them: fields in order, lists packed, no number longer than needed
    odd         good tiles that no writer makes: every form that PB allows
    faulty      the same with faults among their fields: wrong numbers, wire types and lengths, groups, varints that are too long
    struck      one of these with a byte changed, taken out, put in, or with its end cut off
    cut         the beginning of one of these
    completed   a beginning that some continuation makes good, with a continuation made for it
    short       a few bytes that come near to the ends of their messages
"""

import collections
import sys

import opening
from cases import Random
from opening import FEATURE, LAYER, SCHEMA, TILE, VALUE

CLASSES = ("written", "odd", "odd", "odd", "faulty", "faulty", "struck", "struck", "cut", "completed", "completed", "short")
TEXTS = [b"", b"a", b"name", b"ducts", b"PE 100", "Stra\u00dfe".encode(), "\u0928\u093e\u092e".encode(), "\U0001f6b0".encode(), b'a"b\\c', b"\x00\x1f\x7f", b"tab\there\n", b"~ !",
         b"long " * 30, "\uffff\U0010ffff".encode()]
ILL_FORMED = [b"\xff", b"Stra\xdfe", b"\xc0\x80", b"\xed\xa0\x80", b"ok\xe2\x82", b"\xf4\x90\x80\x80", b"\x80", b"\"\xfe\\"]
NUMBERS = [0, 1, 2, 3, 9, 15, 50, 127, 128, 300, 4096, 16383, 16384, 2**21 - 1, 2**21, 2**31 - 1, 2**31, 2**32 - 1]
WIDE = [2**32, 2**32 + 5, 2**35, 2**53, 2**63 - 1, 2**63, 2**64 - 2, 2**64 - 1]
UNKNOWN = [8, 9, 10, 13, 14, 16, 17, 31, 100, 2047, 2048, 18999, 19500, 262143, 2**28, 2**29 - 2, 2**29 - 1]
FAULTS = ("number 0", "a number above the most", "wire type 3, 4, 6 or 7", "a group", "a wrong wire type", "eleven bytes", "65 bits", "a length one too small", "a length one too large",
          "a length far too large", "a message of one byte", "a byte left behind")
FORMS = ("fields in any order", "an unknown number", "unknown eight bytes", "unknown bytes", "unknown four bytes", "a field number of 2^28 and more", "a known number in another message", "a single-valued field twice",
         "a list packed", "a list of single numbers", "a list packed and single", "a packed list divided", "an empty packed list", "a key longer than needed", "a key of ten bytes",
         "a length longer than needed", "a number longer than needed", "a number of ten bytes that is small", "a value without a kind", "a value of several kinds", "a higher kind before a lower one", "64 bits where 32 count",
         "type -1", "a type that MVT does not name", "bool 2^32", "bool 2^63", "no name", "no version", "no extent", "no type", "no id", "an empty layer", "an empty feature", "a text that is no UTF-8",
         "a text with bytes to be quoted", "an empty tile", "two layers of one name")


def least(number):
    """A number as a varint without a byte more than needed."""
    out = bytearray()
    while number >= 128:
        out.append(number & 127 | 128)
        number >>= 7
    out.append(number)
    return bytes(out)


def longer(number, size):
    """The same with so many bytes."""
    short = least(number)
    if size <= len(short):
        return short
    return short[:-1] + bytes([short[-1] | 128]) + b"\x80" * (size - len(short) - 1) + b"\x00"


class Maker:
    """Makes one tile. `seen` counts the forms and the faults that were put into it."""

    def __init__(self, random, is_odd, has_faults=False):
        self.random, self.is_odd, self.has_faults = random, is_odd, has_faults
        self.most = random.pick([5, 10])  # bytes of a varint that is longer than needed: some readers take keys and lengths of five at most
        self.seen = collections.Counter()

    def odd(self, one_in):
        return self.is_odd and self.random.chance(one_in)

    def note(self, form):
        self.seen[form] += 1

    def varint(self, number, what):
        """A number as a varint, now and then longer than needed."""
        if not self.odd(7):
            return least(number)
        out = longer(number, min(self.most, self.random.pick([2, 3, 5, 6, 9, 10, 10])))
        if len(out) > len(least(number)):
            self.note(f"a {what} longer than needed")
            if len(out) == 10:
                self.note({"key": "a key of ten bytes", "number": "a number of ten bytes that is small"}.get(what, "a length of ten bytes"))
        return out

    def head(self, number, wire):
        return self.varint(number << 3 | wire, "key")

    # A field is its bytes. What is given is a number, fixed bytes or a body.

    def number(self, message, number, value):
        return self.field(message, number, 0, value)

    def body(self, message, number, data):
        return self.field(message, number, 2, data)

    def field(self, message, number, wire, given):
        if self.has_faults and self.random.chance(14):
            return self.faulty(message, number, wire, given)
        return self.head(number, wire) + self.content(wire, given)

    def content(self, wire, given):
        if wire == 0:
            return self.varint(given, "number")
        return given if wire in (1, 5) else self.varint(len(given), "length") + given

    def faulty(self, message, number, wire, given):
        """The field with a fault."""
        random, fault = self.random, self.random.pick(FAULTS)
        self.note("fault: " + fault)
        plain, rest = self.head(number, wire), self.content(wire, given)
        if fault == "number 0":
            return longer(wire, random.pick([1, 1, 2, 4, 5, 6, 10])) + rest
        if fault == "a number above the most":
            return least(random.pick([2**29, 2**29 + 1, 2**30, 2**32, 2**40, 2**60]) << 3 | wire) + rest
        if fault == "wire type 3, 4, 6 or 7":
            return self.head(random.pick([number, 8, 2**29 - 1]), random.pick([3, 4, 6, 7])) + rest
        if fault == "a group":
            return self.group(random.pick([8, 16, 2**29 - 1, number]), 0) + (plain + rest if random.chance(2) else b"")
        if fault == "a wrong wire type":
            other = random.pick([0, 1, 2, 5])
            return self.head(number, other) + self.content(other, {0: 1, 1: bytes(8), 2: b"ab", 5: bytes(4)}[other])
        if fault == "eleven bytes":
            long = bytes([0x80 | random.pick([0, 1, 8, 26])]) + b"\x80" * 9 + b"\x00"
            return random.pick([long + rest, plain + long])
        if fault == "65 bits":
            return plain + bytes([0x80 | random.below(128) for _ in range(9)]) + bytes([random.pick([2, 3, 64, 127])])
        if fault == "a message of one byte":
            return self.head(number, 2) + self.varint(1, "length") + bytes([random.below(256)])
        if fault == "a byte left behind":
            return plain + rest + bytes([random.pick([0, 8, 40, 64, 66, 128, 255])])
        if not isinstance(given, bytes):
            return plain + b"\x80" * random.between(1, 9)
        by = {"a length one too small": -1, "a length one too large": 1, "a length far too large": random.pick([100, 2**14, 2**32, 2**62])}[fault]
        return plain + self.varint(max(0, len(given) + by), "length") + given

    def group(self, number, depth):
        inner = b""
        for _ in range(self.random.below(3)):
            inner += self.group(self.random.pick([1, 3, 8]), depth + 1) if depth < 2 and self.random.chance(3) else self.unknown(TILE)
        end = number if not self.random.chance(8) else number % 7 + 1
        return self.head(number, 3) + inner + self.head(end, 4)

    def unknown(self, message):
        """A field that the message does not know."""
        random = self.random
        number = random.pick(UNKNOWN)
        if random.chance(3):
            # A number that another message knows.
            number = random.pick(sorted({n for known in SCHEMA.values() for n in known} - set(SCHEMA[message])))
            self.note("a known number in another message")
        if number >= 2**28:
            self.note("a field number of 2^28 and more")
        wire = random.pick([0, 1, 2, 5])
        self.note({0: "an unknown number", 1: "unknown eight bytes", 2: "unknown bytes", 5: "unknown four bytes"}[wire])
        given = {0: lambda: random.pick(NUMBERS + WIDE), 1: lambda: self.any(8), 2: lambda: self.any(random.pick([0, 1, 2, 7, 40])), 5: lambda: self.any(4)}[wire]()
        return self.field(message, number, wire, given)

    def any(self, count):
        return bytes(self.random.below(256) for _ in range(count))

    def message(self, message, found):
        """The fields' bytes one behind the other, in any order, with unknown ones among them."""
        random = self.random
        if self.is_odd:
            while random.chance(4):
                found.insert(random.below(len(found) + 1), self.unknown(message))
            if len(found) > 1 and random.chance(2):
                self.note("fields in any order")
                for at in range(len(found) - 1, 0, -1):
                    other = random.below(at + 1)
                    found[at], found[other] = found[other], found[at]
        return b"".join(found)

    def times(self, missing):
        """How often a single-valued field comes."""
        if self.odd(5):
            self.note(missing)
            return 0
        if self.odd(5):
            self.note("a single-valued field twice")
            return self.random.between(2, 3)
        return 1

    def text(self):
        if self.odd(60):
            self.note("a text that is no UTF-8")
            return self.random.pick(ILL_FORMED)
        text = self.random.pick(TEXTS) if self.is_odd or self.random.chance(3) else b"key%d" % self.random.below(9)
        if any(byte in b'"\\' or byte < 32 or byte == 127 for byte in text):
            self.note("a text with bytes to be quoted")
        return text

    def narrow(self):
        """A number of which the low 32 bits count."""
        if self.odd(10):
            self.note("64 bits where 32 count")
            return self.random.pick(WIDE)
        return self.random.pick(NUMBERS) if self.random.chance(2) else self.random.below(4096)

    def tile(self):
        random = self.random
        if self.odd(40):
            self.note("an empty tile")
            return b""
        names = []
        found = [self.body(TILE, 3, self.layer(names)) for _ in range(random.pick([1, 1, 1, 1, 2, 3]))]
        if len(set(names)) < len(names):
            self.note("two layers of one name")
        return self.message(TILE, found)

    def layer(self, names):
        random = self.random
        if self.odd(30):
            self.note("an empty layer")
            return b""
        found = []
        for _ in range(self.times("no name")):
            names.append(self.text())
            found.append(self.body(LAYER, 1, names[-1]))
        found += [self.body(LAYER, 2, self.feature()) for _ in range(random.pick([0, 1, 1, 2, 3]))]
        found += [self.body(LAYER, 3, self.text()) for _ in range(random.below(3))]
        found += [self.body(LAYER, 4, self.value()) for _ in range(random.below(4))]
        found += [self.number(LAYER, 5, self.narrow()) for _ in range(self.times("no extent"))]
        found += [self.number(LAYER, 15, self.narrow() if self.is_odd else 2) for _ in range(self.times("no version"))]
        return self.message(LAYER, found)

    def feature(self):
        random = self.random
        if self.odd(20):
            self.note("an empty feature")
            return b""
        if random.chance(3):
            self.note("no id")
            ids = 0
        else:
            ids = self.times("no id")
        found = [self.number(FEATURE, 1, random.pick(NUMBERS + WIDE)) for _ in range(ids)]
        found += self.list(2, [random.pick(NUMBERS) if random.chance(4) else random.below(9) for _ in range(2 * random.below(4))])
        for _ in range(self.times("no type")):
            kind = random.between(1, 3)
            if self.odd(8):
                kind = random.pick([2**64 - 1, 2**32 - 1])
                self.note("type -1")
            elif self.odd(8):
                kind = random.pick([0, 4, 7, 2**31, 2**32 + 2])
                self.note("a type that MVT does not name")
            found.append(self.number(FEATURE, 3, kind))
        found += self.list(4, [self.narrow() for _ in range(random.pick([0, 3, 3, 7, 12]))])
        return self.message(FEATURE, found)

    def list(self, number, words):
        """A list of tags or geometry, packed or not; no words give no field, as our writer has it."""
        random = self.random
        if not self.is_odd:
            return [self.body(FEATURE, number, b"".join(map(least, words)))] if words else []
        runs, at = [], 0
        while at < len(words):
            end = min(len(words), at + random.pick([1, 2, 3, 20, 20]))
            runs.append(words[at:end])
            at = end
        found, forms = [], set()
        for run in runs:
            if random.chance(8):
                self.note("an empty packed list")
                found.append(self.body(FEATURE, number, b""))
            if random.chance(3):
                forms.add("single")
                found += [self.number(FEATURE, number, word) for word in run]
            else:
                forms.add("packed")
                found.append(self.body(FEATURE, number, b"".join(self.varint(word, "number") for word in run)))
        if forms == {"single"}:
            self.note("a list of single numbers")
        elif forms == {"packed"}:
            self.note("a list packed" if len(runs) == 1 else "a packed list divided")
        elif forms:
            self.note("a list packed and single")
        return found

    def value(self):
        random = self.random
        kinds = [random.between(1, 7)]
        if self.odd(8):
            self.note("a value without a kind")
            kinds = []
        while kinds and self.odd(3):
            kinds.append(random.between(1, 7))
        if len(set(kinds)) > 1:
            self.note("a value of several kinds")
            if any(a > b for a, b in zip(kinds, kinds[1:])):
                self.note("a higher kind before a lower one")
        elif len(kinds) > 1:
            self.note("a single-valued field twice")
        return self.message(VALUE, [self.one(kind) for kind in kinds])

    def one(self, kind):
        random = self.random
        if kind == 1:
            return self.body(VALUE, 1, self.text())
        if kind in (2, 3):
            return self.field(VALUE, kind, {2: 5, 3: 1}[kind], self.any({2: 4, 3: 8}[kind]))
        if kind == 7:
            number = random.below(2)
            if self.odd(4):
                number = random.pick([2, 2**32, 2**63])
                if number > 2:
                    self.note({2**32: "bool 2^32", 2**63: "bool 2^63"}[number])
            return self.number(VALUE, 7, number)
        return self.number(VALUE, kind, random.pick(NUMBERS + WIDE) if random.chance(2) else random.below(1000))


def struck(random, data):
    """The tile with one or two bytes struck."""
    for _ in range(random.pick([1, 1, 2])):
        at = random.below(len(data)) if data else 0
        way = random.below(5)
        if way == 0 and data:
            data = data[:at] + bytes([random.below(256)]) + data[at + 1:]
        elif way == 1 and data:
            data = data[:at] + bytes([data[at] ^ 1 << random.below(8)]) + data[at + 1:]
        elif way == 2:
            data = data[:at] + data[at + 1:]
        elif way == 3:
            data = data[:at] + bytes([random.pick([0, 1, 8, 26, 128, random.below(256)])]) + data[at:]
        else:
            data = data[:at]
    return data


def tile(random, seen):
    """A tile with its class."""
    which = random.pick(CLASSES)
    if which == "short":
        return which, next(iter(opening.strings(random, 1)))
    maker = Maker(random, which != "written" and not random.chance(6) or which == "odd", which == "faulty" or which in ("cut", "completed") and random.chance(4))
    data = maker.tile()
    if which == "struck":
        data = struck(random, data)
    elif which in ("cut", "completed") and data:
        data = data[:random.below(len(data) + 1)]
    if which == "completed":
        place = opening.place_of(data)
        if place is not None:
            # As far as it is viable; at the place of the fault the continuation goes another way.
            more = opening.completion(data[:place])
            if more is None:
                which, data = "cut", data[:place]
            else:
                data = data[:place] + more
    seen.update(maker.seen)
    return which, data


def tiles(seed, count, seen=None):
    random, seen = Random(seed), collections.Counter() if seen is None else seen
    for _ in range(count):
        yield tile(random, seen)


def main(arguments):
    seed, count = (int(word) for word in [*arguments, *("1", "100")[len(arguments):]])
    for which, data in tiles(seed, count):
        print(which, data.hex())


if __name__ == "__main__":
    main(sys.argv[1:])
