#!/usr/bin/env python3
"""Reads tiles by the rules of request (i), written apart from our code so that the two can be compared.

    opening.py FILE.mvt            prints what our program `open_tile` must print
    opening.py --lines             the same for a tile in hex on each line of standard input, a line each, with tabs between the printed lines
    opening.py --self-test [SEED [COUNT]]
                                   the vectors, and COUNT (20,000) strings on which the two judges of viability below are held against each other

What a tile says is found by the grammar (`read`), which knows nothing of places. The place of a fault is found a byte at a time: after each byte either some
continuation is a good tile or none is, which `Scan.alive` tells in closed form by how many bytes are needed at least and whether one more can be had. Two
others stand against it: `can_become_good` tries the ways in which a message can go on, without that form, and `completion` makes a continuation, which `read`
and other readers must take.
"""

import collections
import functools
import sys

from cases import Random
from utf8 import is_text

MOST_NUMBER = 536_870_911  # of a field
FILE_LIMIT = 262_144  # bytes of a file for our program
WIRE, JOB = 15, 1  # refusals

# What a known field holds, by message and number.
TILE, LAYER, FEATURE, VALUE = "tile", "layer", "feature", "value"
SCHEMA = {
    TILE: {3: LAYER},
    LAYER: {1: "text", 2: FEATURE, 3: "text", 4: VALUE, 5: "number", 15: "number"},
    FEATURE: {1: "number", 2: "packed", 3: "number", 4: "packed"},
    VALUE: {1: "text", 2: "four", 3: "eight", 4: "number", 5: "number", 6: "number", 7: "number"},
}
# The wire types that a known field may have, by what it holds, and those that any other may have.
TYPES = {"number": (0,), "four": (5,), "eight": (1,), "text": (2,), "packed": (0, 2), LAYER: (2,), FEATURE: (2,), VALUE: (2,), None: (0, 1, 2, 5)}
FIXED = {1: 8, 5: 4}

Part = collections.namedtuple("Part", "start length")
Layer = collections.namedtuple("Layer", "name version extent keys values features")  # name: a Part, or None where there is none
Value = collections.namedtuple("Value", "kind content")  # kind 0 to 7; content: a Part for a text, else the number's 64 bits or the fixed bytes' bits
Feature = collections.namedtuple("Feature", "id type tags geometry")  # id: a number or None


class Bad(Exception):
    """These bytes are no good tile."""


# ---- the grammar

def varint(data, at, end):
    """The number that begins there, and where it ends."""
    value = 0
    for i in range(10):
        if at + i >= end:
            raise Bad("cut")
        byte = data[at + i]
        value |= (byte & 127) << 7 * i
        if byte < 128:
            if value >= 2**64:
                raise Bad("over 64 bits")
            return value, at + i + 1
    raise Bad("over ten bytes")


def skip_group(data, at, end, number):
    """Where a group of that number ends, as prost skips it."""
    while True:
        key, at = varint(data, at, end)
        inner, wire = key >> 3, key & 7
        if not 1 <= inner <= MOST_NUMBER:
            raise Bad("number")
        if wire == 4 and inner == number:
            return at
        if wire == 3:
            at = skip_group(data, at, end, inner)
        elif wire in (0, 1, 2, 5):
            _, at = content(data, at, end, wire)
        else:
            raise Bad("wire type")


def content(data, at, end, wire):
    """What follows a key of that wire type, a number or a part, and where it ends."""
    if wire == 0:
        return varint(data, at, end)
    length = FIXED.get(wire)
    if length is None:
        length, at = varint(data, at, end)
    if length > end - at:
        raise Bad("past the message")
    return Part(at, length), at + length


def fields(message, data, part, groups=False):
    """The fields of a message, each as its number, wire type and content; with `groups` unknown ones are skipped as prost does."""
    at, end = part.start, part.start + part.length
    found = []
    while at < end:
        key, at = varint(data, at, end)
        number, wire = key >> 3, key & 7
        if not 1 <= number <= MOST_NUMBER:
            raise Bad("number")
        holds = SCHEMA[message].get(number)
        if groups and holds is None and wire == 3:
            at = skip_group(data, at, end, number)
            continue
        if wire not in TYPES[holds]:
            raise Bad("wire type")
        given, at = content(data, at, end, wire)
        found.append((number, wire, given))
    return found


def low(number):
    return number % 2**32


def numbers(data, given):
    """The numbers of a field of tags or geometry, packed or single."""
    if not isinstance(given, Part):
        return [low(given)]
    found, at, end = [], given.start, given.start + given.length
    while at < end:
        number, at = varint(data, at, end)
        found.append(low(number))
    return found


class Grammar:
    """Reads a tile. As prost does it: unknown groups are skipped, and texts must be UTF-8, those that do not count among them."""

    def __init__(self, data, as_prost=False):
        self.data = data
        self.as_prost = as_prost

    def fields(self, message, part):
        return fields(message, self.data, part, self.as_prost)

    def text(self, part):
        if self.as_prost and not is_text(self.data[part.start:part.start + part.length]):
            raise Bad("no UTF-8")
        return part

    def tile(self):
        return [self.layer(part) for number, _, part in self.fields(TILE, Part(0, len(self.data))) if number == 3]

    def layer(self, part):
        name, version, extent, keys, values, features = None, 1, 4096, [], [], []
        for number, _, given in self.fields(LAYER, part):
            if number == 1:
                name = self.text(given)
            elif number == 2:
                features.append(self.feature(given))
            elif number == 3:
                keys.append(self.text(given))
            elif number == 4:
                values.append(self.value(given))
            elif number == 5:
                extent = low(given)
            elif number == 15:
                version = low(given)
        return Layer(name, version, extent, keys, values, features)

    def feature(self, part):
        id_, type_, tags, geometry = None, 0, [], []
        for number, _, given in self.fields(FEATURE, part):
            if number == 1:
                id_ = given
            elif number == 2:
                tags += numbers(self.data, given)
            elif number == 3:
                type_ = low(given)
            elif number == 4:
                geometry += numbers(self.data, given)
        return Feature(id_, type_, tags, geometry)

    def value(self, part):
        last = {}
        for number, _, given in self.fields(VALUE, part):
            if number == 1:
                last[1] = self.text(given)
            elif number in (2, 3):
                last[number] = int.from_bytes(self.data[given.start:given.start + given.length], "little")
            elif number in (4, 5, 6, 7):
                last[number] = given
        kind = min(last, default=0)
        return Value(kind, last.get(kind, 0))


def layers_of(data, as_prost=False):
    """The layers of a good tile; raises Bad for any other bytes."""
    return Grammar(data, as_prost).tile()


# ---- the place of a fault

class Scan:
    """How far a tile is read. Rooms: what is left in each open message behind what is being read, the tile's without limit."""

    def __init__(self):
        self.messages, self.rooms = [TILE], [float("inf")]
        self.phase = "field"  # or key, number, length, skip, packed
        self.count, self.value = 0, 0  # of the open varint: bytes read and their value
        self.holds = None  # of the field whose key is read
        self.left = 0  # bytes left of a body

    def settle(self):
        """A field has ended, and with it every message that is full."""
        self.phase = "field"
        while len(self.rooms) > 1 and self.rooms[-1] == 0:
            self.rooms.pop()
            self.messages.pop()

    def take(self, byte):
        """The state after one more byte; false where no continuation is a good tile."""
        if self.phase == "skip":
            return self.take_body(1)
        if self.phase == "field":
            self.phase, self.count, self.value = "key", 0, 0
        if self.phase == "packed":
            self.left -= 1
        else:
            self.rooms[-1] -= 1
        self.value |= (byte & 127) << 7 * self.count
        self.count += 1
        if self.count == 10 and byte > 1:
            return False
        if byte < 128:
            if not getattr(self, self.phase + "_ends")():
                return False
        return self.alive()

    def take_body(self, length):
        """So many bytes of a body that may be any."""
        self.left -= length
        if self.left == 0:
            self.settle()
        return self.alive()

    def key_ends(self):
        number, wire = self.value >> 3, self.value & 7
        if not 1 <= number <= MOST_NUMBER:
            return False
        self.holds = SCHEMA[self.messages[-1]].get(number)
        if wire not in TYPES[self.holds]:
            return False
        self.count, self.value = 0, 0
        if wire in FIXED:
            self.phase, self.left = "skip", FIXED[wire]
            self.rooms[-1] -= self.left
        else:
            self.phase = "number" if wire == 0 else "length"
        return self.rooms[-1] >= 0

    def number_ends(self):
        self.settle()
        return True

    def length_ends(self):
        length, holds = self.value, self.holds
        self.count, self.value = 0, 0
        self.rooms[-1] -= length
        if self.rooms[-1] < 0 or self.rooms[-1] == 1:
            return False
        self.left = length
        if holds in SCHEMA:
            self.messages.append(holds)
            self.rooms.append(length)
            self.settle()
        elif length == 0:
            self.settle()
        else:
            self.phase = "packed" if holds == "packed" else "skip"
        return True

    def packed_ends(self):
        self.count, self.value = 0, 0
        if self.left == 0:
            self.settle()
        return True

    def key_can_be_right(self):
        wire = self.value & 7
        if wire not in TYPES[None] or self.value >= 2**32:
            return False
        if self.count < 5:
            return True
        number = self.value >> 3
        return number > 0 and wire in TYPES[SCHEMA[self.messages[-1]].get(number)]

    def alive(self):
        """Whether some continuation is a good tile. At least `need` bytes must follow in this message, exactly one more can only where there is `slack`, and any
        larger number always can."""
        need, slack = 0, False
        if self.phase == "key":
            if not self.key_can_be_right():
                return False
            wire = self.value & 7
            need, slack = 1 + FIXED.get(wire, 1), self.count < 9 or wire in (0, 2)
        elif self.phase == "number":
            need, slack = 1, self.count < 9
        elif self.phase == "length":
            least = self.value
            if least == 1 and self.holds in SCHEMA:
                least += 2**(7 * self.count)  # no message has one byte
            need, slack = 1 + least, self.count < 9
        elif self.phase == "packed" and self.count > 0 and self.left == 0:
            return False
        room = self.rooms[-1]
        return need <= room and (slack or room != need + 1)

    def done(self):
        return self.phase == "field" and len(self.rooms) == 1


def scanned(data):
    """The state after these bytes, or the place at which no continuation is good any more."""
    scan, at = Scan(), 0
    while at < len(data):
        if scan.phase == "skip":
            length = min(scan.left, len(data) - at)
            if not scan.take_body(length):
                raise AssertionError("a body's byte is no fault")
            at += length
        elif not scan.take(data[at]):
            return at
        else:
            at += 1
    return scan


def place_of(data):
    """The place of the fault, or None where the tile is good."""
    scan = scanned(data)
    if isinstance(scan, int):
        return scan
    return None if scan.done() else len(data)


def is_viable(data):
    """Whether some continuation of these bytes is a good tile, in closed form."""
    return not isinstance(scanned(data), int)


def read(data):
    """The layers of a good tile, or the place of its fault."""
    place = place_of(data)
    try:
        layers = layers_of(data)
    except Bad:
        if place is None:
            raise AssertionError(f"a fault without a place: {data.hex()}") from None
        return place
    if place is not None:
        raise AssertionError(f"a good tile with a fault at {place}: {data.hex()}")
    return layers


# ---- what is printed

def quoted(data):
    out, good = bytearray(b'"'), is_text(data)
    for byte in data:
        if byte in b'"\\':
            out += b"\\" + bytes([byte])
        elif 0x20 <= byte <= 0x7E or byte >= 0x80 and good:
            out.append(byte)
        else:
            out += b"\\x%02x" % byte
    return bytes(out) + b'"'


def signed(bits):
    return bits - 2**64 if bits >= 2**63 else bits


def zigzag(bits):
    return -(bits // 2) - 1 if bits % 2 else bits // 2


def value_line(data, value):
    kind, given = value
    said = {
        0: lambda: b"empty",
        1: lambda: b"text " + quoted(part_of(data, given)),
        2: lambda: b"float 0x%08x" % given,
        3: lambda: b"double 0x%016x" % given,
        4: lambda: b"int %d" % signed(given),
        5: lambda: b"uint %d" % given,
        6: lambda: b"sint %d" % zigzag(given),
        7: lambda: b"bool true" if given else b"bool false",
    }[kind]()
    return b"value " + said


def part_of(data, part):
    return b"" if part is None else data[part.start:part.start + part.length]


def lines_of(data, layers):
    """The lines that our program prints for these layers, without their line ends."""
    lines = [b"layers %d" % len(layers)]
    for layer in layers:
        lines.append(b"layer %s version %d extent %d keys %d values %d features %d" % (
            quoted(part_of(data, layer.name)), layer.version, layer.extent, len(layer.keys), len(layer.values), len(layer.features)))
        lines += [b"key " + quoted(part_of(data, key)) for key in layer.keys]
        lines += [value_line(data, value) for value in layer.values]
        for feature in layer.features:
            lines.append(b"feature type %d" % feature.type + (b"" if feature.id is None else b" id %d" % feature.id))
            lines.append(b" ".join([b"tags", *(b"%d" % tag for tag in feature.tags)]))
            lines.append(b" ".join([b"geometry", *(b"%d" % word for word in feature.geometry)]))
    return lines


def text(data):
    """What our program prints for a file, to the byte."""
    if len(data) > FILE_LIMIT:
        return b"refused %d at 0\n" % JOB
    told = read(data)
    lines = [b"refused %d at %d" % (WIRE, told)] if isinstance(told, int) else lines_of(data, told)
    return b"".join(line + b"\n" for line in lines)


def by_prost(data):
    """The lines with which prost must answer: `text` but that unknown groups are skipped and that a tile with a text that is no UTF-8 is refused, without a
    place."""
    try:
        return lines_of(data, layers_of(data, as_prost=True))
    except Bad:
        return [b"refused"]


# ---- a continuation, made

def filling(length):
    """A message of so many bytes, of fields that no message knows; there is none of one byte."""
    if length == 1:
        raise AssertionError("no message has one byte")
    if length >= 12:
        return b"\x42" + longest(length - 11) + bytes(length - 11)
    return b"\x40\x00" * (length // 2) if length % 2 == 0 else b"\x40\x80\x00" + b"\x40\x00" * ((length - 3) // 2)


def longest(number):
    """A number as a varint of ten bytes."""
    return bytes((number >> 7 * i & 127) | 128 for i in range(9)) + bytes([number >> 63])


def completion(data, most=1 << 14):
    """Bytes that make a good tile of these, which are viable, or None where a body or a message would have more than `most` left."""
    scan = scanned(data)
    added = bytearray()

    def put(*given):
        for byte in given:
            if not scan.take(byte):
                raise AssertionError(f"{data.hex()}: viable, but not with {added.hex()} {byte:02x}")
            added.append(byte)

    def body():
        """Fills a body that may be any bytes, as ASCII."""
        length = scan.left
        added.extend(b"a" * length)
        if not scan.take_body(length):
            raise AssertionError(f"{data.hex()}: viable, but not with its body")

    def ends(payload, left_over):
        """Ends the open varint, by a byte more where one byte would be left over."""
        if left_over == 1 and scan.count < 9:
            put(128 | payload, 0)
        else:
            put(payload)

    if scan.phase == "key":
        wire, least = scan.value & 7, FIXED.get(scan.value & 7, 1)
        # A number that no message knows, where it is not fixed yet.
        ends(1 if scan.count < 5 else 0, scan.rooms[-1] - 1 - least if scan.count < 9 and wire in FIXED else 0)
    if scan.phase == "number":
        ends(0, scan.rooms[-1] - 1)
    if scan.phase == "length":
        raised = scan.value == 1 and scan.holds in SCHEMA
        least = scan.value + (2**(7 * scan.count) if raised else 0)
        if least > most:
            return None
        ends(1 if raised else 0, scan.rooms[-1] - 1 - least)
    if scan.phase == "packed":
        while scan.phase == "packed":
            put(0)
    if scan.phase == "skip":
        if scan.left > most:
            return None
        body()
    while len(scan.rooms) > 1:
        room = scan.rooms[-1]
        if room > most:
            return None
        for byte in filling(room):
            put(byte)
    return bytes(added)


# ---- the slower judge

HEAPS = sorted({*range(40), *(2**k + d for k in range(5, 64) for d in (-1, 0, 1))})  # what the bytes to come may add to a varint


def ways_of(known, most=None):
    """The ways in which a varint that begins with these bytes can go on: its value, its length, and the known bytes behind it. Of lengths up to `most` all
    ways, else many."""
    for i, byte in enumerate(known[:10]):
        if byte < 128:
            value = sum((b & 127) << 7 * k for k, b in enumerate(known[:i + 1]))
            if value < 2**64:
                yield value, i + 1, known[i + 1:]
            return
    read_so_far = len(known)
    if read_so_far >= 10:
        return
    value = sum((b & 127) << 7 * k for k, b in enumerate(known))
    heaps = HEAPS if most is None else range(max(0, most - value) // 2**(7 * read_so_far) + 1)
    for more in range(1, 11 - read_so_far):
        for heap in heaps:
            if heap >= 128**more:
                break
            if value + (heap << 7 * read_so_far) < 2**64:
                yield value + (heap << 7 * read_so_far), read_so_far + more, b""


@functools.lru_cache(maxsize=None)
def has_message_of(length):
    """Whether some message has exactly so many bytes."""
    if length == 0 or length > 12:
        return True  # a key, a length written with ten bytes, and the body
    sizes = {key + number for key in range(1, 11) for number in range(1, 11)}
    sizes |= {key + size for key in range(1, 11) for size in (4, 8)}
    sizes |= {key + long + body for key in range(1, 11) for long in range(1, 11) for body in range(13)}
    return any(size <= length and has_message_of(length - size) for size in sizes)


@functools.lru_cache(maxsize=1 << 16)
def can_go_on(message, known, length):
    """Whether some good message begins with these bytes and has exactly that length, or any length for None."""
    if not known:
        return length is None or has_message_of(length)
    room = length if length is not None else float("inf")
    for key, size, rest in ways_of(known):
        number, wire = key >> 3, key & 7
        holds = SCHEMA[message].get(number)
        if not 1 <= number <= MOST_NUMBER or wire not in TYPES[holds] or size > room:
            continue
        if any(end <= room and can_go_on(message, behind, None if length is None else length - end)
               for end, behind in contents(holds, wire, rest, size, length)):
            return True
    return False


def contents(holds, wire, rest, size, length):
    """The ways in which a content can go on behind a key that ends at `size`: where it ends, and the known bytes behind it."""
    if wire == 0:
        ends = {}
        for _, more, behind in ways_of(rest):
            ends[size + more] = behind
        yield from ends.items()
    elif wire in FIXED:
        yield size + FIXED[wire], rest[FIXED[wire]:]
    else:
        most = None if length is None else length - size
        for body, more, behind in ways_of(rest, most):
            if most is not None and more + body > most:
                continue
            inner = behind[:body]
            if holds in SCHEMA and not can_go_on(holds, inner, body):
                continue
            if holds == "packed" and not can_be_numbers(inner, body):
                continue
            yield size + more + body, behind[body:]


def can_be_numbers(known, length):
    """Whether some list of varints begins with these bytes and has exactly that length."""
    while known:
        ways = [(more, behind) for _, more, behind in ways_of(known) if more <= length]
        if not ways:
            return False
        if not ways[0][1]:
            return True  # what is left may be zero bytes
        more, known = ways[0]
        length -= more
    return True


def can_become_good(data):
    """Whether some continuation is a good tile, by trying the ways to go on."""
    return can_go_on(TILE, bytes(data), None)


# ---- the vectors

GOOD = "- 1a00 f8ffffff0f00 8880808080808080800000 08ffffffffffffffffff01 1a03288000 1a030a8000 1a082206950000000000 1a06120422028000 1a06120422002200"
FAULTS = """1b:0 9b80:0 0000:0 8000:1 8080808000:4 8080808080:4 8880808010:4 8880808090:4 888080808001:5 88808080808080808001:9 18:0 9800:1 9880808080:4 1a042a:2
0880808080808080808002:10 1a01:1 1a032800:3 1a022880:3 1a020a01:3 1a030a00:3 1a030a81:3 1a051281:3 1a0a0aff:3 1a08220615:4 1a0c220a19:4 1a07220519:4 1a07220599:4
1a0c28808080808080808080:11 1a06120422028080:7 1a0612042201:5 1a051202:3 1a0c0a808080808080808080:11 1a13818180808080808080:10 1a0f858180808080808080:10
1a81808080808080808000:10"""
TOO_EARLY = "1a 98 1a08 0aff 1a040a81 1a0a0a86 1a818080808080808080 1a0b28808080808080808080 1a061202 1a12818180808080808080"


def vectors():
    """Tiles in hex with the places of their faults, None for good ones."""
    for word in GOOD.split():
        yield bytes.fromhex(word.strip("-")), None
    for word in FAULTS.split():
        tile, place = word.split(":")
        yield bytes.fromhex(tile), int(place)
    for word in TOO_EARLY.split():
        yield bytes.fromhex(word), len(word) // 2


def held(data):
    """Holds the judges of viability against each other on these bytes and every prefix of them; how many there were that are viable and that are not."""
    viable = dead = 0
    for end in range(len(data) + 1):
        said = is_viable(data[:end])
        if said != can_become_good(data[:end]):
            sys.exit(f"opening.py: {data[:end].hex()}: {'viable' if said else 'not viable'} in closed form, and not so by the ways to go on")
        if said:
            viable += 1
            more = completion(data[:end])
            if more is not None:
                layers_of(data[:end] + more)
        else:
            dead += 1
            break
    return viable, dead


OPENINGS = ("", "1a", "1a02", "1a03", "1a04", "1a05", "1a06", "1a07", "1a08", "1a0c", "1a0d", "1a0412", "1a061204", "1a08120622", "1a0a22", "1a0c220a", "1a0a2208", "1a0d220b", "1a10120e", "1a", "98")
BYTES = bytes([0, 1, 2, 3, 4, 5, 8, 10, 13, 16, 18, 20, 21, 25, 26, 34, 40, 42, 64, 66, 69, 65, 120, 122, 127, 128, 129, 130, 133, 134, 137, 143, 144, 146, 149, 153, 154, 162, 168, 255])


def strings(random, count):
    """Short strings that come near to the ends of their messages."""
    for _ in range(count):
        begin = bytes.fromhex(random.pick(OPENINGS))
        run = bytes([random.pick(BYTES)]) + bytes([random.pick([128, 128, 129, 255])]) * random.below(10) if random.chance(3) else b""
        rest = bytes(random.pick(BYTES) for _ in range(random.below(9)))
        yield begin + run + rest if random.chance(2) else begin + rest + run


def self_test(seed, count):
    tried = 0
    for data, place in vectors():
        if place_of(data) != place:
            sys.exit(f"opening.py: {data.hex()}: the place is {place_of(data)}, expected {place}")
        told = read(data)
        if (place is None) != isinstance(told, list):
            sys.exit(f"opening.py: {data.hex()}: {told}")
        tried += 1
        held(data)
    random, viable, dead = Random(seed), 0, 0
    singles = [bytes([a]) for a in range(256)]
    pairs = [bytes([a, b]) for a in range(256) for b in BYTES]
    for data in [*singles, *pairs, *strings(random, count)]:
        found = held(data)
        viable, dead = viable + found[0], dead + found[1]
    print(f"{tried} vectors; {viable} prefixes viable, {dead} not, alike in closed form and by the ways to go on; every continuation that was made is good")


def main(arguments):
    if arguments[:1] == ["--self-test"]:
        self_test(*(int(word) for word in [*arguments[1:], *("1", "20000")[len(arguments) - 1:]]))
    elif arguments == ["--lines"]:
        for line in sys.stdin:
            sys.stdout.buffer.write(text(bytes.fromhex(line)).rstrip(b"\n").replace(b"\n", b"\t") + b"\n")
    elif len(arguments) == 1:
        with open(arguments[0], "rb") as file:
            told = text(file.read())
        sys.stdout.buffer.write(told)
        sys.exit(told.startswith(b"refused"))
    else:
        sys.exit(__doc__)


if __name__ == "__main__":
    main(sys.argv[1:])
