"""The rules of document 01, written out without regard for speed: what each call answers, refusals too; UTF8 is request (viii)'s,
surveys are request (x)'s, strict layers with AGAIN are request (xiv)'s.

They follow document 01's text and not our Rattle code. Who wrote them had read the Rust too, so a passage of document 01
that can be read two ways may have been read the Rust's way. A refused call raises Refused; its checks stand in the order
of document 01's table, with ROOM last.
"""

import copy
import struct
from fractions import Fraction
from math import floor

from cases import FILE_LIMIT, LIMIT, le
from mapping import grid, of_bits
from utf8 import is_text

POINT, LINE, POLYGON = 1, 2, 3
JOB, KIND, BOX, STATE, COORD, EMPTY, ROOM, COMMAND = range(1, 9)
TEXT, TURN, EXTENT, NAME = range(11, 15)
UTF8, AGAIN = 22, 23

MAX_WORDS = 1_048_576  # of a geometry
MAX_COUNT = 2**29 - 1  # of a command: a word has 29 bits beside the id
MAX_TEXT = 1_024  # bytes
PROGRAM_WORDS = 16_384  # the program's word buffer


class Refused(Exception):
    def __init__(self, number, accepted=0):
        super().__init__(number, accepted)
        self.number, self.accepted = number, accepted


def check(holds, number):
    if not holds:
        raise Refused(number)


# Words

def param(n):
    return 2 * n if n >= 0 else -2 * n - 1


def command(name, count):
    check(name in (1, 2, 7), COMMAND)
    check(count <= MAX_COUNT, ROOM)
    return name + 8 * count


# Cutting a segment

def is_box(box):
    x_min, x_max, y_min, y_max = box
    return x_min < x_max and y_min < y_max and all(-LIMIT <= edge <= LIMIT for edge in box)


def is_coord(point):
    return all(-LIMIT <= n <= LIMIT for n in point)


def crossing(p, q, x, a, b):
    """The y where the segment crosses x, or None."""
    (x1, y1), (x2, y2) = sorted([p, q], key=lambda point: point[0])
    if x < x1 or x > x2 or x1 == x2 or max(y1, y2) < a or min(y1, y2) > b:
        return None
    # Halves go up, below zero too; the rounding is of the offset from the end,
    # a whole number away from the crossing, so it is the same.
    y = floor(y1 + Fraction((y2 - y1) * (x - x1), x2 - x1) + Fraction(1, 2))
    return y if a <= y <= b else None


def swapped(point):
    return point[1], point[0]


def clip(p, q, box):
    check(is_box(box), BOX)
    check(is_coord(p) and is_coord(q), COORD)
    x_min, x_max, y_min, y_max = box
    if max(p[0], q[0]) < x_min or min(p[0], q[0]) > x_max \
            or max(p[1], q[1]) < y_min or min(p[1], q[1]) > y_max:
        return p, q
    for axis, edge, sign, a, b in ((0, x_min, -1, y_min, y_max), (0, x_max, 1, y_min, y_max),
                                   (1, y_min, -1, x_min, x_max), (1, y_max, 1, x_min, x_max)):
        turn = swapped if axis else tuple
        met = crossing(turn(p), turn(q), edge, a, b)
        if met is None:
            continue
        if sign * p[axis] > sign * edge:
            p = turn((edge, met))
        elif sign * q[axis] > sign * edge:
            q = turn((edge, met))
    return p, q


# The encoder

class Encoder:
    """A state and the lent list: `memory` is as much of it as has been written, `room` its length."""

    def __init__(self, kind, box, room):
        self.kind, self.box = kind, box
        self.raw = self.before = self.last = None
        self.place = self.count = self.used = 0
        self.memory, self.room = [], min(room, MAX_WORDS)

    def words(self):
        """The used words, as far as the list goes."""
        return self.memory[:min(self.used, self.room)]

    def check_state(self):
        check(self.used <= self.room, STATE)
        check(self.count <= self.used // 2 + 1, STATE)
        check(self.count == 0 or self.place < self.used, STATE)
        check(self.kind in (POINT, LINE, POLYGON) and is_box(self.box), STATE)
        check(all(p is None or is_coord(p) for p in (self.raw, self.before, self.last)), STATE)

    def write(self, *words):
        self.memory[self.used:self.used + len(words)] = words
        self.used += len(words)

    def push(self, name):
        self.place = self.used
        self.write(command(name, 1))

    def emit(self, point):
        x_min, x_max, y_min, y_max = self.box
        x, y = max(x_min, min(x_max, point[0])), max(y_min, min(y_max, point[1]))
        if (x, y) == self.last:
            self.count = max(self.count, 1)
            return
        if self.count == 0:
            self.push(1)
        elif self.count == 1 and self.kind != POINT:
            self.push(2)
        if self.kind == POLYGON and self.count >= 2 and self.between(x, y):
            self.used -= 2
            self.last = self.before
            self.count -= 1
        from_x, from_y = self.last or (0, 0)
        self.write(param(x - from_x), param(y - from_y))
        self.before, self.last = self.last, (x, y)
        self.count += 1

    def between(self, x, y):
        """Whether the last point lies strictly between its neighbours on one axis line."""
        if self.before is None:
            return False
        (a, b), (m, n) = self.before, self.last
        return (a == m == x and (b < n < y or b > n > y)) or (b == n == y and (a < m < x or a > m > x))

    def called(self, call):
        """A call on a copy, reckoned without a limit on room; refused, it leaves what was given."""
        after = copy.copy(self)
        after.memory = list(self.memory)
        call(after)
        check(after.used <= self.room, ROOM)
        return after

    def add(self, point):
        self.check_state()
        check(is_coord(point), COORD)
        return self.called(lambda after: after.add_raw(point))

    def add_raw(self, point):
        if self.kind != POINT and self.raw is not None:
            first, second = clip(self.raw, point, self.box)
            if first != self.raw:
                self.emit(first)
            if second != point:
                self.emit(second)
        self.emit(point)
        if self.kind != POINT:
            self.raw = point

    def complete(self):
        self.check_state()
        check(self.kind != POINT or self.count != 0, EMPTY)
        return self.called(Encoder.finish)

    def finish(self):
        if self.kind == POINT:
            self.memory[self.place] = command(1, self.count)
            return
        if self.count > 1:
            self.memory[self.place] = command(2, self.count - 1)
            if self.kind == POLYGON:
                self.push(7)
        self.count, self.raw, self.before = 0, None, None


def new(kind, box, room):
    check(kind in (POINT, LINE, POLYGON), KIND)
    check(is_box(box), BOX)
    return Encoder(kind, box, room)


# Jobs

def unsigned(data):
    return list(struct.unpack(f"<{len(data) // 4}I", data))


def signed(n):
    return n - 2**32 if n >= 2**31 else n


def table(data):
    """Kind, box, ends and what stands behind them, of a job file or a survey."""
    check(len(data) <= FILE_LIMIT and len(data) % 4 == 0, JOB)
    numbers = unsigned(data)
    check(len(numbers) >= 6, JOB)
    kind, edges, part_count = numbers[0], numbers[1:5], numbers[5]
    check(0 < part_count <= len(numbers) - 6, JOB)
    return kind, tuple(map(signed, edges)), numbers[6:6 + part_count], numbers[6 + part_count:]


def in_parts(coordinates, ends):
    """The points of each part."""
    check(len(coordinates) % 2 == 0 and ends == sorted(ends) and ends[-1] == len(coordinates) // 2, JOB)
    points = list(zip(coordinates[::2], coordinates[1::2]))
    return [points[a:b] for a, b in zip([0, *ends], ends)]


def job_parts(data):
    """Kind, box and the points of each part of a job file."""
    kind, box, ends, body = table(data)
    return kind, box, in_parts([signed(n) for n in body], ends)


def survey_parts(data):
    """Kind, box and the grid points of each part of a survey; a number that the grid does not have is one beyond the limit."""
    kind, box, ends, body = table(data)
    check(len(body) >= 12 and len(body) % 2 == 0, JOB)
    doubles = [of_bits(low + high * 2**32) for low, high in zip(body[::2], body[1::2])]
    parts = in_parts(doubles[6:], ends)
    return kind, box, [[tuple(LIMIT + 1 if n is None else n for n in grid(doubles[:6], x, y)) for x, y in part] for part in parts]


def job_calls(data, parts_of=job_parts):
    """The calls that a job file asks for, or a survey by its own parts, each with its arguments."""
    kind, box, parts = parts_of(data)
    yield "new", kind, box
    for part in parts:
        for point in part:
            yield "add", point
        yield ("end",)


def called(encoder, call, *arguments, room=MAX_WORDS):
    """The encoder after a call."""
    if call == "new":
        return new(*arguments, room)
    return encoder.add(*arguments) if call == "add" else encoder.complete()


def job(data, room=PROGRAM_WORDS, parts_of=job_parts):
    """The words of a job file. A refusal tells the accepted points."""
    encoder, accepted = None, 0
    for call, *arguments in job_calls(data, parts_of):
        try:
            encoder = called(encoder, call, *arguments, room=room)
        except Refused as refused:
            raise Refused(refused.number, accepted) from None
        accepted += call == "add"
    return encoder.words()


def survey(data, room=PROGRAM_WORDS):
    """The same of a survey."""
    return job(data, room, survey_parts)


# Tiles

def varint(n):
    out = bytearray()
    while n >= 128:
        out.append(n % 128 + 128)
        n //= 128
    return bytes(out) + bytes([n])


def number_field(field, n):
    return varint(8 * field) + varint(n)


def bytes_field(field, data):
    return varint(8 * field + 2) + varint(len(data)) + data


def packed_field(field, numbers):
    return bytes_field(field, b"".join(map(varint, numbers))) if numbers else b""


def value_bytes(kind, content):
    if kind == 1:
        return bytes_field(1, content)
    if kind == 2:
        return varint(8 * 2 + 5) + struct.pack("<I", content)
    if kind == 3:
        return varint(8 * 3 + 1) + struct.pack("<Q", content)
    if kind == 6:
        return number_field(6, param(content - 2**64 if content >= 2**63 else content))
    return number_field(kind, content)


def same_zero(kind, content):
    """Both zeros of a float or double are one content."""
    return 0 if (kind, content) in ((2, 2**31), (3, 2**63)) else content


def check_texts(*texts):
    """TEXT of all that are given comes before UTF8."""
    check(all(len(text) <= MAX_TEXT for text in texts), TEXT)
    check(all(is_text(text) for text in texts), UTF8)


class Layer:
    def __init__(self, extent, name, strict=False):
        check_texts(name)
        self.extent, self.name, self.strict = extent, name, strict
        self.keys, self.values, self.features = [], [], []
        self.feature = None  # the open one

    def open(self, kind, words):
        check(kind in (POINT, LINE, POLYGON), KIND)
        check(self.feature is None, TURN)
        self.feature = {"kind": kind, "words": words, "id": None, "tags": [],
                        "keys": len(self.keys), "values": len(self.values)}

    def set_id(self, number):
        check(self.feature is not None, TURN)
        self.feature["id"] = number

    def tag(self, key, kind, content):
        """The key's and the value's index."""
        check_texts(key, *([content] if kind == 1 else []))
        check(self.feature is not None, TURN)
        check(not self.strict or key not in [self.keys[at] for at in self.feature["tags"][::2]], AGAIN)
        if key not in self.keys:
            self.keys.append(key)
        sames = [(k, same_zero(k, c)) for k, c in self.values]
        same = kind, same_zero(kind, content)
        if same not in sames:
            self.values.append((kind, content))
            sames.append(same)
        indices = [self.keys.index(key), sames.index(same)]
        self.feature["tags"] += indices
        return indices

    def close(self):
        check(self.feature is not None, TURN)
        self.features.append(self.feature)
        self.feature = None

    def abandon(self):
        check(self.feature is not None, TURN)
        del self.keys[self.feature["keys"]:], self.values[self.feature["values"]:]
        self.feature = None

    def bytes(self):
        out = bytes_field(1, self.name)
        for feature in self.features:
            number = b"" if feature["id"] is None else number_field(1, feature["id"])
            out += bytes_field(2, number + packed_field(2, feature["tags"])
                               + number_field(3, feature["kind"]) + packed_field(4, feature["words"]))
        out += b"".join(bytes_field(3, key) for key in self.keys)
        out += b"".join(bytes_field(4, value_bytes(*value)) for value in self.values)
        return out + number_field(5, self.extent) + number_field(15, 2)


class Tile:
    def __init__(self, extent):
        self.extent, self.names, self.out = extent, [], b""

    def add(self, layer):
        check(layer.feature is None, TURN)
        check(layer.extent == self.extent, EXTENT)
        check(layer.name not in self.names, NAME)
        self.names.append(layer.name)
        self.out += bytes_field(3, layer.bytes())


# Tile scripts: README.md says what they are and what becomes of those that cannot be read.

class Unreadable(Exception):
    pass


class Script:
    def __init__(self, data):
        if len(data) > FILE_LIMIT or len(data) % 4:
            raise Unreadable
        self.numbers = unsigned(data)[::-1]

    def number(self):
        if not self.numbers:
            raise Unreadable
        return self.numbers.pop()

    def run(self, count):
        if count > len(self.numbers):
            raise Unreadable
        return [self.number() for _ in range(count)]

    def long(self):
        low, high = self.run(2)
        return low + high * 2**32

    def text(self):
        length = self.number()
        data = le(self.run((length + 3) // 4))
        if any(data[length:]):
            raise Unreadable
        return data[:length]

    def content(self, kind):
        if kind == 1:
            return self.text()
        if kind in (2, 7):
            n = self.number()
            if kind == 7 and n > 1:
                raise Unreadable
            return n
        if not 3 <= kind <= 6:
            raise Unreadable
        return self.long()

    def operation(self):
        """An operation's name and its arguments."""
        number = self.number()
        if number in (1, 8):
            return "create", self.number(), self.text(), number == 8
        if number == 2:
            kind = self.number()
            return "open", kind, self.run(self.number())
        if number == 3:
            return "set_id", self.long()
        if number == 4:
            key, kind = self.text(), self.number()
            return "tag", key, kind, self.content(kind)
        if not 5 <= number <= 7:
            raise Unreadable
        return (("close", "abandon", "add")[number - 5],)


class Run:
    """A tile script, run: its outcomes (0 or a refusal's number), the indices of its tags, and the tile."""

    def __init__(self, data):
        self.outcomes, self.tags, self.tile, self.layer = [], [], Tile(0), None
        try:
            script = Script(data)
            self.tile = Tile(script.number())
            while script.numbers:
                self.outcomes.append(self.perform(*script.operation()))
        except Unreadable:
            self.outcomes.append(JOB)

    def perform(self, name, *arguments):
        try:
            if name == "create":
                self.layer = Layer(*arguments)
                return 0
            check(self.layer is not None, TURN)
            if name == "add":
                self.tile.add(self.layer)
                self.layer = None
                return 0
            indices = getattr(self.layer, name)(*arguments)
        except Refused as refused:
            return refused.number
        self.tags += indices or []
        return 0
