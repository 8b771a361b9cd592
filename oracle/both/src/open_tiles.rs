//! Tiles for readers, good and damaged: as our writer lays them, odd but good ones of every form that PB allows, faults among their fields, bytes struck, ends cut
//! off, and short strings that come near to the ends of their messages.

use crate::random::Random;
use opened::rules::Kind;

const NUMBERS: [u64; 16] = [
    0,
    1,
    2,
    3,
    9,
    127,
    128,
    300,
    4096,
    16_383,
    16_384,
    1 << 21,
    (1 << 31) - 1,
    1 << 31,
    (1 << 32) - 1,
    15,
];
/// Of which the low 32 bits are others.
const WIDE: [u64; 8] = [
    1 << 32,
    (1 << 32) + 5,
    1 << 35,
    1 << 53,
    (1 << 63) - 1,
    1 << 63,
    u64::MAX - 1,
    u64::MAX,
];
/// Field numbers that no message knows.
const UNKNOWN: [u64; 12] = [
    8,
    9,
    10,
    14,
    16,
    31,
    100,
    2047,
    2048,
    1 << 28,
    (1 << 29) - 2,
    (1 << 29) - 1,
];
const TEXTS: [&[u8]; 10] = [
    b"",
    b"a",
    b"ducts",
    "Stra\u{df}e".as_bytes(),
    "\u{928}\u{93e}\u{92e}".as_bytes(),
    b"a\"b\\c",
    b"\x00\x1f\x7f",
    b"a longer text, of forty bytes and some more",
    b"\xff",
    b"Stra\xdfe",
];
/// Bytes that are keys, lengths and ends of numbers in messages.
const BYTES: [u8; 36] = [
    0, 1, 2, 3, 5, 8, 10, 13, 16, 18, 21, 25, 26, 34, 40, 42, 64, 65, 66, 69, 120, 122, 127, 128,
    129, 130, 133, 134, 143, 146, 149, 153, 154, 162, 168, 255,
];
/// The beginnings of messages that have little room.
const OPENINGS: [&[u8]; 14] = [
    b"",
    b"\x1a",
    b"\x1a\x02",
    b"\x1a\x03",
    b"\x1a\x05",
    b"\x1a\x07",
    b"\x1a\x0c",
    b"\x1a\x0d",
    b"\x1a\x06\x12\x04",
    b"\x1a\x08\x12\x06\x22",
    b"\x1a\x0c\x22\x0a",
    b"\x1a\x0a\x22\x08",
    b"\x1a\x0d\x22\x0b",
    b"\x98",
];

/// A number as a varint of at least so many bytes.
pub fn varint(number: u64, size: usize) -> Vec<u8> {
    let (mut out, mut left) = (Vec::new(), number);
    while left >= 128 || out.len() + 1 < size {
        out.push(left as u8 & 127 | 128);
        left >>= 7;
    }
    out.push(left as u8);
    out
}

/// Makes one tile.
struct Maker<'a> {
    random: &'a mut Random,
    is_odd: bool,
    has_faults: bool,
}

impl Maker<'_> {
    fn odd(&mut self, one_in: usize) -> bool {
        self.is_odd && self.random.chance(one_in)
    }

    /// A number, now and then longer than needed.
    fn number(&mut self, number: u64) -> Vec<u8> {
        let size = if self.odd(7) {
            self.random.pick(&[2, 3, 5, 6, 9, 10])
        } else {
            1
        };
        varint(number, size)
    }

    fn key(&mut self, number: u64, wire: u64) -> Vec<u8> {
        self.number(number << 3 | wire)
    }

    fn any(&mut self, count: usize) -> Vec<u8> {
        (0..count).map(|_| self.random.below(256) as u8).collect()
    }

    /// A field of a number.
    fn numbered(&mut self, number: u64, value: u64) -> Vec<u8> {
        let content = self.number(value);
        self.field(number, 0, content)
    }

    /// A field of a body.
    fn bodied(&mut self, number: u64, body: &[u8]) -> Vec<u8> {
        let by = if self.has_faults && self.random.chance(60) {
            self.random.pick(&[u64::MAX, 1, 100, 1 << 32, 1 << 62])
        } else {
            0
        };
        let length = self.number((body.len() as u64).wrapping_add(by) & u64::MAX >> 1);
        self.field(number, 2, [&length, body].concat())
    }

    /// A field of this content, now and then with a fault.
    fn field(&mut self, number: u64, wire: u64, content: Vec<u8>) -> Vec<u8> {
        if !(self.has_faults && self.random.chance(20)) {
            return [self.key(number, wire), content].concat();
        }
        let tens: Vec<u8> = (0..9).map(|_| self.random.below(128) as u8 | 128).collect();
        match self.random.below(8) {
            0 => {
                let size = self.random.pick(&[1, 2, 4, 5, 6, 10]);
                [varint(wire, size), content].concat()
            }
            1 => {
                let above = self
                    .random
                    .pick(&[1 << 29, (1 << 29) + 1, 1 << 32, 1 << 60]);
                [varint(above << 3 | wire, 1), content].concat()
            }
            2 => {
                let other = self.random.pick(&[3, 4, 6, 7]);
                [self.key(number, other), content].concat()
            }
            3 => {
                let other = self.random.pick(&[0, 1, 2, 5]);
                [self.key(number, other), content].concat()
            }
            4 => [self.key(number, 0), tens, vec![128, 0]].concat(),
            5 => [self.key(number, 0), tens, vec![2]].concat(),
            6 => {
                let left = self.random.pick(&[0, 8, 40, 64, 128]);
                [self.key(number, wire), content, vec![left]].concat()
            }
            _ => [self.key(number, 2), vec![1, 0]].concat(),
        }
    }

    fn unknown(&mut self, kind: Kind) -> Vec<u8> {
        let mut number = self.random.pick(&UNKNOWN);
        if self.random.chance(3) {
            // A number that another message knows.
            number = 1 + self.random.below(15) as u64;
            while kind.knows(number).is_some() {
                number += 1;
            }
        }
        match self.random.below(4) {
            0 => {
                let value = self.wide();
                self.numbered(number, value)
            }
            1 => {
                let body = self.any(8);
                self.field(number, 1, body)
            }
            2 => {
                let count = self.random.pick(&[0, 1, 2, 7, 40]);
                let body = self.any(count);
                self.bodied(number, &body)
            }
            _ => {
                let body = self.any(4);
                self.field(number, 5, body)
            }
        }
    }

    /// The fields one behind the other, in any order, with unknown ones among them.
    fn message(&mut self, kind: Kind, mut fields: Vec<Vec<u8>>) -> Vec<u8> {
        while self.odd(4) {
            let next = self.unknown(kind);
            let at = self.random.below(fields.len() + 1);
            fields.insert(at, next);
        }
        if self.odd(2) {
            for at in (1..fields.len()).rev() {
                let other = self.random.below(at + 1);
                fields.swap(at, other);
            }
        }
        fields.concat()
    }

    /// How often a field comes of which there is one.
    fn times(&mut self) -> usize {
        if self.odd(3) {
            self.random.pick(&[0, 2, 3])
        } else {
            1
        }
    }

    fn text(&mut self) -> Vec<u8> {
        let good = if self.odd(40) { 10 } else { 8 };
        TEXTS[self.random.below(good)].to_vec()
    }

    /// A number of any width.
    fn wide(&mut self) -> u64 {
        let width = self.random.below(64);
        match self.random.below(3) {
            0 => self.random.pick(&NUMBERS),
            1 => self.random.pick(&WIDE),
            _ => self.random.next() >> width,
        }
    }

    /// One of which the low 32 bits count.
    fn narrow(&mut self) -> u64 {
        if self.odd(8) {
            self.random.pick(&WIDE)
        } else if self.random.chance(2) {
            self.random.pick(&NUMBERS)
        } else {
            self.random.below(4096) as u64
        }
    }

    fn tile(&mut self) -> Vec<u8> {
        let mut found = Vec::new();
        for _ in 0..self.random.pick(&[1, 1, 1, 1, 2, 3]) {
            let layer = self.layer();
            found.push(self.bodied(3, &layer));
        }
        self.message(Kind::Tile, found)
    }

    fn layer(&mut self) -> Vec<u8> {
        if self.odd(30) {
            return Vec::new();
        }
        let mut found = Vec::new();
        for _ in 0..self.times() {
            let name = self.text();
            found.push(self.bodied(1, &name));
        }
        for _ in 0..self.random.below(4) {
            let feature = self.feature();
            found.push(self.bodied(2, &feature));
        }
        for _ in 0..self.random.below(3) {
            let key = self.text();
            found.push(self.bodied(3, &key));
        }
        for _ in 0..self.random.below(4) {
            let value = self.value();
            found.push(self.bodied(4, &value));
        }
        for number in [5, 15] {
            for _ in 0..self.times() {
                let value = self.narrow();
                found.push(self.numbered(number, value));
            }
        }
        self.message(Kind::Layer, found)
    }

    fn feature(&mut self) -> Vec<u8> {
        if self.odd(20) {
            return Vec::new();
        }
        let mut found = Vec::new();
        if self.random.chance(2) {
            for _ in 0..self.times() {
                let id = self.wide();
                found.push(self.numbered(1, id));
            }
        }
        let tags = 2 * self.random.below(4);
        self.list(2, tags, &mut found);
        for _ in 0..self.times() {
            let kind = if self.odd(4) {
                self.random.pick(&[0, 4, 7, (1 << 32) + 2, u64::MAX])
            } else {
                1 + self.random.below(3) as u64
            };
            found.push(self.numbered(3, kind));
        }
        let words = self.random.pick(&[0, 3, 3, 7, 12]);
        self.list(4, words, &mut found);
        self.message(Kind::Feature, found)
    }

    /// So many numbers of tags or geometry: packed, or in some packed fields and single ones.
    fn list(&mut self, number: u64, count: usize, found: &mut Vec<Vec<u8>>) {
        let words: Vec<u64> = (0..count).map(|_| self.narrow()).collect();
        if !self.is_odd {
            let packed: Vec<u8> = words.iter().flat_map(|word| varint(*word, 1)).collect();
            if count > 0 {
                found.push(self.bodied(number, &packed));
            }
            return;
        }
        let mut rest = &words[..];
        while !rest.is_empty() {
            let (run, behind) = rest.split_at(rest.len().min(self.random.pick(&[1, 2, 3, 20])));
            rest = behind;
            if self.random.chance(8) {
                found.push(self.bodied(number, &[]));
            }
            if self.random.chance(3) {
                for word in run {
                    found.push(self.numbered(number, *word));
                }
            } else {
                let packed: Vec<u8> = run.iter().flat_map(|word| self.number(*word)).collect();
                found.push(self.bodied(number, &packed));
            }
        }
    }

    fn value(&mut self) -> Vec<u8> {
        let mut found = Vec::new();
        let mut kinds = if self.odd(8) { 0 } else { 1 };
        while kinds > 0 && self.odd(3) {
            kinds += 1;
        }
        for _ in 0..kinds {
            let kind = 1 + self.random.below(7) as u64;
            found.push(match kind {
                1 => {
                    let text = self.text();
                    self.bodied(1, &text)
                }
                2 => {
                    let bits = self.any(4);
                    self.field(2, 5, bits)
                }
                3 => {
                    let bits = self.any(8);
                    self.field(3, 1, bits)
                }
                7 => {
                    let truth = if self.odd(3) { self.wide() } else { 1 };
                    self.numbered(7, truth)
                }
                _ => {
                    let value = self.wide();
                    self.numbered(kind, value)
                }
            });
        }
        self.message(Kind::Value, found)
    }
}

/// One or two bytes changed, taken out or put in, or the end cut off.
fn struck(random: &mut Random, mut bytes: Vec<u8>) -> Vec<u8> {
    for _ in 0..random.pick(&[1, 1, 2]) {
        if bytes.is_empty() {
            break;
        }
        let at = random.below(bytes.len());
        match random.below(5) {
            0 => bytes[at] = random.below(256) as u8,
            1 => bytes[at] ^= 1 << random.below(8),
            2 => {
                bytes.remove(at);
            }
            3 => bytes.insert(at, random.pick(&BYTES)),
            _ => bytes.truncate(at),
        }
    }
    bytes
}

/// A few bytes that come near to the ends of their messages.
fn short(random: &mut Random) -> Vec<u8> {
    let mut bytes = random.pick(&OPENINGS).to_vec();
    let mut run = Vec::new();
    if random.chance(3) {
        run.push(random.pick(&BYTES));
        let byte = random.pick(&[128, 128, 129, 255]);
        run.resize(1 + random.below(10), byte);
    }
    let count = random.below(9);
    let rest: Vec<u8> = (0..count).map(|_| random.pick(&BYTES)).collect();
    let (first, second) = if random.chance(2) {
        (run, rest)
    } else {
        (rest, run)
    };
    bytes.extend(first);
    bytes.extend(second);
    bytes
}

/// The next tile with its class.
pub fn next(random: &mut Random) -> (&'static str, Vec<u8>) {
    let class = random.pick(&[
        "written", "odd", "odd", "odd", "faulty", "faulty", "struck", "cut", "short", "short",
    ]);
    if class == "short" {
        return (class, short(random));
    }
    let mut bytes = Maker {
        is_odd: class == "odd" || class != "written" && !random.chance(6),
        has_faults: class == "faulty",
        random: &mut *random,
    }
    .tile();
    match class {
        "struck" => bytes = struck(random, bytes),
        "cut" => bytes.truncate(random.below(bytes.len() + 1)),
        _ => {}
    }
    (class, bytes)
}
