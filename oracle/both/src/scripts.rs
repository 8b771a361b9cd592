//! Tile scripts: those of cases.py made here for speed, and a script taken apart into its operations.

use crate::cases::FILE_LIMIT;
use crate::random::Random;

pub const TEXT: u32 = 1;
const FLOAT: u32 = 2;
const DOUBLE: u32 = 3;
const INT: u32 = 4;
const UINT: u32 = 5;
const BOOL: u32 = 7;
const POINT: u32 = 1;
const LINE: u32 = 2;
const POLYGON: u32 = 3;

const EXTENTS: [u32; 6] = [0, 1, 127, 128, 4096, u32::MAX];
const TEXTS: [&[u8]; 9] = [
    b"",
    b"a",
    b"b",
    b"ab",
    b"abc",
    b"abcd",
    b"name",
    "\u{e9}".as_bytes(),
    "\u{65e5}\u{672c}".as_bytes(),
];
/// No texts: bytes of Latin-1, bytes that only continue, longer forms than needed, a surrogate, sequences that are cut, and what lies beyond U+10FFFF.
pub const ILL_FORMED: [&[u8]; 12] = [
    b"\xe9",
    b"\x80",
    b"\xc0\xaf",
    b"\xc3",
    b"\xe0\x80\xaf",
    b"\xed\xa0\x80",
    b"\xe2\x82",
    b"\xf0\x80\x80\xaf",
    b"\xf4\x90\x80\x80",
    b"\xf5\x80\x80\x80",
    b"abcd\xff",
    b"nam\xe9s",
];
const FLOATS: [u64; 10] = [
    0,
    0x8000_0000,
    0x3F80_0000,
    0xBF80_0000,
    1,
    0x7F80_0000,
    0xFF80_0000,
    0x7FC0_0000,
    0x7FC0_0001,
    0xFFC0_0000,
];
const DOUBLES: [u64; 8] = [
    0,
    1 << 63,
    0x3FF0 << 48,
    0xBFF0 << 48,
    1,
    0x7FF0 << 48,
    0x7FF8 << 48,
    (0x7FF8 << 48) + 1,
];

#[derive(Clone, Debug, PartialEq)]
pub enum Value {
    Text(Vec<u8>),
    /// A kind of 2 to 7 and the bits of its content.
    Bits(u32, u64),
}

impl Value {
    /// The bytes of a text; nothing for another value.
    pub fn text(&self) -> &[u8] {
        match self {
            Value::Text(text) => text,
            Value::Bits(..) => &[],
        }
    }
}

#[derive(Clone, Debug, PartialEq)]
pub enum Operation {
    Create(u32, Vec<u8>),
    Open(u32, Vec<u32>),
    SetId(u64),
    Tag(Vec<u8>, Value),
    Close,
    Abandon,
    Add,
}

use Operation::{Abandon, Add, Close};

fn le(numbers: &[u32]) -> Vec<u8> {
    numbers.iter().flat_map(|n| n.to_le_bytes()).collect()
}

fn long(n: u64) -> Vec<u8> {
    le(&[n as u32, (n >> 32) as u32])
}

fn text(content: &[u8]) -> Vec<u8> {
    let mut bytes = le(&[content.len() as u32]);
    bytes.extend(content);
    bytes.resize(bytes.len().next_multiple_of(4), 0);
    bytes
}

/// An operation as a script has it. A value's kind is not looked at, so that bad ones can be written too.
fn written(operation: &Operation) -> Vec<u8> {
    match operation {
        Operation::Create(extent, name) => [le(&[1, *extent]), text(name)].concat(),
        Operation::Open(kind, words) => [le(&[2, *kind, words.len() as u32]), le(words)].concat(),
        Operation::SetId(id) => [le(&[3]), long(*id)].concat(),
        Operation::Tag(key, Value::Text(content)) => {
            [le(&[4]), text(key), le(&[TEXT]), text(content)].concat()
        }
        Operation::Tag(key, Value::Bits(kind, bits)) => {
            let content = match *kind {
                FLOAT | BOOL => le(&[*bits as u32]),
                _ => long(*bits),
            };
            [le(&[4]), text(key), le(&[*kind]), content].concat()
        }
        Close => le(&[5]),
        Abandon => le(&[6]),
        Add => le(&[7]),
    }
}

fn script(extent: u32, operations: &[Operation]) -> Vec<u8> {
    let mut bytes = le(&[extent]);
    operations.iter().for_each(|o| bytes.extend(written(o)));
    bytes
}

fn create(name: &[u8], extent: u32) -> Operation {
    Operation::Create(extent, name.to_vec())
}

fn open(kind: u32, words: &[u32]) -> Operation {
    Operation::Open(kind, words.to_vec())
}

fn tag(key: &[u8], kind: u32, bits: u64) -> Operation {
    Operation::Tag(key.to_vec(), Value::Bits(kind, bits))
}

fn tag_text(key: &[u8], content: &[u8]) -> Operation {
    Operation::Tag(key.to_vec(), Value::Text(content.to_vec()))
}

/// Where the length of a varint changes.
fn steps() -> Vec<u64> {
    (1..10)
        .flat_map(|k| [(1u64 << (7 * k)) - 1, 1 << (7 * k), (1 << (7 * k)) + 1])
        .collect()
}

fn longs() -> Vec<u64> {
    let mut found = vec![
        0,
        1,
        1u64.wrapping_neg(),
        2,
        2u64.wrapping_neg(),
        (1 << 63) - 1,
        1 << 63,
    ];
    found.extend(steps());
    found.extend(steps().into_iter().map(u64::wrapping_neg));
    found
}

/// The values of a kind; the texts are these.
fn values(kind: u32, texts: &[&[u8]]) -> Vec<Value> {
    let bits: Vec<u64> = match kind {
        TEXT => return texts.iter().map(|t| Value::Text(t.to_vec())).collect(),
        FLOAT => FLOATS.to_vec(),
        DOUBLE => DOUBLES.to_vec(),
        BOOL => vec![0, 1],
        _ => longs(),
    };
    bits.into_iter().map(|n| Value::Bits(kind, n)).collect()
}

/// Scripts that hit one boundary each, as cases.py has them.
pub fn fixed_tiles() -> Vec<Vec<u8>> {
    let mut all = Vec::new();
    let mut more = |operations: &[Operation]| all.push(script(4096, operations));
    let a = || create(b"a", 4096);
    let point = || open(POINT, &[9, 10, 14]);
    // One open feature of layer a with these operations in it.
    let feature = |inner: Vec<Operation>| [vec![a(), point()], inner, vec![Close, Add]].concat();
    more(&[]);
    more(&[a()]);
    more(&[a(), Add]);
    for extent in EXTENTS {
        all.push(script(extent, &[create(b"a", extent), Add]));
        all.push(script(4096, &[create(b"a", extent), Add]));
    }
    let mut more = |operations: &[Operation]| all.push(script(4096, operations));
    let b = || create(b"b", 4096);
    let c = |extent| create(b"c", extent);
    more(&[a(), Add, b(), Add, a(), Add, c(1), Add, c(4096), Add]);
    more(&[
        a(),
        point(),
        Close,
        Add,
        a(),
        point(),
        Close,
        create(b"", 4096),
        Add,
    ]);
    for kind in [POINT, LINE, POLYGON] {
        more(&[a(), open(kind, &[]), Close, Add]);
        more(&[a(), open(kind, &[9, 4, 4, 18, 0, 16, 16, 0]), Close, Add]);
    }
    let mut words = vec![0, 1];
    words.extend(steps());
    words.push(u64::from(u32::MAX));
    words.retain(|n| *n < 1 << 32);
    let words: Vec<u32> = words.into_iter().map(|n| n as u32).collect();
    more(&[a(), open(LINE, &words), Close, Add]);
    for id in [0, 1, 127, 128, (1 << 32) - 1, 1 << 32, 1 << 63, u64::MAX] {
        more(&feature(vec![Operation::SetId(id)]));
    }
    let id = Operation::SetId;
    more(&[
        a(),
        point(),
        id(5),
        id(6),
        Close,
        point(),
        id(6),
        Close,
        Add,
    ]);
    for kind in TEXT..=BOOL {
        let tags: Vec<Operation> = values(kind, &TEXTS)
            .into_iter()
            .map(|value| Operation::Tag(b"k".to_vec(), value))
            .collect();
        more(&feature([tags.clone(), tags].concat()));
    }
    for n in [0, 1] {
        more(&feature((FLOAT..=BOOL).map(|k| tag(b"k", k, n)).collect()));
    }
    for zeros in [[0u64, 0x8000_0000], [0x8000_0000, 0]] {
        more(&feature(zeros.map(|n| tag(b"k", FLOAT, n)).to_vec()));
        more(&feature(zeros.map(|n| tag(b"k", DOUBLE, n << 32)).to_vec()));
    }
    more(&feature([1, 1, 2].map(|n| tag(b"k", INT, n)).to_vec()));
    abandoned(&mut more);
    sizes(&mut more);
    outside(&mut more);
    ill_formed(&mut more);
    let a = create(b"a", 4096);
    all.push([script(4096, &[a.clone()]), le(&[0])].concat());
    all.push([script(4096, &[a]), le(&[8])].concat());
    all.push(Vec::new());
    all
}

/// New entries go, old ones stay, and what went comes back as new.
fn abandoned(more: &mut impl FnMut(&[Operation])) {
    let a = || create(b"a", 4096);
    let point = || open(POINT, &[9, 10, 14]);
    let old = || tag(b"old", INT, 1);
    let new = || tag_text(b"new", b"new");
    more(&[a(), point(), old(), Abandon, Add]);
    more(&[
        a(),
        point(),
        old(),
        Close,
        point(),
        old(),
        new(),
        Abandon,
        point(),
        new(),
        old(),
        Close,
        Add,
    ]);
    more(&[
        a(),
        point(),
        new(),
        Abandon,
        point(),
        tag_text(b"other", b"new"),
        new(),
        Close,
        Add,
    ]);
    more(&[a(), point(), old(), create(b"b", 4096), Add]);
}

/// Nested lengths around one byte's 127, more keys than one byte's index, texts at their limit.
fn sizes(more: &mut impl FnMut(&[Operation])) {
    let a = || create(b"a", 4096);
    let point = || open(POINT, &[9, 10, 14]);
    for size in [114, 115, 116, 117, 118, 119, 125, 126, 127, 128] {
        more(&[a(), open(LINE, &vec![0; size]), Close, Add]);
        more(&[create(&vec![b'n'; size], 4096), Add]);
    }
    let feature = |inner: Vec<Operation>| [vec![a(), point()], inner, vec![Close, Add]].concat();
    for size in [63, 64] {
        more(&feature(vec![tag(b"k", BOOL, 1); size]));
    }
    for size in [125, 126, 127, 128] {
        more(&feature(vec![tag_text(
            &vec![b'k'; size],
            &vec![b'v'; size],
        )]));
    }
    let key = |n: u32| [97 + (n % 26) as u8, 97 + (n / 26) as u8];
    more(&feature(
        (0..130).map(|n| tag(&key(n), UINT, u64::from(n))).collect(),
    ));
    for size in [1023, 1024, 1025] {
        more(&[create(&vec![b'n'; size], 4096), Add]);
    }
    more(&feature(vec![tag_text(&[b'k'; 1024], &[b'v'; 1024])]));
    more(&feature(vec![tag(&[b'k'; 1025], INT, 0)]));
    more(&feature(vec![tag_text(b"k", &[b'v'; 1025])]));
}

/// Turns that the Rust's ownership rules out, bad kinds, bad values.
fn outside(more: &mut impl FnMut(&[Operation])) {
    let a = || create(b"a", 4096);
    let point = || open(POINT, &[9, 10, 14]);
    let id = || Operation::SetId(1);
    let old = || tag(b"old", INT, 1);
    for operation in [point(), id(), old(), Close, Abandon, Add] {
        more(&[operation.clone()]);
        more(&[a(), Add, operation]);
    }
    for operation in [id(), old(), Close, Abandon] {
        more(&[a(), operation]);
    }
    more(&[a(), point(), point()]);
    more(&[a(), point(), Add]);
    more(&[create(b"a", 1), Add, Add]);
    more(&[a(), open(0, &[]), Close, Add]);
    more(&[a(), open(4, &[]), Close, Add]);
    more(&[create(b"\xe9", 4096), Add]);
    more(&[a(), point(), tag(b"k", 8, 0), Close, Add]);
    more(&[a(), point(), tag(b"k", BOOL, 2), Close, Add]);
}

/// No text as a layer's name, as a key and as a value, and the calls after it.
fn ill_formed(more: &mut impl FnMut(&[Operation])) {
    let a = || create(b"a", 4096);
    let point = || open(POINT, &[9, 10, 14]);
    for bad in ILL_FORMED {
        let tags = [tag(bad, INT, 1), tag_text(b"k", bad), tag(b"k", INT, 1)];
        let feature = [vec![a(), create(bad, 4096), point()], tags.to_vec()].concat();
        more(&[feature, vec![Close, Add]].concat());
    }
}

fn random_tile(random: &mut Random, texts: &[&[u8]]) -> Vec<u8> {
    let extent = random.pick(&EXTENTS);
    let mut operations = Vec::new();
    for _ in 0..random.between(1, 3) {
        let other = random.chance(5);
        let name = random.pick(texts);
        let own = if other { random.pick(&EXTENTS) } else { extent };
        operations.push(create(name, own));
        for _ in 0..random.below(4) {
            let words: Vec<u32> = (0..random.below(8))
                .map(|_| {
                    let (small, any) = (random.below(200), random.below(1 << 32));
                    random.pick(&[small, any]) as u32
                })
                .collect();
            operations.push(open(random.between(1, 3) as u32, &words));
            if random.chance(2) {
                operations.push(Operation::SetId(random.pick(&longs())));
            }
            for _ in 0..random.below(5) {
                let kind = random.between(i64::from(TEXT), i64::from(BOOL)) as u32;
                let key = random.pick(texts).to_vec();
                let values = values(kind, texts);
                let value = values[random.below(values.len())].clone();
                operations.push(Operation::Tag(key, value));
            }
            operations.push(if random.chance(3) { Abandon } else { Close });
        }
        operations.push(Add);
    }
    script(extent, &operations)
}

fn damaged_tile(random: &mut Random, mut good: Vec<u8>) -> Vec<u8> {
    match random.below(3) {
        0 => good.truncate(random.below(good.len())),
        1 => good.extend(le(&[random.pick(&[0, 1, 4, 5, 6, 7, 8, u32::MAX])])),
        _ => {
            let at = 4 * random.below(good.len() / 4);
            good[at..at + 4].copy_from_slice(&le(&[random.below(10) as u32]));
        }
    }
    good
}

/// The random script of that place in the run. Three of 64 have names, keys and values that are no texts; the 60 that are kept come before them.
pub fn next_tile(random: &mut Random, at: usize) -> Vec<u8> {
    if (60..63).contains(&(at % 64)) {
        let texts = [&TEXTS[..], &TEXTS, &TEXTS, &ILL_FORMED].concat();
        return random_tile(random, &texts);
    }
    let good = random_tile(random, &TEXTS);
    if at % 8 == 7 {
        damaged_tile(random, good)
    } else {
        good
    }
}

/// Scripts whose nested lengths pass two bytes, and of 65,536 bytes.
pub fn large_tiles() -> Vec<Vec<u8>> {
    let line = |words: &[u32]| {
        let (a, feature) = (create(b"a", 4096), open(LINE, words));
        script(4096, &[a, feature, Close, Add])
    };
    let mut all = Vec::new();
    for more in -20..10 {
        let mut words = vec![u32::MAX; 3270];
        words.resize(3270 + ((1 << 14) - 5 * 3270 + more) as usize, 0);
        all.push(line(&words));
    }
    let head = line(&[]).len();
    for more in [-1, 0, 1] {
        let count = (FILE_LIMIT - head) as i64 / 4 + more;
        all.push(line(&vec![128; count as usize]));
    }
    all
}

/// Geometries of 1,048,576 words, the most there may be, and of one more. Not in cases.py: no file holds them.
pub fn widest_tiles() -> Vec<Vec<Operation>> {
    [1_048_575, 1_048_576, 1_048_577]
        .map(|count| {
            let words: Vec<u32> = (0..count).map(|n| n * 129).collect();
            vec![create(b"a", 4096), open(LINE, &words), Close, Add]
        })
        .to_vec()
}

/// A script's numbers not yet read.
struct Reader<'a>(&'a [u32]);

impl Reader<'_> {
    fn numbers(&mut self, count: usize) -> Option<&[u32]> {
        let (taken, rest) = self.0.split_at_checked(count)?;
        self.0 = rest;
        Some(taken)
    }

    fn number(&mut self) -> Option<u32> {
        Some(self.numbers(1)?[0])
    }

    fn long(&mut self) -> Option<u64> {
        Some(u64::from(self.number()?) | u64::from(self.number()?) << 32)
    }

    fn text(&mut self) -> Option<Vec<u8>> {
        let length = self.number()? as usize;
        let mut bytes = le(self.numbers(length.div_ceil(4))?);
        let filling = bytes.split_off(length);
        filling.iter().all(|byte| *byte == 0).then_some(bytes)
    }

    fn value(&mut self) -> Option<Value> {
        let kind = self.number()?;
        let bits = match kind {
            TEXT => return Some(Value::Text(self.text()?)),
            FLOAT => u64::from(self.number()?),
            3..=6 => self.long()?,
            BOOL => u64::from(self.number().filter(|n| *n < 2)?),
            _ => return None,
        };
        Some(Value::Bits(kind, bits))
    }

    fn operation(&mut self) -> Option<Operation> {
        Some(match self.number()? {
            1 => Operation::Create(self.number()?, self.text()?),
            2 => {
                let (kind, count) = (self.number()?, self.number()?);
                Operation::Open(kind, self.numbers(count as usize)?.to_vec())
            }
            3 => Operation::SetId(self.long()?),
            4 => Operation::Tag(self.text()?, self.value()?),
            5 => Close,
            6 => Abandon,
            7 => Add,
            _ => return None,
        })
    }
}

/// Extent and operations as far as the script can be read, and whether that is to its end; nothing where it has not even an extent.
pub fn taken_apart(file: &[u8]) -> Option<(u32, Vec<Operation>, bool)> {
    if file.len() % 4 != 0 || file.len() > FILE_LIMIT {
        return None;
    }
    let number = |c: &[u8]| u32::from_le_bytes([c[0], c[1], c[2], c[3]]);
    let numbers: Vec<u32> = file.chunks(4).map(number).collect();
    let mut reader = Reader(&numbers);
    let extent = reader.number()?;
    let mut operations = Vec::new();
    while !reader.0.is_empty() {
        match reader.operation() {
            Some(operation) => operations.push(operation),
            None => return Some((extent, operations, false)),
        }
    }
    Some((extent, operations, true))
}
