//! Scripts of whole features for lists that are just as long as they need, or too short by an element or an entry. Keys and values come again within a feature and from
//! feature to feature, and zeros of both signs in one, so that a feature needs less than a new key and a new value for each tag. A feature with a text that
//! is not UTF-8 may stand between them: it is refused as that though there is no room for it, and takes none.

use crate::random::Random;
use crate::scripts::{Operation, Value, ILL_FORMED};
use crate::tile_judge::Rooms;

const TEXTS: [&[u8]; 5] = [b"", b"a", b"b", b"ab", b"ba"];

/// The same contents by several kinds, and zeros of both signs.
const BITS: [(u32, u64); 12] = [
    (2, 0),
    (2, 0x8000_0000),
    (2, 1),
    (3, 0),
    (3, 0x8000_0000_0000_0000),
    (3, 1),
    (3, 0x8000_0000),
    (4, 1),
    (5, 1),
    (6, 1),
    (7, 0),
    (7, 1),
];

fn value(random: &mut Random) -> Value {
    if random.chance(3) {
        Value::Text(random.pick(&TEXTS).to_vec())
    } else {
        let (kind, bits) = random.pick(&BITS);
        Value::Bits(kind, bits)
    }
}

fn tag(random: &mut Random) -> Operation {
    let value = value(random);
    Operation::Tag(random.pick(&TEXTS).to_vec(), value)
}

/// A tag whose key or text is not UTF-8.
fn ill_formed_tag(random: &mut Random) -> Operation {
    let bad = random.pick(&ILL_FORMED).to_vec();
    if random.chance(2) {
        Operation::Tag(bad, value(random))
    } else {
        Operation::Tag(random.pick(&TEXTS).to_vec(), Value::Text(bad))
    }
}

/// A script with one more feature before one of its own or behind them, of one to five tags; one of them is ill-formed.
pub fn disturbed(random: &mut Random, mut operations: Vec<Operation>) -> Vec<Operation> {
    let places: Vec<usize> = (0..operations.len())
        .filter(|at| matches!(operations[*at], Operation::Open(..) | Operation::Add))
        .collect();
    let mut tags: Vec<Operation> = (0..random.below(5)).map(|_| tag(random)).collect();
    tags.insert(random.below(tags.len() + 1), ill_formed_tag(random));
    let mut feature = vec![Operation::Open(1, Vec::new())];
    feature.extend(tags);
    feature.push(Operation::Close);
    let at = random.pick(&places);
    operations.splice(at..at, feature);
    operations
}

/// A layer of one to four features, which is added to its tile.
pub fn script(random: &mut Random) -> Vec<Operation> {
    let mut operations = vec![Operation::Create(4096, random.pick(&TEXTS).to_vec())];
    for _ in 0..1 + random.below(4) {
        let words = (0..random.below(4)).map(|n| n as u32).collect();
        operations.push(Operation::Open(1 + random.below(3) as u32, words));
        if random.chance(2) {
            operations.push(Operation::SetId(random.next()));
        }
        for _ in 0..random.below(7) {
            operations.push(tag(random));
        }
        operations.push(Operation::Close);
    }
    operations.push(Operation::Add);
    operations
}

/// Just as long as needed; and each of the layer's lists one, two and three elements shorter.
pub fn rooms(needed: Rooms) -> Vec<Rooms> {
    let mut found = vec![needed];
    for list in 0..4 {
        for short in 1..=needed[list].min(3) {
            let mut rooms = needed;
            rooms[list] -= short;
            found.push(rooms);
        }
    }
    found
}
