//! A layer that is one entry short of the most keys or values: one more is accepted, another is refused as ROOM though the lists have room, and one that is there is found.
//! The same with whole features, and in a strict layer, where a key that the feature has is AGAIN before that. The Rust has no such cap, so this is document 01's word
//! and request (xiv)'s.

use crate::held::Held;
use crate::judge::ROOM;
use crate::lent::Watched;
use crate::many::{self, Together};
use crate::report::{Difference, Tally};
use crate::tile_judge::{AGAIN, MAX_ENTRIES as MOST};
use ours::tiles::{Changed, Figures, Head, Indexes, Layer, Tile, Value};

/// A layer with a feature open and so many entries of each kind; the keys are all empty, the values uints that ascend from 0.
fn full(keys: usize, values: usize, is_strict: bool) -> Held {
    let mut key_words = vec![0; 2 * keys];
    key_words.resize(2 * (MOST + 4), 9);
    let mut value_words: Vec<u32> = (0..values as u32).flat_map(|n| [5, n, 0]).collect();
    value_words.resize(3 * (MOST + 4), 9);
    let mut features = vec![1, 0, 0, 0, 0, 0];
    features.resize(60, 9);
    let used = Figures {
        keys,
        values,
        texts: 0,
        features: 6,
    };
    let since = Figures {
        features: 0,
        ..used
    };
    let layer = Layer {
        extent: 4096,
        is_open: 1,
        is_strict: u32::from(is_strict),
        name: 0,
        used,
        since,
    };
    Held {
        layer,
        tile: Tile::default(),
        keys: key_words,
        values: value_words,
        texts: vec![9; 8],
        features,
        names: Vec::new(),
        bytes: Vec::new(),
    }
}

/// One entry short of the most keys, or of the most values.
fn one_short(by_key: bool, is_strict: bool) -> Held {
    if by_key {
        full(MOST - 1, 1, is_strict)
    } else {
        full(1, MOST - 1, is_strict)
    }
}

/// What a tag is expected to do.
struct Step {
    key: &'static [u8],
    value: u64,
    refusal: u32,
    /// Key and value index where accepted.
    found: [u32; 2],
}

fn steps(by_key: bool) -> [Step; 4] {
    let step = |key: &'static [u8], value: u64, refusal: u32, found: [usize; 2]| Step {
        key,
        value,
        refusal,
        found: found.map(|n| n as u32),
    };
    let last = MOST - 1;
    if by_key {
        [
            step(b"a", 0, 0, [last, 0]),
            step(b"b", 0, ROOM, [0, 0]),
            step(b"a", 0, 0, [last, 0]),
            step(b"", 0, 0, [0, 0]),
        ]
    } else {
        [
            step(b"", 99_999, 0, [0, last]),
            step(b"", 99_998, ROOM, [0, 0]),
            step(b"", 99_999, 0, [0, last]),
            step(b"", 7, 0, [0, 7]),
        ]
    }
}

fn wrong(by_key: bool, is_strict: bool) -> Option<String> {
    let held = one_short(by_key, is_strict);
    let (mut layer, mut memory) = (held.layer, held.lent());
    let mut had = Vec::new();
    for (at, step) in steps(by_key).into_iter().enumerate() {
        let is_again = is_strict && had.contains(&step.key);
        let mut wanted = Changed {
            refusal: if is_again { AGAIN } else { step.refusal },
            layer,
        };
        if wanted.refusal == 0 {
            had.push(step.key);
            let place = layer.used.features;
            memory.features.expect(place, &step.found);
            memory.features.expect(4, &[place as u32 - 6 + 2]);
            wanted.layer.used.features += 2;
        }
        // The first step brings the last entry.
        if at == 0 && by_key {
            memory.keys.expect(2 * (MOST - 1), &[0, 1]);
            memory.texts.expect(0, step.key);
            wanted.layer.used.keys += 1;
            wanted.layer.used.texts += 1;
        } else if at == 0 {
            memory
                .values
                .expect(3 * (MOST - 1), &[5, step.value as u32, 0]);
            wanted.layer.used.values += 1;
        }
        let (mut lists, _) = memory.lent();
        let given = layer.add_tag(step.key, Value::Bits(5, step.value), &mut lists);
        if given != wanted {
            return Some(format!("step {at}: ours {given:?}, expected {wanted:?}"));
        }
        if let Some(differs) = memory.differs() {
            return Some(format!("after step {at}: {differs}"));
        }
        layer = given.layer;
    }
    None
}

/// Whole features with such tags, and what each is expected to answer: two keys or values that are new have no room, one that comes twice has.
fn features(by_key: bool) -> [(Vec<u32>, u32); 4] {
    let tag = |key: u32, value: u32| [key, 1, 5, value, 0];
    let tags = |entries: [u32; 2]| {
        if by_key {
            entries.map(|at| tag(at, 0)).concat()
        } else {
            entries.map(|at| tag(0, 99_998 + at)).concat()
        }
    };
    // The keys are the bytes of "ab"; where values are counted the one key "a" is new and comes again.
    [
        (tags([0, 1]), ROOM),
        (tags([1, 1]), 0),
        (tags([1, 0]), ROOM),
        (tags([1, 1]), 0),
    ]
}

/// The same through the calls that take whole features, with indexes lent, with none, and one feature by its own call.
fn wrong_whole(by_key: bool, is_strict: bool, how: usize) -> Option<String> {
    let mut held = one_short(by_key, is_strict);
    held.layer.is_open = 0;
    let mut memory = held.lent();
    for (at, (tags, room)) in features(by_key).into_iter().enumerate() {
        // Both tags have their key at one place.
        let is_again = is_strict && tags[0] == tags[5];
        let refusal = if is_again { AGAIN } else { room };
        let head = Head {
            kind: 1,
            has_id: 0,
            id: 0,
        };
        let mut together = Together::default();
        together.push(head, &[], &tags, b"ab");
        let before = held.layer;
        let (expected, count) = held.put_all(&together.given());
        assert_eq!(expected, refusal, "step {at} by the rules");
        held.expected_of(&mut memory);
        let words = if how == 1 { 2 * MOST } else { 0 };
        let (mut keys, mut values) = (Watched::new(words), Watched::new(words));
        let (mut lists, _) = memory.lent();
        let given = if how == 2 {
            before.add_feature(head, &[], &tags, b"ab", &mut lists)
        } else {
            let mut indexes = Indexes {
                keys: keys.lent(),
                values: values.lent(),
            };
            let said = before.add_features(together.given(), &mut lists, &mut indexes);
            if said.count != count {
                return Some(format!("step {at}: {} accepted", said.count));
            }
            Changed {
                refusal: said.refusal,
                layer: said.layer,
            }
        };
        if count > 0 && how < 2 {
            many::expect_keys(&mut keys, &memory, held.layer.used);
            many::expect_values(&mut values, &memory, held.layer.used);
        }
        if (given.refusal, given.layer) != (refusal, held.layer) {
            return Some(format!("feature {at}: ours {given:?}, expected {refusal}"));
        }
        let differs = memory
            .differs()
            .or_else(|| keys.differs("keys' index"))
            .or_else(|| values.differs("values' index"));
        if let Some(differs) = differs {
            return Some(format!("after feature {at}: {differs}"));
        }
    }
    None
}

pub fn compare(is_strict: bool, tally: &mut Tally) -> Option<Difference> {
    for (by_key, what) in [(true, "keys"), (false, "values")] {
        let whole = |how| wrong_whole(by_key, is_strict, how);
        let found = wrong(by_key, is_strict).or_else(|| (0..3).find_map(whole));
        if let Some(found) = found {
            return Some(Difference {
                what: found,
                input: format!("a layer one short of the most {what}"),
            });
        }
        tally.add("tags at the most keys or values", 4);
        tally.add("whole features there", 12);
    }
    None
}
