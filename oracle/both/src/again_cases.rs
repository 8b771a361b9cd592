//! Calls on strict layers whose answers are written out: what it is that a feature already has a key, on layers too that no run of calls makes, and the checks
//! in their order. Each call is made with room for whatever it brings and with none, and on an ordinary layer beside the strict one.

use crate::held::{Held, STATE};
use crate::held_calls::{Call, EXTENT};
use crate::judge::{KIND, ROOM};
use crate::report::{Difference, Tally};
use crate::scripts::Value;
use crate::tile_judge::{AGAIN, TEXT, TEXT_LIMIT, TURN, UTF8};
use ours::tiles::{Figures, Layer, Tile};

/// A layer with a closed feature, which has its first key, and behind it another one, open or not.
#[derive(Clone, Debug)]
struct Carried {
    keys: Vec<Vec<u8>>,
    /// Geometry and tag words of the other feature.
    geometry: Vec<u32>,
    tags: Vec<u32>,
    is_open: u32,
    is_strict: u32,
}

impl Carried {
    fn held(&self, has_room: bool) -> Held {
        let mut texts = b"n".to_vec();
        let mut keys = Vec::new();
        for key in &self.keys {
            keys.extend([texts.len() as u32, key.len() as u32]);
            texts.extend(key);
        }
        let mut values = vec![5, 1, 0];
        let closed = [1, 0, 0, 0, 2, 0, 0, 0];
        let counts = [self.tags.len() as u32, self.geometry.len() as u32];
        let mut features = closed.to_vec();
        features.extend([1, 0, 0, 0]);
        features.extend(counts);
        features.extend(&self.geometry);
        features.extend(&self.tags);
        let used = Figures {
            keys: self.keys.len(),
            values: 1,
            texts: texts.len(),
            features: features.len(),
        };
        let since = Figures {
            features: closed.len(),
            ..used
        };
        let more = if has_room { 3 * TEXT_LIMIT } else { 0 };
        for list in [&mut keys, &mut values, &mut features] {
            list.resize(list.len() + more, 9);
        }
        texts.resize(texts.len() + more, 9);
        Held {
            layer: Layer {
                extent: EXTENT,
                is_open: self.is_open,
                is_strict: self.is_strict,
                name: 1,
                used,
                since: if self.is_open == 0 {
                    Figures::default()
                } else {
                    since
                },
            },
            tile: Tile::default(),
            keys,
            values,
            texts,
            features,
            names: Vec::new(),
            bytes: Vec::new(),
        }
    }
}

/// A call and its refusal, with room and without.
#[derive(Debug)]
struct Case {
    carried: Carried,
    call: Call,
    refusals: [u32; 2],
}

/// Keys of the table, geometry and tag words of the open feature, the key given, and whether the feature has it.
type Having = (
    &'static [&'static [u8]],
    &'static [u32],
    &'static [u32],
    &'static [u8],
    bool,
);

const HAVING: [Having; 38] = [
    (&[b"a", b"b"], &[], &[0, 0], b"a", true),
    (&[b"a", b"b"], &[], &[0, 0], b"b", false),
    (&[b"a", b"b"], &[], &[0, 0], b"c", false),
    (&[b"a", b"b"], &[], &[0, 0, 1, 0], b"a", true),
    (&[b"a", b"b"], &[], &[0, 0, 1, 0], b"b", true),
    (&[b"a", b"b", b"c"], &[], &[0, 0, 1, 0, 2, 0], b"b", true),
    (&[b"a", b"b", b"c"], &[], &[0, 0, 1, 0, 2, 0], b"c", true),
    (&[b"a", b"b", b"c"], &[], &[0, 0, 1, 0, 2, 0], b"d", false),
    // Only another feature has it.
    (&[b"a"], &[], &[], b"a", false),
    (&[b"a", b"b"], &[], &[1, 0], b"a", false),
    // Twice in the table: the lookup finds the first.
    (&[b"a", b"a"], &[], &[0, 0], b"a", true),
    (&[b"a", b"a"], &[], &[1, 0], b"a", true),
    (&[b"b", b"a", b"a"], &[], &[2, 0], b"a", true),
    (&[b"b", b"a", b"a"], &[], &[0, 1, 2, 1], b"a", true),
    (&[b"a", b"b", b"a"], &[], &[1, 0], b"a", false),
    // Twice in the feature.
    (&[b"a", b"b"], &[], &[0, 0, 0, 0], b"a", true),
    (&[b"a", b"b"], &[], &[0, 0, 0, 0], b"b", false),
    // A lone last word is no pair.
    (&[b"a", b"b"], &[], &[0], b"a", false),
    (&[b"a", b"b"], &[], &[0, 0, 1], b"b", false),
    (&[b"a", b"b"], &[], &[0, 0, 1], b"a", true),
    (&[b"a", b"b"], &[], &[1, 1, 0], b"a", false),
    // The second word of a pair is a value's.
    (&[b"a", b"b"], &[], &[0, 1], b"b", false),
    (&[b"a", b"b", b"c"], &[], &[0, 1, 2, 1], b"b", false),
    // No key of the table.
    (&[b"a", b"b"], &[], &[2, 0], b"a", false),
    (&[b"a", b"b"], &[], &[2, 0, 1, 0], b"b", true),
    (&[b"a"], &[], &[u32::MAX, 0], b"a", false),
    (&[b"a"], &[], &[1 << 31, 0], b"a", false),
    (&[b""], &[], &[1, 0], b"", false),
    // A geometry stands before the tags.
    (&[b"a"], &[0, 0], &[], b"a", false),
    (&[b"a", b"b"], &[0, 0], &[1, 0], b"a", false),
    (&[b"a", b"b"], &[9, 9, 9], &[1, 0], b"b", true),
    // By bytes, all of them.
    (&[b""], &[], &[0, 0], b"", true),
    (&[b"ab"], &[], &[0, 0], b"a", false),
    (&[b"a"], &[], &[0, 0], b"ab", false),
    (&[b"a"], &[], &[0, 0], b"", false),
    (&[b"a"], &[], &[0, 0], b"a\0", false),
    (&[b"\xc3\xa9"], &[], &[0, 0], b"\xc3\xa9", true),
    (&[b"\xc3\xa9"], &[], &[0, 0], b"e\xcc\x81", false),
];

fn open(keys: &[&[u8]], tags: &[u32]) -> Carried {
    Carried {
        keys: keys.iter().map(|key| key.to_vec()).collect(),
        geometry: Vec::new(),
        tags: tags.to_vec(),
        is_open: 1,
        is_strict: 1,
    }
}

fn text(content: &[u8]) -> Value {
    Value::Text(content.to_vec())
}

/// A value of each kind; the uint is the one that is there.
fn values() -> Vec<Value> {
    let mut found: Vec<Value> = (2..8).map(|kind| Value::Bits(kind, 1)).collect();
    found.push(text(b"a"));
    found
}

/// What a strict layer says of a call, with room and without, where an ordinary one has nothing against it.
fn unless_again(again: bool) -> [u32; 2] {
    if again {
        [AGAIN; 2]
    } else {
        [0, ROOM]
    }
}

fn having(cases: &mut Vec<Case>) {
    for (keys, geometry, tags, key, has) in HAVING {
        for value in values() {
            cases.push(Case {
                carried: Carried {
                    geometry: geometry.to_vec(),
                    ..open(keys, tags)
                },
                call: Call::Tag(key.to_vec(), value),
                refusals: unless_again(has),
            });
        }
    }
}

/// Keys as long as a text may be, which differ in a byte or in none.
fn long_keys(cases: &mut Vec<Case>) {
    let key = [b'k'; TEXT_LIMIT];
    for at in [None, Some(0), Some(511), Some(TEXT_LIMIT - 1)] {
        let mut given = key.to_vec();
        at.into_iter().for_each(|at| given[at] = b'l');
        cases.push(Case {
            carried: open(&[&key], &[0, 0]),
            call: Call::Tag(given, Value::Bits(5, 1)),
            refusals: unless_again(at.is_none()),
        });
    }
}

/// STATE, TEXT, UTF8 and TURN of a tag whose key the feature has come before AGAIN.
fn tag_order(cases: &mut Vec<Case>) {
    let long = vec![b'k'; TEXT_LIMIT + 1];
    let carried = |key: &[u8], is_open| Carried {
        is_open,
        ..open(&[key], &[0, 0])
    };
    let mut put = |carried: &Carried, key: &[u8], value: &Value, refusal| {
        cases.push(Case {
            carried: carried.clone(),
            call: Call::Tag(key.to_vec(), value.clone()),
            refusals: [refusal; 2],
        })
    };
    for is_open in [0, 1] {
        let a = carried(b"a", is_open);
        put(&a, b"a", &text(&long), TEXT);
        put(&carried(&long, is_open), &long, &text(b"v"), TEXT);
        put(&a, b"a", &text(b"\xff"), UTF8);
        put(
            &carried(b"\xff", is_open),
            b"\xff",
            &Value::Bits(5, 1),
            UTF8,
        );
    }
    put(&carried(b"a", 0), b"a", &Value::Bits(5, 1), TURN);
    for (is_open, is_strict) in [(2, 1), (1, 2), (1, u32::MAX), (0, 2), (2, 2)] {
        let broken = Carried {
            is_strict,
            ..carried(b"a", is_open)
        };
        put(&broken, b"a", &Value::Bits(5, 1), STATE);
        put(&broken, b"a", &text(&long), STATE);
        put(&broken, b"\xff", &text(b"v"), STATE);
        put(&broken, b"b", &text(b"v"), STATE);
    }
}

/// The keys of a whole feature's tags, and whether one comes again.
const LISTS: [(&[&[u8]], bool); 12] = [
    (&[], false),
    (&[b"a"], false),
    (&[b"a", b"a"], true),
    (&[b"b", b"b"], true),
    (&[b"a", b"b"], false),
    (&[b"b", b"a"], false),
    (&[b"a", b"b", b"a"], true),
    (&[b"c", b"b", b"b"], true),
    (&[b"c", b"b", b"a", b"d", b"b"], true),
    (&[b"", b"a", b"b", b"ab", b"ba"], false),
    (&[b"", b""], true),
    (&[b"\xc3\xa9", b"e\xcc\x81"], false),
];

fn tags(keys: &[&[u8]], value: impl Fn(usize) -> Value) -> Vec<(Vec<u8>, Value)> {
    let tag = |(at, key): (usize, &&[u8])| (key.to_vec(), value(at));
    keys.iter().enumerate().map(tag).collect()
}

/// Whole features, their values all the same or none like another; what the layer has makes no difference, twice in its table neither.
fn whole(cases: &mut Vec<Case>) {
    let tables: [&[&[u8]]; 3] = [&[b"a"], &[b"a", b"a"], &[b"c", b"b", b"a"]];
    for (keys, again) in LISTS {
        for table in tables {
            for step in [0, 1] {
                let value = |at| Value::Bits(5, 1 + (step * at) as u64);
                cases.push(Case {
                    carried: Carried {
                        is_open: 0,
                        ..open(table, &[0, 0])
                    },
                    call: Call::Feature(1, tags(keys, value)),
                    refusals: unless_again(again),
                });
            }
        }
    }
}

/// KIND, STATE, TEXT, UTF8 and TURN of a whole feature with a key twice come before AGAIN.
fn whole_order(cases: &mut Vec<Case>) {
    let long = [b'v'; TEXT_LIMIT + 1];
    let twice = |value: &[u8]| tags(&[b"a", b"a"], |_| text(value));
    let mut put = |is_open, is_strict, kind, tags: Vec<(Vec<u8>, Value)>, refusal| {
        cases.push(Case {
            carried: Carried {
                is_open,
                is_strict,
                ..open(&[b"a"], &[0, 0])
            },
            call: Call::Feature(kind, tags),
            refusals: [refusal; 2],
        })
    };
    for is_open in [0, 1] {
        put(is_open, 1, 0, twice(b"v"), KIND);
        put(is_open, 1, 4, twice(b"v"), KIND);
        put(is_open, 2, 4, twice(b"v"), KIND);
        put(is_open, 1, 1, twice(&long), TEXT);
        put(is_open, 1, 1, twice(b"\xff"), UTF8);
        put(
            is_open,
            1,
            1,
            tags(&[b"\xff", b"\xff"], |_| text(b"v")),
            UTF8,
        );
        put(is_open, 2, 1, twice(b"v"), STATE);
        put(is_open, u32::MAX, 1, twice(&long), STATE);
    }
    put(2, 1, 1, twice(b"v"), STATE);
    put(1, 1, 1, twice(b"v"), TURN);
}

/// An ordinary layer says what the strict one says, but for AGAIN: it does not look.
fn on_ordinary(case: &Case) -> Option<(Carried, [u32; 2])> {
    let is_marked = case.carried.is_strict == 1;
    let ordinary = Carried {
        is_strict: 0,
        ..case.carried.clone()
    };
    let refusals = match case.refusals {
        [AGAIN, AGAIN] => [0, ROOM],
        same => same,
    };
    is_marked.then_some((ordinary, refusals))
}

fn differs(carried: &Carried, call: &Call, refusals: [u32; 2]) -> Option<String> {
    [true, false]
        .into_iter()
        .zip(refusals)
        .find_map(|(has_room, refusal)| {
            let what = call.differs(&carried.held(has_room), refusal, |said| said)?;
            Some(format!("room {has_room}: {what}, expected {refusal}"))
        })
}

pub fn compare(tally: &mut Tally) -> Option<Difference> {
    let mut cases = Vec::new();
    having(&mut cases);
    long_keys(&mut cases);
    tag_order(&mut cases);
    whole(&mut cases);
    whole_order(&mut cases);
    for case in cases {
        let ordinary = on_ordinary(&case);
        let beside = ordinary.and_then(|(carried, refusals)| {
            Some(format!(
                "ordinary: {}",
                differs(&carried, &case.call, refusals)?
            ))
        });
        if let Some(what) = differs(&case.carried, &case.call, case.refusals).or(beside) {
            let input = format!("{case:?}");
            return Some(Difference { what, input });
        }
        tally.add("answers written out", 1);
    }
    None
}
