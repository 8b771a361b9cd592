//! Texts given to our library by every call that takes one: refused as UTF8 exactly where the Rust's own `str::from_utf8` refuses them (request (viii)).
//! Short ones and every scalar value are a layer's name; the others name a layer too, and are key and text of tags, by single calls and in whole features,
//! with the Rust beside ours. Where more than one check fails the answers are written out by hand.

use crate::held::{Held, STATE};
use crate::held_calls::{Call, EXTENT};
use crate::judge::{KIND, ROOM};
use crate::lent::Watched;
use crate::random::Random;
use crate::report::{Difference, Tally};
use crate::scripts::{Operation, Value, ILL_FORMED};
use crate::shrink::smallest;
use crate::text_lists::{self, SHORT};
use crate::tile_judge::{is_text, TEXT, TEXT_LIMIT, TURN, UTF8};
use crate::tiles;
use ours::tiles::{layer, Changed, Figures, Layer, Tile};

/// What is changed of ours before it is compared, to show that it is found.
#[derive(Clone, Copy, PartialEq)]
pub enum Spoil {
    Nothing,
    /// A surrogate is accepted as a name.
    Surrogate,
    /// UTF8 is said to be TEXT by the calls on a layer.
    Call,
    /// UTF8 is said to be TURN where more than one check fails.
    Order,
}

/// What differs where these bytes are a layer's name.
fn named(text: &[u8], spoil: Spoil) -> Option<String> {
    let mut texts = Watched::new(text.len());
    let mut said = layer(text, EXTENT, texts.lent());
    if spoil == Spoil::Surrogate && matches!(text, [0xED, 0xA0..=0xBF, 0x80..=0xBF]) {
        said.refusal = 0;
    }
    let wanted = if is_text(text) {
        texts.expect(0, text);
        Changed {
            refusal: 0,
            layer: named_layer(text.len()),
        }
    } else {
        Changed {
            refusal: UTF8,
            layer: Layer::refused(),
        }
    };
    if said != wanted {
        return Some(format!("a name: ours {said:?}, expected {wanted:?}"));
    }
    texts.differs("texts")
}

fn named_layer(name: usize) -> Layer {
    Layer {
        extent: EXTENT,
        name,
        used: Figures {
            texts: name,
            ..Figures::default()
        },
        ..Layer::default()
    }
}

/// All these as names.
fn names(
    texts: impl Iterator<Item = Vec<u8>>,
    which: &'static str,
    spoil: Spoil,
    tally: &mut Tally,
) -> Option<Difference> {
    let (mut good, mut all) = (0, 0);
    for text in texts {
        if let Some(what) = named(&text, spoil) {
            return Some(Difference {
                what,
                input: format!("{text:02x?}"),
            });
        }
        all += 1;
        good += usize::from(is_text(&text));
    }
    tally.add(which, all);
    tally.add("of these names accepted", good);
    tally.add("of these names UTF8", all - good);
    None
}

fn text(content: &[u8]) -> Value {
    Value::Text(content.to_vec())
}

/// A tag of the call of that turn, which takes no text as its value.
fn bits(turn: usize) -> Value {
    Value::Bits(2 + turn as u32 % 6, 1)
}

/// The bytes as a layer's name, as key of two calls, and as a text: four calls that look at them.
fn single(bytes: &[u8], turn: usize) -> Vec<Operation> {
    vec![
        Operation::Create(EXTENT, bytes.to_vec()),
        Operation::Create(EXTENT, b"n".to_vec()),
        Operation::Open(1, Vec::new()),
        Operation::Tag(bytes.to_vec(), bits(turn)),
        Operation::Tag(bytes.to_vec(), text(b"v")),
        Operation::Tag(b"k".to_vec(), text(bytes)),
        Operation::Close,
        Operation::Add,
    ]
}

/// A feature that is good, one with the bytes as a key and one with them as a text, in turn the one or the other first, never of its first tag: two that
/// look at them.
fn features(bytes: &[u8], turn: usize) -> Vec<Operation> {
    let first = || Operation::Tag(b"k".to_vec(), Value::Bits(5, 7));
    let mut seconds = [
        Operation::Tag(b"l".to_vec(), bits(turn)),
        Operation::Tag(bytes.to_vec(), bits(turn)),
        Operation::Tag(b"l".to_vec(), text(bytes)),
    ];
    // Which calls these go by changes every four turns.
    if turn / 4 % 2 == 1 {
        seconds.swap(1, 2);
    }
    let mut operations = vec![Operation::Create(EXTENT, b"n".to_vec())];
    for second in seconds {
        let open = Operation::Open(1, Vec::new());
        operations.extend([open, first(), second, first(), Operation::Close]);
    }
    operations.push(Operation::Add);
    operations
}

/// These bytes in all ways: how many calls were made and how many of them refused, or what differs.
fn given(bytes: &[u8], turn: usize, spoil: Spoil) -> Result<[usize; 2], String> {
    let spoil = match spoil {
        Spoil::Call => tiles::Spoil::Text,
        _ => tiles::Spoil::Nothing,
    };
    let ways = [
        (single(bytes, turn), false, 4),
        (features(bytes, turn), true, 2),
    ];
    let mut made = [0; 2];
    for (operations, whole, looks) in ways {
        let counts = tiles::answers(operations, whole, turn, spoil)?;
        let refused = if is_text(bytes) { 0 } else { looks };
        let said = [counts.refused[UTF8 as usize], counts.refused[0]];
        let wanted = [refused, counts.calls - refused];
        if said != wanted {
            return Err(format!(
                "calls refused as UTF8 and accepted: {said:?}, expected {wanted:?}"
            ));
        }
        made[0] += counts.calls;
        made[1] += refused;
    }
    Ok(made)
}

/// Halves, a byte less, and a byte that is ASCII.
fn simpler(bytes: &Vec<u8>) -> Vec<Vec<u8>> {
    let (front, back) = bytes.split_at(bytes.len() / 2);
    let mut found = vec![front.to_vec(), back.to_vec()];
    for at in 0..bytes.len() {
        let mut less = bytes.clone();
        less.remove(at);
        let mut plain = bytes.clone();
        plain[at] = b'a';
        found.extend([less, plain]);
    }
    found.retain(|next| next.len() < bytes.len() || next.len() == bytes.len() && next != bytes);
    found
}

/// So many texts, good and damaged.
fn random(seed: u64, count: usize, spoil: Spoil, tally: &mut Tally) -> Option<Difference> {
    let mut random = Random::new(seed);
    for at in 0..count {
        let bytes = text_lists::next(&mut random);
        let Ok([calls, refused]) = given(&bytes, at, spoil) else {
            let differs = |bytes: &Vec<u8>| given(bytes, at, spoil).err();
            let (bytes, what) = smallest(bytes, &differs, &simpler);
            return Some(Difference {
                what,
                input: format!("{bytes:02x?}, turn {at}"),
            });
        };
        tally.add("texts", 1);
        let good = is_text(&bytes);
        tally.add(if good { "well-formed" } else { "ill-formed" }, 1);
        tally.add("longer than 40 bytes", usize::from(bytes.len() > SHORT));
        tally.add("calls", calls);
        tally.add("accepted", calls - refused);
        tally.add("UTF8", refused);
    }
    // A maker that makes only one of the two would show nothing.
    ["well-formed", "ill-formed"]
        .into_iter()
        .find(|which| tally.count(which) < count / 10)
        .map(|which| Difference {
            what: format!("only {} {which} texts", tally.count(which)),
            input: format!("{count} texts of seed {seed}"),
        })
}

/// A call on a layer whose feature is open (1) or not (0) or neither (2), with room or with none, and the refusal that comes first.
#[derive(Debug)]
struct Order {
    call: Call,
    is_open: u32,
    has_room: bool,
    refusal: u32,
}

/// A layer with a feature.
fn held(is_open: u32, has_room: bool) -> Held {
    let more = if has_room { 3 * TEXT_LIMIT } else { 0 };
    let filled = |mut list: Vec<u32>| {
        list.resize(list.len() + more, 9);
        list
    };
    let since = named_layer(1).used;
    let used = Figures {
        features: 6,
        ..since
    };
    let mut texts = b"n".to_vec();
    texts.resize(1 + more, 9);
    Held {
        layer: Layer {
            is_open,
            used,
            since,
            ..named_layer(1)
        },
        tile: Tile::default(),
        keys: filled(Vec::new()),
        values: filled(Vec::new()),
        texts,
        features: filled(vec![1, 0, 0, 0, 0, 0]),
        names: Vec::new(),
        bytes: Vec::new(),
    }
}

/// The checks in their order where more than one fails, and the answers to good texts beside them.
fn orders(bad: &[u8]) -> Vec<Order> {
    let long = vec![b'v'; TEXT_LIMIT + 1];
    let bad_long = [bad, &long[bad.len()..]].concat();
    let good = "\u{e9}".as_bytes();
    let mut found = Vec::new();
    let mut put = |call, is_open, has_room, refusal| {
        found.push(Order {
            call,
            is_open,
            has_room,
            refusal,
        })
    };
    let name = |name: &[u8]| Call::Name(name.to_vec());
    for (has_room, of_good) in [(true, 0), (false, ROOM)] {
        put(name(&bad_long), 0, has_room, TEXT);
        put(name(bad), 0, has_room, UTF8);
        put(name(good), 0, has_room, of_good);
    }
    let tag = |key: &[u8], value: &Value| Call::Tag(key.to_vec(), value.clone());
    // One call for each kind of value; the text call with a key, a text or both.
    let values: Vec<Value> = (0..6).map(bits).chain([text(good)]).collect();
    for (is_open, has_room, of_good) in [
        (1, true, 0),
        (1, false, ROOM),
        (0, true, TURN),
        (0, false, TURN),
    ] {
        for value in &values {
            put(tag(&bad_long, value), is_open, has_room, TEXT);
            put(tag(bad, value), is_open, has_room, UTF8);
            put(tag(good, value), is_open, has_room, of_good);
        }
        put(tag(good, &text(&bad_long)), is_open, has_room, TEXT);
        put(tag(bad, &text(&long)), is_open, has_room, TEXT);
        put(tag(&long, &text(bad)), is_open, has_room, TEXT);
        put(tag(good, &text(bad)), is_open, has_room, UTF8);
        put(tag(bad, &text(bad)), is_open, has_room, UTF8);
    }
    put(tag(bad, &bits(0)), 2, true, STATE);
    put(tag(bad, &text(&long)), 2, true, STATE);
    let feature = |kind, key: &[u8], value: &Value| {
        let first = (good.to_vec(), text(good));
        Call::Feature(kind, vec![first, (key.to_vec(), value.clone())])
    };
    for (is_open, has_room, of_good) in [
        (0, true, 0),
        (0, false, ROOM),
        (1, true, TURN),
        (1, false, TURN),
    ] {
        put(feature(1, bad, &text(&long)), is_open, has_room, TEXT);
        put(feature(1, good, &text(&bad_long)), is_open, has_room, TEXT);
        put(feature(1, bad, &bits(0)), is_open, has_room, UTF8);
        put(feature(1, good, &text(bad)), is_open, has_room, UTF8);
        put(feature(1, good, &text(good)), is_open, has_room, of_good);
    }
    put(feature(0, bad, &bits(0)), 0, true, KIND);
    put(feature(1, bad, &bits(0)), 2, true, STATE);
    found
}

/// What differs in the answer.
fn out_of_order(order: &Order, spoil: Spoil) -> Option<String> {
    let changed = |refusal| match (spoil, refusal) {
        (Spoil::Order, UTF8) => TURN,
        _ => refusal,
    };
    let held = held(order.is_open, order.has_room);
    order.call.differs(&held, order.refusal, changed)
}

fn in_order(spoil: Spoil, tally: &mut Tally) -> Option<Difference> {
    for bad in ILL_FORMED {
        for order in orders(bad) {
            if let Some(what) = out_of_order(&order, spoil) {
                return Some(Difference {
                    what,
                    input: format!("{order:?}"),
                });
            }
            tally.add("checks in their order", 1);
        }
    }
    None
}

/// The checks in their order, the short texts and every scalar value as names, then so many texts in every call.
pub fn compare(seed: u64, count: usize, spoil: Spoil, tally: &mut Tally) -> Option<Difference> {
    in_order(spoil, tally)
        .or_else(|| {
            let which = "strings of one and two bytes";
            names(text_lists::shortest(), which, spoil, tally)
        })
        .or_else(|| {
            let which = "of three that begin with E0 to EF";
            names(text_lists::of_three(), which, spoil, tally)
        })
        .or_else(|| {
            let which = "of four that begin with F0 to FF";
            names(text_lists::of_four(), which, spoil, tally)
        })
        .or_else(|| names(text_lists::scalars(), "scalar values", spoil, tally))
        .or_else(|| {
            let which = "sequences between ASCII";
            names(text_lists::placed(), which, spoil, tally)
        })
        .or_else(|| random(seed, count, spoil, tally))
}

/// Texts with the Rust's word on them, a line each, for utf8.py.
pub fn print(seed: u64, count: usize) {
    let mut random = Random::new(seed);
    let random = (0..count).map(|_| text_lists::next(&mut random));
    for bytes in text_lists::shortest()
        .chain(text_lists::placed())
        .chain(random)
    {
        let hex: String = bytes.iter().map(|byte| format!("{byte:02x}")).collect();
        let told = if is_text(&bytes) { "text" } else { "no text" };
        println!("{hex}\t{told}");
    }
}
