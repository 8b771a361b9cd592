//! Arbitrary layers, tiles and lists through our library: no crash, every guard unharmed, a refused call writes nothing and gives its state back.
//! Most are valid ones with something damaged. The refusals before ROOM are held against document 01's rules (`held`); whole features in everything that they
//! answer and write (`whole`), by turns with lists about as long as they need. Texts that are given may be no UTF-8, which is refused; those
//! that are stored may be none too, and no call looks into them. Half of the layers are strict, some with a key twice in their table or their open feature, and
//! tag words may be an odd number; AGAIN is expected exactly where request (xiv) has it, before ROOM.

use crate::held::{Held, STATE};
use crate::judge::{JOB, KIND, ROOM};
use crate::lent::Watched;
use crate::many::{self, Together};
use crate::random::Random;
use crate::report::{Difference, Tally};
use crate::side::{by_extent, by_tile};
use crate::tile_judge::{refuses_texts, Memory, AGAIN, EXTENT, NAME, TEXT, TURN, UTF8};
use crate::whole::Whole;
use ours::tiles::{Changed, Counted, Figures, Head, Indexes, Layer, Tile, Value};

/// What is changed of ours before it is judged, to show that it is found.
#[derive(Clone, Copy)]
pub enum Spoil {
    Nothing,
    /// ROOM is said for AGAIN.
    Room,
    /// AGAIN is not said where the lookup finds another entry of the key than the feature has.
    Second,
    /// AGAIN is said of a lone last word.
    Lone,
    /// A mark that is neither 0 nor 1 is taken.
    Mark,
}

/// What tags show of AGAIN; of a full list, one without room for a tag's two words.
const FULL: &str = "AGAIN in a full list";
const SECOND: &str = "AGAIN by another entry than the lookup finds";
const LONE: &str = "no AGAIN by a lone last word";

/// A number: any bits, a small one, or one at a boundary.
fn number(random: &mut Random) -> u32 {
    match random.below(4) {
        0 => random.next() as u32,
        1 => random.below(9) as u32,
        2 => (random.between(-3, 3)) as u32,
        _ => 1 << random.below(32),
    }
}

fn bytes(random: &mut Random, most: usize) -> Vec<u8> {
    // Few different ones, so that texts are found again; of the second three not all that is made of them is UTF-8.
    let few = random.pick(&[[0, 1, 2], [0, 1, 2], [b'a', 0xc3, 0xa9]]);
    (0..random.below(most + 1))
        .map(|_| random.pick(&few))
        .collect()
}

/// Where a text of so many bytes stands, and its length.
fn place(random: &mut Random, bytes: usize) -> [u32; 2] {
    if random.chance(6) {
        return [0, bytes as u32];
    }
    let start = random.below(bytes + 1);
    [start as u32, random.below(bytes - start + 1) as u32]
}

fn value(random: &mut Random, texts: usize) -> [u32; 3] {
    // Often a zero of either sign, of which two in one feature are one value.
    if random.chance(4) {
        return random.pick(&[[2, 0, 0], [2, 1 << 31, 0], [3, 0, 0], [3, 0, 1 << 31]]);
    }
    let kind = random.between(1, 7) as u32;
    match kind {
        1 => {
            let [start, len] = place(random, texts);
            [1, start, len]
        }
        2 => [2, number(random), 0],
        7 => [7, random.below(2) as u32, 0],
        _ => [kind, number(random), number(random)],
    }
}

/// A record whose tags, often, are of so many keys.
fn record(random: &mut Random, keys: usize) -> Vec<u32> {
    let (tags, geometry) = (random.below(5), random.below(4));
    let mut words = vec![
        random.between(1, 3) as u32,
        random.below(2) as u32,
        number(random),
        number(random),
        tags as u32,
        geometry as u32,
    ];
    words.extend((0..geometry).map(|_| number(random)));
    for _ in 0..tags {
        let (any, of_key) = (number(random), random.below(keys + 1) as u32);
        words.push(random.pick(&[any, of_key, of_key, of_key]));
    }
    words
}

/// Where the keys of a table stand, some of them twice.
fn key_words(random: &mut Random, texts: usize) -> Vec<u32> {
    let mut keys: Vec<u32> = Vec::new();
    for _ in 0..random.below(4) {
        if !keys.is_empty() && random.chance(2) {
            keys.extend_from_within(..2);
        } else {
            keys.extend(place(random, texts));
        }
    }
    keys
}

/// A layer and a tile that break no rule.
fn valid(random: &mut Random) -> Held {
    let mut texts = bytes(random, 12);
    let used_texts = texts.len();
    let mut keys = key_words(random, used_texts);
    let entries = keys.len() / 2;
    let mut values = Vec::new();
    for _ in 0..random.below(4) {
        values.extend(value(random, used_texts));
    }
    let mut features = Vec::new();
    for _ in 0..random.below(3) {
        features.extend(record(random, entries));
    }
    let mut layer = Layer {
        extent: random.below(2) as u32,
        is_strict: random.below(2) as u32,
        name: random.below(used_texts + 1),
        ..Layer::default()
    };
    if random.chance(2) {
        layer.is_open = 1;
        layer.since = Figures {
            keys: random.below(entries + 1),
            values: random.below(values.len() / 3 + 1),
            texts: random.below(used_texts + 1),
            features: features.len(),
        };
        features.extend(record(random, entries));
    }
    layer.used = Figures {
        keys: entries,
        values: values.len() / 3,
        texts: used_texts,
        features: features.len(),
    };
    let mut tile_bytes = bytes(random, 12);
    let used = tile_bytes.len();
    let mut names = Vec::new();
    for _ in 0..random.below(3) {
        names.extend(place(random, used));
    }
    let tile = Tile {
        extent: random.below(2) as u32,
        used,
        layers: names.len() / 2,
    };
    // More room in some lists, with anything in it.
    let more = |random: &mut Random, most: usize| random.pick(&[0, 1, 2, 3, most]);
    for (list, most) in [
        (&mut keys, 9),
        (&mut values, 9),
        (&mut features, 40),
        (&mut names, 5),
    ] {
        list.extend(
            (0..more(random, most))
                .map(|_| number(random))
                .collect::<Vec<u32>>(),
        );
    }
    for (list, most) in [(&mut texts, 30), (&mut tile_bytes, 200)] {
        list.extend(
            (0..more(random, most))
                .map(|_| random.next() as u8)
                .collect::<Vec<u8>>(),
        );
    }
    Held {
        layer,
        tile,
        keys,
        values,
        texts,
        features,
        names,
        bytes: tile_bytes,
    }
}

/// A figure near what it was, or anything.
fn figure(random: &mut Random, was: usize) -> usize {
    match random.below(6) {
        0 => random.next() as usize,
        1 => 1 << random.below(64),
        2 => usize::MAX - random.below(4),
        3 => random.below(9),
        _ => was.saturating_add(2).saturating_sub(random.below(5)),
    }
}

fn word(random: &mut Random, list: &mut [u32]) {
    if list.is_empty() {
        return;
    }
    let at = random.below(list.len());
    list[at] = match random.below(3) {
        0 => number(random),
        1 => list[at].wrapping_add(1),
        _ => list[at].wrapping_sub(1),
    };
}

fn cut<T>(random: &mut Random, list: &mut Vec<T>) {
    list.truncate(list.len().saturating_sub(1 + random.below(3)));
}

/// One figure, word or length is changed.
fn damage(random: &mut Random, held: &mut Held) {
    let Held { layer, tile, .. } = held;
    match random.below(25) {
        0 => layer.is_open = random.pick(&[0, 1, 2, u32::MAX]),
        24 => layer.is_strict = random.pick(&[0, 1, 2, 255, 256, 1 << 31, u32::MAX]),
        1 => layer.name = figure(random, layer.name),
        2 => layer.used.keys = figure(random, layer.used.keys),
        3 => layer.used.values = figure(random, layer.used.values),
        4 => layer.used.texts = figure(random, layer.used.texts),
        5 => layer.used.features = figure(random, layer.used.features),
        6 => layer.since.keys = figure(random, layer.since.keys),
        7 => layer.since.values = figure(random, layer.since.values),
        8 => layer.since.texts = figure(random, layer.since.texts),
        9 => layer.since.features = figure(random, layer.since.features),
        10 => tile.used = figure(random, tile.used),
        11 => tile.layers = figure(random, tile.layers),
        12 | 13 => word(random, &mut held.keys),
        14 | 15 => word(random, &mut held.values),
        16..=18 => word(random, &mut held.features),
        19 => word(random, &mut held.names),
        20 => cut(random, &mut held.keys),
        21 => cut(random, &mut held.values),
        22 => {
            cut(random, &mut held.texts);
            cut(random, &mut held.bytes);
        }
        _ => cut(random, &mut held.features),
    }
}

/// Nothing that fits together.
fn wild(random: &mut Random) -> Held {
    let list = |random: &mut Random| -> Vec<u32> {
        (0..random.below(20)).map(|_| number(random)).collect()
    };
    let figures = |random: &mut Random| Figures {
        keys: figure(random, 3),
        values: figure(random, 3),
        texts: figure(random, 5),
        features: figure(random, 9),
    };
    Held {
        layer: Layer {
            extent: number(random),
            is_open: number(random),
            is_strict: number(random),
            name: figure(random, 3),
            used: figures(random),
            since: figures(random),
        },
        tile: Tile {
            extent: number(random),
            used: figure(random, 5),
            layers: figure(random, 2),
        },
        keys: list(random),
        values: list(random),
        texts: bytes(random, 20),
        features: list(random),
        names: list(random),
        bytes: bytes(random, 40),
    }
}

/// What a call said, and what it may say.
struct Said {
    call: &'static str,
    refusal: u32,
    /// The refusal by document 01's rules before `rest`, or 0.
    first: u32,
    /// What else it may refuse, where that is 0.
    rest: &'static [u32],
    /// The state is given back where refused, and a count is 0.
    back: bool,
    /// The figures after an accepted call lie within the lists.
    within: bool,
    /// Which lists an accepted call may write beyond what they are expected to hold.
    writes: &'static str,
    /// What it shows of AGAIN.
    shows: Vec<&'static str>,
}

fn state_or_turn(held: &Held, wanted: u32) -> u32 {
    match (held.good_layer(), held.layer.is_open == wanted) {
        (false, _) => STATE,
        (_, false) => TURN,
        _ => 0,
    }
}

fn within(held: &Held, used: Figures) -> bool {
    2 * used.keys.min(1 << 40) <= held.keys.len()
        && 3 * used.values.min(1 << 40) <= held.values.len()
        && used.texts <= held.texts.len()
        && used.features <= held.features.len()
}

/// Of a call that keeps the layer's mark.
fn changed(
    held: &Held,
    call: &'static str,
    given: Changed,
    first: u32,
    rest: &'static [u32],
    writes: &'static str,
) -> Said {
    let is_marked = given.layer.is_strict == held.layer.is_strict;
    Said {
        call,
        refusal: given.refusal,
        first,
        rest,
        back: given.layer == held.layer,
        within: within(held, given.layer.used) && is_marked,
        writes,
        shows: Vec::new(),
    }
}

/// Of a call whose whole answer and memory are known; whether the rest of its answer is as expected is told beside its refusal.
fn foreseen(call: &'static str, refusal: u32, expected: u32, alike: bool) -> Said {
    Said {
        call,
        refusal,
        first: expected,
        rest: &[],
        back: alike,
        within: alike,
        writes: "",
        shows: Vec::new(),
    }
}

fn counted(call: &'static str, given: Counted, first: u32) -> Said {
    Said {
        call,
        refusal: given.refusal,
        first,
        rest: &[],
        back: given.count == 0,
        within: true,
        writes: "",
        shows: Vec::new(),
    }
}

/// A text: short, or about as long as the limit; or bytes that are none.
fn text(random: &mut Random) -> Vec<u8> {
    if random.chance(12) {
        let byte = random.pick(&[1, 1, 1, 0xe9]);
        return vec![byte; random.between(1023, 1026) as usize];
    }
    bytes(random, 4)
}

/// A key as the layer has it, or a text.
fn key(random: &mut Random, held: &Held) -> Vec<u8> {
    let entries = held.layer.used.keys.min(held.keys.len() / 2);
    if entries > 0 && random.chance(2) {
        if let Some(key) = held.key(random.below(entries)) {
            return key.to_vec();
        }
    }
    text(random)
}

/// What a tag with this key shows of AGAIN, where nothing comes before it.
fn shown(held: &Held, key: &[u8]) -> Vec<&'static str> {
    let is_key = |entry: u32| held.key(entry as usize) == Some(key);
    let pairs = held.tag_words().chunks_exact(2);
    if !held.has_key(key) {
        let is_lone = pairs.remainder().iter().any(|word| is_key(*word));
        return is_lone.then_some(LONE).into_iter().collect();
    }
    let found = (0..held.layer.used.keys as u32).find(|entry| is_key(*entry));
    let is_second = pairs.into_iter().all(|pair| Some(pair[0]) != found);
    let is_full = held.features.len() - held.layer.used.features < 2;
    let shows = [is_second.then_some(SECOND), is_full.then_some(FULL)];
    shows.into_iter().flatten().collect()
}

fn tag(random: &mut Random, held: &Held, memory: &mut Memory) -> Said {
    let (key, content) = (key(random, held), text(random));
    let kind = random.between(1, 7) as u32;
    let bits = u64::from(number(random)) | u64::from(number(random)) << 32;
    let value = match kind {
        1 => Value::Text(&content),
        _ => Value::Bits(kind, bits),
    };
    let (mut lists, _) = memory.lent();
    let given = held.layer.add_tag(&key, value, &mut lists);
    let texts = if kind == 1 { &content[..] } else { &[] };
    let asked = match (state_or_turn(held, 1), refuses_texts(&[&key, texts])) {
        (STATE, _) => STATE,
        (turn, 0) => turn,
        (_, refusal) => refusal,
    };
    // An ordinary layer does not look.
    let looks = asked == 0 && held.layer.is_strict == 1;
    let first = if looks && held.has_key(&key) {
        AGAIN
    } else {
        asked
    };
    let mut said = changed(held, "tags", given, first, &[ROOM], "kvtf");
    if looks {
        said.shows = shown(held, &key);
    }
    said
}

const WHOLE: &str = "whole features";
const SEVERAL: &str = "several features at once";

/// So many features, some of them of no kind.
fn features(random: &mut Random, count: usize) -> Together {
    let mut given = Together {
        bytes: text(random),
        ..Together::default()
    };
    for _ in 0..count {
        let (words, tags) = (random.below(4), random.below(6));
        let kind = random.pick(&[1, 1, 2, 2, 3, 3, 3, 1, 2, 0, 4, 1 << 31]);
        given.heads.extend([kind, number(random) % 2]);
        given.heads.extend([number(random), number(random)]);
        given.heads.extend([words as u32, 5 * tags as u32]);
        given.words.extend((0..words).map(|_| number(random)));
        for _ in 0..tags {
            given.tags.extend(place(random, given.bytes.len()));
            given.tags.extend(value(random, given.bytes.len()));
        }
    }
    given
}

/// Their lists spoiled now and then.
fn spoiled(random: &mut Random, mut given: Together) -> Together {
    match random.below(12) {
        0 => word(random, &mut given.heads),
        1 => cut(random, &mut given.heads),
        2 => word(random, &mut given.tags),
        3 => cut(random, &mut given.words),
        _ => {}
    }
    given
}

/// A whole feature: what it answers and all that it writes is as the rules say.
fn whole(random: &mut Random, held: &Held, memory: &mut Memory, given: &Together) -> Said {
    let cut = random.below(24);
    let feature = Whole {
        head: Head {
            kind: given.heads[0],
            // Every number but 0 says that there is an id.
            has_id: number(random),
            id: random.next(),
        },
        words: &given.words,
        tags: &given.tags[..given
            .tags
            .len()
            .saturating_sub(if cut < 4 { cut } else { 0 })],
        bytes: &given.bytes,
    };
    let mut after = held.clone();
    let refusal = after.put(&feature);
    after.expected_of(memory);
    let (mut lists, _) = memory.lent();
    let Whole {
        head,
        words,
        tags,
        bytes,
    } = feature;
    let said = held.layer.add_feature(head, words, tags, bytes, &mut lists);
    foreseen(WHOLE, said.refusal, refusal, said.layer == after.layer)
}

/// Several features by one call: the same, and the number accepted and every word of the indexes too.
fn several(random: &mut Random, held: &Held, memory: &mut Memory, given: &Together) -> Said {
    let mut after = held.clone();
    let (refusal, count) = after.put_all(&given.given());
    after.expected_of(memory);
    let rooms = [held.keys.len() / 2, held.values.len() / 3];
    let [mut keys, mut values] = rooms.map(|room| Watched::new(many::words(room, random.below(4))));
    let (mut lists, _) = memory.lent();
    let mut lent = Indexes {
        keys: keys.lent(),
        values: values.lent(),
    };
    let said = held
        .layer
        .add_features(given.given(), &mut lists, &mut lent);
    if count > 0 {
        many::expect_keys(&mut keys, memory, after.layer.used);
        many::expect_values(&mut values, memory, after.layer.used);
    }
    let indexed = keys.differs("").or(values.differs("")).is_none();
    let alike = (said.layer, said.count) == (after.layer, count) && indexed;
    foreseen(SEVERAL, said.refusal, refusal, alike)
}

/// A valid layer without an open feature, with lists about as long as these features need: all just long enough, or one of them too short by an element or an entry.
fn near(random: &mut Random, given: &Together) -> Held {
    let mut held = valid(random);
    while held.layer.is_open == 1 {
        held = valid(random);
    }
    let used = held.layer.used;
    let lengths = |used: Figures| [2 * used.keys, 3 * used.values, used.texts, used.features];
    let least = lengths(used);
    let all = given.heads.len() + given.words.len() + given.tags.len();
    resized(
        random,
        &mut held,
        least.map(|length| length + all + 1_026 * given.tags.len()),
    );
    let mut after = held.clone();
    after.put_all(&given.given());
    let mut rooms = lengths(after.layer.used);
    let short = random.below(8);
    for (list, room) in rooms.iter_mut().enumerate() {
        if list == short {
            *room = room.saturating_sub(1 + random.below(3)).max(least[list]);
        } else {
            *room += random.pick(&[0, 0, 0, 1, 2, 3]);
        }
    }
    resized(random, &mut held, rooms);
    held
}

/// The four lists get these lengths; what is new holds anything.
fn resized(random: &mut Random, held: &mut Held, rooms: [usize; 4]) {
    let fill = number(random);
    held.keys.resize(rooms[0], fill);
    held.values.resize(rooms[1], fill);
    held.texts.resize(rooms[2], fill as u8);
    held.features.resize(rooms[3], fill);
}

fn open(random: &mut Random, held: &Held, memory: &mut Memory) -> Said {
    let kind = random.between(0, 4) as u32;
    let words: Vec<u32> = (0..random.below(6)).map(|_| number(random)).collect();
    let (mut lists, _) = memory.lent();
    let given = held.layer.into_feature(kind, &words, &mut lists);
    let first = if (1..=3).contains(&kind) {
        state_or_turn(held, 0)
    } else {
        KIND
    };
    changed(held, "features opened", given, first, &[ROOM], "f")
}

fn create(random: &mut Random, held: &Held, memory: &mut Memory) -> Said {
    let (name, is_strict) = (text(random), random.chance(2));
    let (lists, _) = memory.lent();
    let given = if random.chance(2) {
        by_tile(held.tile, is_strict, &name, lists.texts)
    } else {
        by_extent(number(random), is_strict, &name, lists.texts)
    };
    let first = match refuses_texts(&[&name]) {
        0 if name.len() > held.texts.len() => ROOM,
        refusal => refusal,
    };
    let mut said = changed(held, "layers created", given, first, &[], "t");
    said.back = given.layer == Layer::refused();
    let is_marked = given.layer.is_strict == u32::from(is_strict);
    said.within = within(held, given.layer.used) && is_marked;
    said
}

fn add(held: &Held, memory: &mut Memory) -> Said {
    let (lists, mut tile_lists) = memory.lent();
    let given = held.tile.add_layer(held.layer, &lists, &mut tile_lists);
    let first = match state_or_turn(held, 0) {
        _ if !held.good_tile() => STATE,
        0 if held.layer.extent != held.tile.extent => EXTENT,
        0 if held.has_name() => NAME,
        refusal => refusal,
    };
    Said {
        call: "layers added",
        refusal: given.refusal,
        first,
        rest: &[ROOM],
        back: given.tile == held.tile,
        within: given.tile.used <= held.bytes.len() && given.tile.layers <= held.names.len() / 2,
        writes: "nb",
        shows: Vec::new(),
    }
}

fn ask(random: &mut Random, held: &Held, memory: &mut Memory) -> Said {
    let state = |good: bool| if good { 0 } else { STATE };
    let (mut lists, tile_lists) = memory.lent();
    let lists = &mut lists;
    match random.below(6) {
        0 => counted(
            "questions",
            held.layer.num_features(lists),
            state(held.good_layer()),
        ),
        1 => counted(
            "questions",
            held.layer.num_tags(lists),
            state_or_turn(held, 1),
        ),
        2 => {
            let named = held.layer.name(lists);
            let given = Counted {
                refusal: named.refusal,
                count: named.start + named.len,
            };
            counted("questions", given, state(held.good_layer()))
        }
        3 => counted(
            "questions",
            held.tile.num_layers(&tile_lists),
            state(held.good_tile()),
        ),
        4 => counted(
            "questions",
            held.tile.compute_size(&tile_lists),
            state(held.good_tile()),
        ),
        _ => counted(
            "questions",
            held.tile.to_bytes(&tile_lists),
            state(held.good_tile()),
        ),
    }
}

fn call(random: &mut Random, held: &Held, memory: &mut Memory) -> Said {
    match random.below(14) {
        12 | 13 => {
            let count = random.below(4);
            let given = features(random, count);
            let given = spoiled(random, given);
            several(random, held, memory, &given)
        }
        0..=2 => tag(random, held, memory),
        3 | 4 => {
            let mut given = features(random, 1);
            if random.chance(6) {
                word(random, &mut given.tags);
            }
            whole(random, held, memory, &given)
        }
        5 => open(random, held, memory),
        6 => {
            let (mut lists, _) = memory.lent();
            let given = held.layer.set_id(random.next(), &mut lists);
            changed(held, "ids set", given, state_or_turn(held, 1), &[], "f")
        }
        7 => {
            let (mut lists, _) = memory.lent();
            if random.chance(2) {
                let given = held.layer.into_layer(&mut lists);
                changed(
                    held,
                    "features closed",
                    given,
                    state_or_turn(held, 1),
                    &[],
                    "",
                )
            } else {
                let given = held.layer.abandon(&mut lists);
                changed(
                    held,
                    "features abandoned",
                    given,
                    state_or_turn(held, 1),
                    &[],
                    "",
                )
            }
        }
        8 => create(random, held, memory),
        9 | 10 => add(held, memory),
        _ => ask(random, held, memory),
    }
}

/// What is wrong with what was said or written.
fn wrong(said: &Said, held: &Held, memory: &Memory) -> Option<String> {
    let Said { call, refusal, .. } = *said;
    let allowed = match said.first {
        0 => refusal == 0 || said.rest.contains(&refusal),
        first => refusal == first,
    };
    if !allowed {
        return Some(format!(
            "{call}: refusal {refusal}, expected {}",
            said.first
        ));
    }
    if refusal != 0 && !said.back {
        return Some(format!(
            "{call}: refusal {refusal}, but the state, the count or an index is not as expected"
        ));
    }
    if refusal == 0 && !said.within {
        return Some(format!(
            "{call}: accepted, but a figure, the count or an index is not as expected"
        ));
    }
    // As expected is all of a list that the call does not write, and of every list where it is refused; and the guards.
    let stays = |list: char, room: usize| {
        if refusal != 0 || !said.writes.contains(list) {
            room
        } else {
            0
        }
    };
    let kept = [
        memory.keys.kept(stays('k', held.keys.len())),
        memory.values.kept(stays('v', held.values.len())),
        memory.texts.kept(stays('t', held.texts.len())),
        memory.features.kept(stays('f', held.features.len())),
        memory.names.kept(stays('n', held.names.len())),
        memory.bytes.kept(stays('b', held.bytes.len())),
    ];
    (kept != [true; 6]).then(|| format!("{call}: refusal {refusal}, lists kept: {kept:?}"))
}

/// A case: the layer, tile and lists, how they were made, what the call said, and the lists after it.
fn case(random: &mut Random) -> (Held, &'static str, Said, Memory) {
    let (held, how) = match random.below(9) {
        0 => (wild(random), "nothing that fits together"),
        1 | 2 => (valid(random), "valid"),
        3 => {
            let count = 1 + random.below(3);
            let given = features(random, count);
            let held = near(random, &given);
            let mut memory = held.lent();
            let said = if count == 1 {
                whole(random, &held, &mut memory, &given)
            } else {
                several(random, &held, &mut memory, &given)
            };
            return (held, "valid, about as long as features need", said, memory);
        }
        _ => {
            let mut held = valid(random);
            for _ in 0..1 + random.below(2) {
                damage(random, &mut held);
            }
            (held, "damaged")
        }
    };
    let mut memory = held.lent();
    let said = call(random, &held, &mut memory);
    (held, how, said, memory)
}

/// Whether the mark is all that breaks a rule of the layer.
fn is_marked_alone(held: &Held) -> bool {
    let mut ordinary = held.clone();
    ordinary.layer.is_strict = 0;
    !held.good_layer() && ordinary.good_layer()
}

/// The refusal, changed where that is wanted.
fn told(said: &Said, held: &Held, spoil: Spoil) -> u32 {
    let shows = |what| said.shows.contains(&what);
    match (spoil, said.refusal) {
        (Spoil::Room, AGAIN) => ROOM,
        (Spoil::Second, AGAIN) if shows(SECOND) => 0,
        (Spoil::Lone, _) if shows(LONE) => AGAIN,
        (Spoil::Mark, STATE) if is_marked_alone(held) => 0,
        (_, refusal) => refusal,
    }
}

pub fn run(seed: u64, count: usize, spoil: Spoil, tally: &mut Tally) -> Option<Difference> {
    for at in 0..count {
        let number = seed.wrapping_add(at as u64);
        let mut random = Random::new(number.wrapping_mul(0xD134_2543_DE82_EF95));
        let (held, how, mut said, memory) = case(&mut random);
        said.refusal = told(&said, &held, spoil);
        if let Some(what) = wrong(&said, &held, &memory) {
            return Some(Difference {
                what,
                input: format!(
                    "case {at} of seed {seed}: {:?} {:?} keys {:?} values {:?} texts {:?} features {:?} names {:?} bytes {:?}",
                    held.layer, held.tile, held.keys, held.values, held.texts, held.features, held.names, held.bytes
                ),
            });
        }
        tally.add("calls", 1);
        tally.add(how, 1);
        tally.add(said.call, 1);
        let [name, of_whole] = names(said.refusal);
        tally.add(name, 1);
        if [WHOLE, SEVERAL].contains(&said.call) {
            tally.add(of_whole, 1);
        }
        said.shows.iter().for_each(|what| tally.add(what, 1));
    }
    None
}

/// A refusal by its name, and that of a call that takes whole features.
fn names(refusal: u32) -> [&'static str; 2] {
    match refusal {
        0 => ["accepted", "features accepted"],
        JOB => ["JOB", "features JOB"],
        KIND => ["KIND", "features KIND"],
        STATE => ["STATE", "features STATE"],
        ROOM => ["ROOM", "features ROOM"],
        TEXT => ["TEXT", "features TEXT"],
        TURN => ["TURN", "features TURN"],
        EXTENT => ["EXTENT", ""],
        NAME => ["NAME", ""],
        UTF8 => ["UTF8", "features UTF8"],
        AGAIN => ["AGAIN", "features AGAIN"],
        _ => panic!("refusal {refusal} is in no rule"),
    }
}
