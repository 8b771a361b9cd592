//! Whole features by the rules, written out: what a call with one of them, or with many, answers, and what the layer and its lists are after it.
//! JOB, KIND, STATE, TEXT, UTF8, TURN, in a strict layer AGAIN, and ROOM last, of the exact need; only then is anything written, so that a refused feature changes nothing.

use crate::held::{inside, is_value, Held, STATE};
use crate::judge::{JOB, KIND, MAX_WORDS, ROOM};
use crate::tile_judge::{is_text, AGAIN, MAX_ENTRIES, TEXT, TEXT_LIMIT, TURN, UTF8};
use ours::tiles::{Features, Figures, Head, Layer};

/// A feature with its geometry words, its tags of five words each, and the bytes of their texts.
pub struct Whole<'a> {
    pub head: Head,
    pub words: &'a [u32],
    pub tags: &'a [u32],
    pub bytes: &'a [u8],
}

impl Whole<'_> {
    /// Whether the tags are a list of tags.
    fn is_list(&self) -> bool {
        let room = self.bytes.len();
        self.tags
            .chunks(5)
            .all(|tag| tag.len() == 5 && inside(room, tag[0], tag[1]) && is_value(room, &tag[2..]))
    }

    /// Whether a key or a text is longer than a text may be.
    fn is_long(&self) -> bool {
        let long = |len: u32| len as usize > TEXT_LIMIT;
        self.tags
            .chunks(5)
            .any(|tag| long(tag[1]) || tag[2] == 1 && long(tag[4]))
    }

    /// Whether a key or a text is not well-formed.
    fn is_ill_formed(&self) -> bool {
        let bad = |start: u32, len: u32| !is_text(text(self.bytes, start, len));
        self.tags
            .chunks(5)
            .any(|tag| bad(tag[0], tag[1]) || tag[2] == 1 && bad(tag[3], tag[4]))
    }

    /// Whether a tag has the key of an earlier one.
    fn repeats(&self) -> bool {
        let mut before = Vec::new();
        self.tags.chunks(5).any(|tag| {
            let key = text(self.bytes, tag[0], tag[1]);
            let known = before.contains(&key);
            before.push(key);
            known
        })
    }
}

fn text(bytes: &[u8], start: u32, len: u32) -> &[u8] {
    &bytes[start as usize..][..len as usize]
}

/// What is the same for two values that are no texts and equal: both zeros are.
fn shared(value: &[u32]) -> [u32; 3] {
    match [value[0], value[1], value[2]] {
        [2, 0x8000_0000, high] => [2, 0, high],
        [3, 0, 0x8000_0000] => [3, 0, 0],
        value => value,
    }
}

/// What is used of a layer's lists; it grows whatever the room.
struct Grown {
    keys: Vec<u32>,
    values: Vec<u32>,
    texts: Vec<u8>,
    features: Vec<u32>,
}

impl Grown {
    fn of(held: &Held) -> Self {
        let used = held.layer.used;
        Grown {
            keys: held.keys[..2 * used.keys].to_vec(),
            values: held.values[..3 * used.values].to_vec(),
            texts: held.texts[..used.texts].to_vec(),
            features: held.features[..used.features].to_vec(),
        }
    }

    /// The first entry with these bytes, or a new one behind the others.
    fn key(&mut self, key: &[u8]) -> u32 {
        let same = |entry: &[u32]| text(&self.texts, entry[0], entry[1]) == key;
        let found = self.keys.chunks(2).position(same);
        let entry = found.unwrap_or(self.keys.len() / 2);
        if found.is_none() {
            self.keys
                .extend([self.texts.len() as u32, key.len() as u32]);
            self.texts.extend(key);
        }
        entry as u32
    }

    /// The same for a value, of which a text stands in these bytes.
    fn value(&mut self, value: &[u32], bytes: &[u8]) -> u32 {
        let same = |entry: &[u32]| match (entry[0], value[0]) {
            (1, 1) => text(&self.texts, entry[1], entry[2]) == text(bytes, value[1], value[2]),
            (1, _) | (_, 1) => false,
            _ => shared(entry) == shared(value),
        };
        let found = self.values.chunks(3).position(same);
        let entry = found.unwrap_or(self.values.len() / 3);
        if found.is_none() && value[0] == 1 {
            self.values.extend([1, self.texts.len() as u32, value[2]]);
            self.texts.extend(text(bytes, value[1], value[2]));
        } else if found.is_none() {
            self.values.extend(value);
        }
        entry as u32
    }

    /// The feature's record, and the entries of its tags: key before value.
    fn put(&mut self, whole: &Whole) {
        let Head { kind, has_id, id } = whole.head;
        let id = if has_id == 0 { 0 } else { id };
        let mut found = Vec::new();
        for tag in whole.tags.chunks(5) {
            found.push(self.key(text(whole.bytes, tag[0], tag[1])));
            found.push(self.value(&tag[2..], whole.bytes));
        }
        let counts = [found.len() as u32, whole.words.len() as u32];
        self.features
            .extend([kind, u32::from(has_id != 0), id as u32, (id >> 32) as u32]);
        self.features.extend(counts);
        self.features.extend(whole.words);
        self.features.extend(found);
    }

    fn used(&self) -> Figures {
        Figures {
            keys: self.keys.len() / 2,
            values: self.values.len() / 3,
            texts: self.texts.len(),
            features: self.features.len(),
        }
    }
}

impl Held {
    /// A whole feature: its refusal and nothing else, or 0 and it is there.
    pub fn put(&mut self, whole: &Whole) -> u32 {
        if !whole.is_list() {
            return JOB;
        }
        if !(1..=3).contains(&whole.head.kind) {
            return KIND;
        }
        if !self.good_layer() {
            return STATE;
        }
        if whole.is_long() {
            return TEXT;
        }
        if whole.is_ill_formed() {
            return UTF8;
        }
        if self.layer.is_open == 1 {
            return TURN;
        }
        if self.layer.is_strict == 1 && whole.repeats() {
            return AGAIN;
        }
        let mut grown = Grown::of(self);
        grown.put(whole);
        let used = grown.used();
        if whole.words.len() > MAX_WORDS
            || used.keys > (self.keys.len() / 2).min(MAX_ENTRIES)
            || used.values > (self.values.len() / 3).min(MAX_ENTRIES)
            || used.texts > self.texts.len()
            || used.features > self.features.len()
        {
            return ROOM;
        }
        self.keys[..grown.keys.len()].copy_from_slice(&grown.keys);
        self.values[..grown.values.len()].copy_from_slice(&grown.values);
        self.texts[..grown.texts.len()].copy_from_slice(&grown.texts);
        self.features[..grown.features.len()].copy_from_slice(&grown.features);
        self.layer = Layer {
            used,
            since: Figures::default(),
            ..self.layer
        };
        0
    }

    /// Many of them up to the first that is refused: the refusal, or 0, and how many were accepted. JOB where the heads do not tell all the words.
    pub fn put_all(&mut self, given: &Features) -> (u32, usize) {
        let heads = given.heads.chunks(6);
        if given.heads.len() % 6 != 0 || heads.clone().any(|head| head[1] > 1) {
            return (JOB, 0);
        }
        let sum = |at: usize| heads.clone().map(|head| u64::from(head[at])).sum::<u64>();
        if sum(4) != given.words.len() as u64 || sum(5) != given.tags.len() as u64 {
            return (JOB, 0);
        }
        if given.heads.is_empty() {
            return (if self.good_layer() { 0 } else { STATE }, 0);
        }
        let (mut words, mut tags) = (given.words, given.tags);
        for (accepted, head) in heads.enumerate() {
            let (its_words, rest) = words.split_at(head[4] as usize);
            let (its_tags, other) = tags.split_at(head[5] as usize);
            (words, tags) = (rest, other);
            let refusal = self.put(&Whole {
                head: Head {
                    kind: head[0],
                    has_id: head[1],
                    id: u64::from(head[2]) | u64::from(head[3]) << 32,
                },
                words: its_words,
                tags: its_tags,
                bytes: given.bytes,
            });
            if refusal != 0 {
                return (refusal, accepted);
            }
        }
        (0, given.heads.len() / 6)
    }
}
