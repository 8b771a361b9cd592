//! The lists by which many features go in by one call, and what the indexes lent to it are expected to hold after it.

use crate::lent::Watched;
use crate::tile_judge::{Memory, MAX_ENTRIES};
use ours::tiles::{Features, Figures, Head};

/// Features one behind the other, as one call takes them.
#[derive(Default)]
pub struct Together {
    pub heads: Vec<u32>,
    pub words: Vec<u32>,
    pub tags: Vec<u32>,
    pub bytes: Vec<u8>,
}

impl Together {
    /// One more: its tags are five words each, and their texts stand in `bytes`.
    pub fn push(&mut self, head: Head, words: &[u32], tags: &[u32], bytes: &[u8]) {
        let from = self.bytes.len() as u32;
        self.heads.extend([head.kind, head.has_id, head.id as u32]);
        self.heads.push((head.id >> 32) as u32);
        self.heads.extend([words.len() as u32, tags.len() as u32]);
        self.words.extend(words);
        for tag in tags.chunks_exact(5) {
            let text = if tag[2] == 1 { from } else { 0 };
            self.tags
                .extend([tag[0] + from, tag[1], tag[2], tag[3] + text, tag[4]]);
        }
        self.bytes.extend(bytes);
    }

    pub fn given(&self) -> Features<'_> {
        Features {
            heads: &self.heads,
            words: &self.words,
            tags: &self.tags,
            bytes: &self.bytes,
        }
    }
}

/// The number that chooses the bucket of a text, and of another value.
fn text_hash(text: impl Iterator<Item = u8>) -> u64 {
    text.fold(0, |hash, byte| {
        (hash * 16_777_619 + u64::from(byte)) % (1 << 32)
    })
}

fn bits_hash(kind: u32, low: u32, high: u32) -> u64 {
    let half = |word: u32| u64::from(word % (1 << 31));
    (u64::from(kind) + half(low) + 31 * half(high)) * 82_952_543 >> 16
}

/// The heads of the buckets, and then the link of each entry: 1 and the newest entry of the bucket before it.
fn chained(hashes: impl Iterator<Item = u64>, words: usize) -> Vec<u32> {
    let slots = words / 2;
    let mut index = vec![0; words];
    for (entry, hash) in hashes.enumerate() {
        let bucket = (hash % slots as u64) as usize;
        index[slots + entry] = index[bucket];
        index[bucket] = entry as u32 + 1;
    }
    index
}

/// By turns none, one that is too short by a slot, and one that is just long enough, with a word more or without it.
pub fn words(room: usize, turn: usize) -> usize {
    let room = room.min(MAX_ENTRIES);
    match turn % 4 {
        0 => 0,
        1 => (2 * room).saturating_sub(1),
        2 => 2 * room,
        _ => 2 * room + 3,
    }
}

/// Whether an index of so many words is used for a list with room for so many entries.
pub fn serves(words: usize, room: usize) -> bool {
    words / 2 > 0 && words / 2 >= room.min(MAX_ENTRIES)
}

/// What the index of the keys, and that of the values, holds for a layer with these figures.
pub fn expect_keys(index: &mut Watched<u32>, memory: &Memory, used: Figures) {
    if serves(index.room(), memory.keys.room() / 2) {
        let hash = |entry| {
            let [at, len] = [0, 1].map(|i| memory.keys.expected(2 * entry + i) as usize);
            text_hash((at..at + len).map(|at| memory.texts.expected(at)))
        };
        index.expect(0, &chained((0..used.keys).map(hash), index.room()));
    }
}

pub fn expect_values(index: &mut Watched<u32>, memory: &Memory, used: Figures) {
    if serves(index.room(), memory.values.room() / 3) {
        let hash = |entry| {
            let [kind, low, high] = [0, 1, 2].map(|i| memory.values.expected(3 * entry + i));
            match kind {
                1 => {
                    let at = low as usize;
                    text_hash((at..at + high as usize).map(|at| memory.texts.expected(at)))
                }
                _ => bits_hash(kind, low, high),
            }
        };
        index.expect(0, &chained((0..used.values).map(hash), index.room()));
    }
}
