//! A layer and a tile with their lists, and document 01's rules of STATE for them, written out.

use crate::lent::Watched;
use crate::tile_judge::{Memory, MAX_ENTRIES};
use ours::tiles::{Figures, Layer, Tile};

pub const STATE: u32 = 4;

/// A layer and a tile with the contents of their lists.
#[derive(Clone)]
pub struct Held {
    pub layer: Layer,
    pub tile: Tile,
    pub keys: Vec<u32>,
    pub values: Vec<u32>,
    pub texts: Vec<u8>,
    pub features: Vec<u32>,
    pub names: Vec<u32>,
    pub bytes: Vec<u8>,
}

pub fn inside(bytes: usize, start: u32, len: u32) -> bool {
    u64::from(start) + u64::from(len) <= bytes as u64
}

pub fn is_value(bytes: usize, words: &[u32]) -> bool {
    let (kind, low, high) = (words[0], words[1], words[2]);
    match kind {
        1 => inside(bytes, low, high),
        2 => high == 0,
        3..=6 => true,
        7 => low < 2 && high == 0,
        _ => false,
    }
}

/// Records from there that follow each other exactly to the end.
fn follow(words: &[u32]) -> bool {
    match words {
        [] => true,
        [kind, mark, _, _, tags, geometry, rest @ ..] => {
            let more = u64::from(*tags) + u64::from(*geometry);
            (1..=3).contains(kind)
                && *mark < 2
                && more <= rest.len() as u64
                && follow(&rest[more as usize..])
        }
        _ => false,
    }
}

fn fits(a: Figures, b: Figures) -> bool {
    a.keys <= b.keys && a.values <= b.values && a.texts <= b.texts && a.features <= b.features
}

impl Held {
    pub fn good_layer(&self) -> bool {
        let Layer {
            is_open,
            is_strict,
            name,
            used,
            since,
            ..
        } = self.layer;
        let room = Figures {
            keys: (self.keys.len() / 2).min(MAX_ENTRIES),
            values: (self.values.len() / 3).min(MAX_ENTRIES),
            texts: self.texts.len(),
            features: self.features.len(),
        };
        if is_open > 1 || is_strict > 1 || !fits(used, room) || name > used.texts {
            return false;
        }
        let keys = self.keys[..2 * used.keys].chunks(2);
        let values = self.values[..3 * used.values].chunks(3);
        if !keys.into_iter().all(|k| inside(used.texts, k[0], k[1]))
            || !values.into_iter().all(|v| is_value(used.texts, v))
        {
            return false;
        }
        let records = &self.features[..used.features];
        if is_open == 0 {
            return follow(records);
        }
        if !fits(since, used) || !follow(&records[..since.features]) {
            return false;
        }
        // One record from the opening figure to the end.
        let last = &records[since.features..];
        last.len() >= 6
            && follow(last)
            && u64::from(last[4]) + u64::from(last[5]) == last.len() as u64 - 6
    }

    /// The bytes of that entry of the used keys, where there are any.
    pub fn key(&self, entry: usize) -> Option<&[u8]> {
        let mut used = self.keys.chunks_exact(2).take(self.layer.used.keys);
        let words = used.nth(entry)?;
        let text = self.texts.get(words[0] as usize..)?;
        text.get(..words[1] as usize)
    }

    /// The open feature's tag words, of a layer that breaks no rule: they stand behind its geometry.
    pub fn tag_words(&self) -> &[u32] {
        let Layer { used, since, .. } = self.layer;
        let record = &self.features[since.features..used.features];
        &record[6 + record[5] as usize..]
    }

    /// Whether the open feature has that key: a pair of its tag words whose first is the entry of a key with these bytes. A lone last word is no pair.
    pub fn has_key(&self, key: &[u8]) -> bool {
        let mut pairs = self.tag_words().chunks_exact(2);
        pairs.any(|pair| self.key(pair[0] as usize) == Some(key))
    }

    pub fn good_tile(&self) -> bool {
        let Tile { used, layers, .. } = self.tile;
        used <= self.bytes.len()
            && layers <= self.names.len() / 2
            && self.names[..2 * layers]
                .chunks(2)
                .all(|n| inside(used, n[0], n[1]))
    }

    pub fn has_name(&self) -> bool {
        let name = &self.texts[..self.layer.name];
        self.names[..2 * self.tile.layers].chunks(2).any(|n| {
            let (start, len) = (n[0] as usize, n[1] as usize);
            &self.bytes[start..start + len] == name
        })
    }

    /// The lists are expected to hold this from now on.
    pub fn expected_of(&self, memory: &mut Memory) {
        memory.keys.expect(0, &self.keys);
        memory.values.expect(0, &self.values);
        memory.texts.expect(0, &self.texts);
        memory.features.expect(0, &self.features);
    }

    pub fn lent(&self) -> Memory {
        Memory {
            keys: Watched::holding(&self.keys),
            values: Watched::holding(&self.values),
            texts: Watched::holding(&self.texts),
            features: Watched::holding(&self.features),
            names: Watched::holding(&self.names),
            bytes: Watched::holding(&self.bytes),
        }
    }
}
