//! A feature that goes in by one call: the operations of a script that it stands for, and the lists that the call takes.

use crate::scripts::{self, Operation, Value};
use ours::tiles::Head;

/// A feature that goes in by one call.
pub struct Feature<'a> {
    pub kind: u32,
    pub words: &'a [u32],
    id: Option<u64>,
    pub tags: Vec<(&'a [u8], &'a Value)>,
    /// How many operations of a script it is.
    pub operations: usize,
}

impl<'a> Feature<'a> {
    /// The feature at the front, if it is opened, given ids and tags, and closed.
    pub fn at(operations: &'a [Operation]) -> Option<Self> {
        let Some(Operation::Open(kind, words)) = operations.first() else {
            return None;
        };
        let (mut id, mut tags) = (None, Vec::new());
        for (at, operation) in operations.iter().enumerate().skip(1) {
            match operation {
                Operation::SetId(given) => id = Some(*given),
                Operation::Tag(key, value) => tags.push((&key[..], value)),
                Operation::Close => {
                    return Some(Feature {
                        kind: *kind,
                        words,
                        id,
                        tags,
                        operations: at + 1,
                    })
                }
                _ => return None,
            }
        }
        None
    }

    /// So many features at the front at most, one behind the other.
    pub fn several(operations: &'a [Operation], most: usize) -> Vec<Self> {
        let (mut features, mut at) = (Vec::new(), 0);
        while let Some(feature) = Feature::at(&operations[at..]).filter(|_| features.len() < most) {
            at += feature.operations;
            features.push(feature);
        }
        features
    }

    pub fn head(&self) -> Head {
        Head {
            kind: self.kind,
            has_id: u32::from(self.id.is_some()),
            id: self.id.unwrap_or(0),
        }
    }

    /// Every key and every text of its tags.
    pub fn texts(&self) -> Vec<&'a [u8]> {
        let both = |(key, value): &(&'a [u8], &'a Value)| [*key, value.text()];
        self.tags.iter().flat_map(both).collect()
    }

    /// The calls that it stands for.
    pub fn calls(&self) -> Vec<Operation> {
        let mut calls = vec![Operation::Open(self.kind, self.words.to_vec())];
        calls.extend(self.id.map(Operation::SetId));
        for (key, value) in &self.tags {
            calls.push(Operation::Tag(key.to_vec(), (*value).clone()));
        }
        calls.push(Operation::Close);
        calls
    }

    pub fn lists(&self) -> (Vec<u32>, Vec<u8>) {
        tag_lists(&self.tags)
    }
}

/// Tags as one call takes them, five words each, and the bytes of their texts.
pub fn tag_lists(tags: &[(&[u8], &Value)]) -> (Vec<u32>, Vec<u8>) {
    let (mut words, mut bytes) = (Vec::new(), Vec::new());
    let mut put = |text: &[u8]| {
        let place = [bytes.len() as u32, text.len() as u32];
        bytes.extend(text);
        place
    };
    for (key, value) in tags {
        words.extend(put(key));
        match value {
            Value::Text(text) => {
                words.push(scripts::TEXT);
                words.extend(put(text));
            }
            Value::Bits(kind, bits) => words.extend([*kind, *bits as u32, (*bits >> 32) as u32]),
        }
    }
    (words, bytes)
}
