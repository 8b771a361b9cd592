//! Calls on a layer with its lists whose refusal is written out.

use crate::features::tag_lists;
use crate::held::Held;
use crate::scripts::Value;
use ours::tiles::{layer, Changed, Head, Layer, Lists, Value as Given};

/// The extent of layers that are created.
pub const EXTENT: u32 = 4096;

/// A call that is given texts.
#[derive(Debug)]
pub enum Call {
    Name(Vec<u8>),
    Tag(Vec<u8>, Value),
    /// A whole feature of this kind.
    Feature(u32, Vec<(Vec<u8>, Value)>),
}

impl Call {
    fn made(&self, given: Layer, lists: &mut Lists) -> Changed {
        match self {
            Call::Name(name) => layer(name, EXTENT, lists.texts),
            Call::Tag(key, Value::Text(content)) => given.add_tag(key, Given::Text(content), lists),
            Call::Tag(key, Value::Bits(kind, bits)) => {
                given.add_tag(key, Given::Bits(*kind, *bits), lists)
            }
            Call::Feature(kind, tags) => {
                let tags: Vec<(&[u8], &Value)> = tags.iter().map(|(k, v)| (&k[..], v)).collect();
                let (tags, bytes) = tag_lists(&tags);
                let head = Head {
                    kind: *kind,
                    has_id: 0,
                    id: 0,
                };
                given.add_feature(head, &[], &tags, &bytes, lists)
            }
        }
    }

    /// What a refused call gives as its layer.
    fn back(&self, given: Layer) -> Layer {
        match self {
            Call::Name(_) => Layer::refused(),
            _ => given,
        }
    }

    /// What differs in the answer, whose refusal may be changed before; a refused call gives the layer back and leaves every list as it is, an accepted
    /// one leaves the mark.
    pub fn differs(
        &self,
        held: &Held,
        refusal: u32,
        changed: impl Fn(u32) -> u32,
    ) -> Option<String> {
        let mut memory = held.lent();
        let said = self.made(held.layer, &mut memory.lent().0);
        let told = changed(said.refusal);
        if told != refusal {
            return Some(format!("refusal {told}"));
        }
        if refusal == 0 {
            let lost = said.layer.is_strict != held.layer.is_strict;
            return lost.then(|| format!("accepted, and the layer is {:?}", said.layer));
        }
        if said.layer != self.back(held.layer) {
            return Some(format!("refused, and the layer is {:?}", said.layer));
        }
        memory.differs()
    }
}
