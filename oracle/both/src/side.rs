//! Our library's side of a run: its lists, and the layer and the tile that are carried from call to call.

use crate::features::Feature;
use crate::lent::Watched;
use crate::many::{self, Together};
use crate::scripts::{Operation, Value};
use crate::tile_judge::{Memory, Rooms};
use ours::tiles::{self, Changed, Counted, Figures, Indexes, Layer, Many, Named, Tile};

/// What a call answers: its refusal, and the layer and the tile after it.
pub type Said = (u32, Layer, Tile);

#[derive(Clone)]
pub struct Side {
    pub memory: Memory,
    pub layer: Layer,
    pub tile: Tile,
    /// Whether its layers are strict.
    is_strict: bool,
}

/// A layer of a tile, strict or not.
pub fn by_tile(tile: Tile, is_strict: bool, name: &[u8], texts: &mut [u8]) -> Changed {
    if is_strict {
        tile.create_strict_layer(name, texts)
    } else {
        tile.create_layer(name, texts)
    }
}

/// A layer of that extent, strict or not.
pub fn by_extent(extent: u32, is_strict: bool, name: &[u8], texts: &mut [u8]) -> Changed {
    if is_strict {
        tiles::strict_layer(name, extent, texts)
    } else {
        tiles::layer(name, extent, texts)
    }
}

impl Side {
    pub fn new(extent: u32, rooms: Rooms, is_strict: bool) -> Self {
        Side {
            memory: Memory::new(rooms),
            // Before one is created there is one without a name.
            layer: Layer {
                is_strict: u32::from(is_strict),
                ..Layer::default()
            },
            tile: tiles::tile(extent),
            is_strict,
        }
    }

    /// What was answered is carried into the next call.
    pub fn carry(&mut self, said: Said) {
        (_, self.layer, self.tile) = said;
    }

    /// One call; creating a layer goes by the way of that turn.
    pub fn called(&mut self, operation: &Operation, turn: usize) -> Said {
        let (layer, tile) = (self.layer, self.tile);
        let (mut lists, mut tile_lists) = self.memory.lent();
        let lent = &mut lists;
        let changed = match operation {
            Operation::Create(extent, name) => {
                // Both ways to a layer, by turns where both are one.
                let made = if *extent == tile.extent && turn % 2 == 0 {
                    by_tile(tile, self.is_strict, name, lent.texts)
                } else {
                    by_extent(*extent, self.is_strict, name, lent.texts)
                };
                if made.refusal != 0 {
                    assert_eq!(made.layer, Layer::refused(), "a refused layer");
                    return (made.refusal, layer, tile);
                }
                made
            }
            Operation::Open(kind, words) => layer.into_feature(*kind, words, lent),
            Operation::SetId(id) => layer.set_id(*id, lent),
            Operation::Tag(key, Value::Text(text)) => {
                layer.add_tag(key, tiles::Value::Text(text), lent)
            }
            Operation::Tag(key, Value::Bits(kind, bits)) => {
                layer.add_tag(key, tiles::Value::Bits(*kind, *bits), lent)
            }
            Operation::Close => layer.into_layer(lent),
            Operation::Abandon => layer.abandon(lent),
            Operation::Add => {
                let added = tile.add_layer(layer, lent, &mut tile_lists);
                return (added.refusal, layer, added.tile);
            }
        };
        (changed.refusal, changed.layer, tile)
    }

    /// A whole feature by its own call.
    pub fn whole(&mut self, feature: &Feature) -> Said {
        let (tags, bytes) = feature.lists();
        let (mut lists, _) = self.memory.lent();
        let changed =
            self.layer
                .add_feature(feature.head(), feature.words, &tags, &bytes, &mut lists);
        (changed.refusal, changed.layer, self.tile)
    }

    /// The indexes of keys and values that are lent at that turn.
    pub fn indexes(&self, turn: usize) -> [Watched<u32>; 2] {
        [
            Watched::new(many::words(self.memory.keys.room() / 2, turn)),
            Watched::new(many::words(self.memory.values.room() / 3, turn / 4)),
        ]
    }

    /// Features by one call, with these indexes of keys and values.
    pub fn several(&mut self, features: &[Feature], indexes: &mut [Watched<u32>; 2]) -> Many {
        let mut together = Together::default();
        for feature in features {
            let (tags, bytes) = feature.lists();
            together.push(feature.head(), feature.words, &tags, &bytes);
        }
        let [keys, values] = indexes;
        let mut lent = Indexes {
            keys: keys.lent(),
            values: values.lent(),
        };
        let (mut lists, _) = self.memory.lent();
        self.layer
            .add_features(together.given(), &mut lists, &mut lent)
    }

    /// What every question to the layer and to the tile is answered.
    pub fn asked(&mut self) -> (Named, [Counted; 6]) {
        let (layer, tile) = (self.layer, self.tile);
        let (mut lists, tile_lists) = self.memory.lent();
        let counts = [
            layer.num_features(&mut lists),
            layer.num_tags(&mut lists),
            tile.layer_size(layer, &lists),
            tile.num_layers(&tile_lists),
            tile.compute_size(&tile_lists),
            tile.to_bytes(&tile_lists),
        ];
        (layer.name(&mut lists), counts)
    }

    /// How much of each list is used.
    pub fn used(&self) -> Rooms {
        let Figures {
            keys,
            values,
            texts,
            features,
        } = self.layer.used;
        let Tile { used, layers, .. } = self.tile;
        [2 * keys, 3 * values, texts, features, 2 * layers, used]
    }
}
