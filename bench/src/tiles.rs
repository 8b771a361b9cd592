//! Tiles of one layer: what is put into them, and how ours and the Rust make the bytes.

use mvt_open::{GeomData, GeomType};
use ours::tiles::{self, Features, Head, Indexes, Lists, TileLists, Value};

const EXTENT: u32 = 4096;
/// A point's geometry.
const POINT: [u32; 3] = [9, 4, 4];
/// How many words a long geometry has.
const LONG: usize = 400;

/// A tag: a text, or kind and bits.
#[derive(Clone)]
pub enum Content {
    Text(String),
    Bits(u32, u64),
}

/// A geometry with an id and tags; the same tags as our lists have them, five words each and the bytes of their texts.
pub struct Feature {
    id: u64,
    geometry: Vec<u32>,
    tags: Vec<(&'static str, Content)>,
    words: Vec<u32>,
    bytes: Vec<u8>,
}

/// How the features go into our layer.
#[derive(Clone, Copy, PartialEq)]
pub enum Way {
    /// All by one call, with an index lent for keys and for values.
    Many,
    /// All by one call, keys and values looked up by scan.
    Scan,
    /// Each by the call that takes a whole one.
    Whole,
    /// Each by the calls that open, mark, tag and close it.
    Calls,
}

/// By which way, and whether into a strict layer.
#[derive(Clone, Copy)]
pub struct Manner {
    pub way: Way,
    pub is_strict: bool,
}

/// The features of a tile, and the same as one call takes them, one behind the other.
pub struct Given {
    features: Vec<Feature>,
    heads: Vec<u32>,
    words: Vec<u32>,
    tags: Vec<u32>,
    bytes: Vec<u8>,
}

impl Given {
    fn new(features: Vec<Feature>) -> Self {
        let mut given = Given {
            features: Vec::new(),
            heads: Vec::new(),
            words: Vec::new(),
            tags: Vec::new(),
            bytes: Vec::new(),
        };
        for feature in &features {
            let from = given.bytes.len() as u32;
            for tag in feature.words.chunks_exact(5) {
                let text = if tag[2] == 1 { from } else { 0 };
                given
                    .tags
                    .extend([tag[0] + from, tag[1], tag[2], tag[3] + text, tag[4]]);
            }
            let id = [feature.id as u32, (feature.id >> 32) as u32];
            let sizes = [feature.geometry.len() as u32, feature.words.len() as u32];
            given.heads.extend([1, 1, id[0], id[1], sizes[0], sizes[1]]);
            given.words.extend(&feature.geometry);
            given.bytes.extend(&feature.bytes);
        }
        given.features = features;
        given
    }

    /// How many features there are.
    pub fn len(&self) -> usize {
        self.features.len()
    }

    /// How many tags all have.
    pub fn tags(&self) -> usize {
        self.tags.len() / 5
    }
}

/// Our lists, lent to every call.
pub struct Memory {
    key_index: Vec<u32>,
    value_index: Vec<u32>,
    keys: Vec<u32>,
    values: Vec<u32>,
    texts: Vec<u8>,
    features: Vec<u32>,
    names: [u32; 2],
    bytes: Vec<u8>,
}

impl Memory {
    /// Room for a key and a value of each of so many tags, and where wanted an index of them.
    pub fn new(tags: usize, indexed: bool) -> Self {
        let entries = tags.min(65_536);
        let slots = if indexed { entries } else { 0 };
        Memory {
            key_index: vec![0; 2 * slots],
            value_index: vec![0; 2 * slots],
            keys: vec![0; 2 * entries],
            values: vec![0; 3 * entries],
            texts: vec![0; 65_536],
            features: vec![0; 1 << 20],
            names: [0; 2],
            bytes: vec![0; 1 << 22],
        }
    }
}

impl Feature {
    fn new(id: u64, geometry: &[u32], tags: Vec<(&'static str, Content)>) -> Self {
        let (mut words, mut bytes) = (Vec::new(), Vec::new());
        let mut put = |text: &str| {
            let place = [bytes.len() as u32, text.len() as u32];
            bytes.extend(text.as_bytes());
            place
        };
        for (key, content) in &tags {
            words.extend(put(key));
            match content {
                Content::Text(text) => {
                    words.push(1);
                    words.extend(put(text));
                }
                Content::Bits(kind, bits) => {
                    words.extend([*kind, *bits as u32, (*bits >> 32) as u32]);
                }
            }
        }
        Feature {
            id,
            geometry: geometry.to_vec(),
            tags,
            words,
            bytes,
        }
    }
}

/// Points with five tags whose values are the same in all of them, or of which one is each feature's own.
pub fn posts(count: usize, own: bool) -> Given {
    tagged(count, own, &POINT)
}

/// Features with a long geometry, whose words all take so many bytes as varints, and the same five tags.
pub fn ducts(count: usize, bytes: u32) -> Given {
    tagged(count, false, &[4 << (7 * (bytes - 1)); LONG])
}

fn tagged(count: usize, own: bool, geometry: &[u32]) -> Given {
    let post = |at: u64| {
        let (place, code) = if own { (at, at) } else { (0, 0) };
        let name = format!("post {:02}", place % 50);
        let code = 1.0 + code as f64 / 1024.0;
        let tags = vec![
            ("name", Content::Text(name)),
            ("road", Content::Bits(5, 7 + place % 10)),
            ("lane", Content::Bits(4, place % 3)),
            ("code", Content::Bits(3, code.to_bits())),
            ("open", Content::Bits(7, 1)),
        ];
        Feature::new(at, geometry, tags)
    };
    Given::new((0..count as u64).map(post).collect())
}

/// So many different values, eight to a feature.
pub fn values(count: usize) -> Given {
    const KEYS: [&str; 8] = ["a", "b", "c", "d", "e", "f", "g", "h"];
    let feature = |at: u64| {
        let tags = (0..8).map(|k| (KEYS[k as usize], Content::Bits(5, 8 * at + k)));
        Feature::new(at, &POINT, tags.collect())
    };
    Given::new((0..count as u64 / 8).map(feature).collect())
}

/// So many different keys, 52 at most, in each of ten features.
pub fn tags(count: usize) -> Given {
    const KEYS: &str = "abcdefghijklmnopqrstuvwxyzABCDEFGHIJKLMNOPQRSTUVWXYZ";
    let feature = |at: u64| {
        let tag = |k: usize| (&KEYS[k..k + 1], Content::Bits(5, k as u64));
        Feature::new(at, &POINT, (0..count).map(tag).collect())
    };
    Given::new((0..10).map(feature).collect())
}

/// The tile's bytes by our library.
pub fn ours<'a>(given: &Given, manner: Manner, memory: &'a mut Memory) -> &'a [u8] {
    let tile = tiles::tile(EXTENT);
    let mut layer = if manner.is_strict {
        tile.create_strict_layer(b"posts", &mut memory.texts).layer
    } else {
        tile.create_layer(b"posts", &mut memory.texts).layer
    };
    let mut lists = Lists {
        keys: &mut memory.keys,
        values: &mut memory.values,
        texts: &mut memory.texts,
        features: &mut memory.features,
    };
    let mut indexes = Indexes {
        keys: &mut memory.key_index,
        values: &mut memory.value_index,
    };
    layer = match manner.way {
        Way::Many | Way::Scan => {
            let all = Features {
                heads: &given.heads,
                words: &given.words,
                tags: &given.tags,
                bytes: &given.bytes,
            };
            layer.add_features(all, &mut lists, &mut indexes).layer
        }
        Way::Whole => {
            let whole = |layer, feature| by_whole(layer, feature, &mut lists);
            given.features.iter().fold(layer, whole)
        }
        Way::Calls => {
            let calls = |layer, feature| by_calls(layer, feature, &mut lists);
            given.features.iter().fold(layer, calls)
        }
    };
    let mut tile_lists = TileLists {
        names: &mut memory.names,
        bytes: &mut memory.bytes,
    };
    let added = tile.add_layer(layer, &lists, &mut tile_lists);
    assert_eq!(added.refusal, 0);
    let size = added.tile.to_bytes(&tile_lists).count;
    &memory.bytes[..size]
}

fn by_whole(layer: tiles::Layer, feature: &Feature, lists: &mut Lists) -> tiles::Layer {
    let head = Head {
        kind: 1,
        has_id: 1,
        id: feature.id,
    };
    layer
        .add_feature(
            head,
            &feature.geometry,
            &feature.words,
            &feature.bytes,
            lists,
        )
        .layer
}

fn by_calls(layer: tiles::Layer, feature: &Feature, lists: &mut Lists) -> tiles::Layer {
    let opened = layer.into_feature(1, &feature.geometry, lists).layer;
    let mut tagged = opened.set_id(feature.id, lists).layer;
    for (key, content) in &feature.tags {
        let value = match content {
            Content::Text(text) => Value::Text(text.as_bytes()),
            Content::Bits(kind, bits) => Value::Bits(*kind, *bits),
        };
        tagged = tagged.add_tag(key.as_bytes(), value, lists).layer;
    }
    tagged.into_layer(lists).layer
}

/// The tile's bytes by the Rust. Its words come as given (the second copy): making them is another work.
pub fn rust(given: &Given) -> Vec<u8> {
    let mut tile = mvt_open::Tile::new(EXTENT);
    let mut layer = tile.create_layer("posts");
    for given in &given.features {
        let geometry = GeomData::given(GeomType::Point, given.geometry.clone());
        let mut feature = layer.into_feature(geometry);
        feature.set_id(given.id);
        for (key, content) in &given.tags {
            match content {
                Content::Text(text) => feature.add_tag_string(key, text),
                Content::Bits(3, bits) => feature.add_tag_double(key, f64::from_bits(*bits)),
                Content::Bits(4, bits) => feature.add_tag_int(key, *bits as i64),
                Content::Bits(5, bits) => feature.add_tag_uint(key, *bits),
                Content::Bits(_, bits) => feature.add_tag_bool(key, *bits != 0),
            }
        }
        layer = feature.into_layer();
    }
    tile.add_layer(layer).expect("the first layer is accepted");
    tile.to_bytes().expect("a tile has bytes")
}
