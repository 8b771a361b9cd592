//! What the Rust says of a tile script, operation by operation, with document 01's refusals where the Rust has none.
//! The Rust shows neither its lists nor how long they are: what our lists are to hold follows from its tag indices and bytes, by document 01's layout.

use crate::judge::{KIND, MAX_WORDS, ROOM};
use crate::lent::Watched;
use crate::scripts::{Operation, Value};
use mvt_open::{Error, Feature, GeomData, GeomType};
use ours::tiles::{Figures, Layer, Lists, Tile, TileLists};

pub const TEXT: u32 = 11;
pub const TURN: u32 = 12;
pub const EXTENT: u32 = 13;
pub const NAME: u32 = 14;
/// A text that is not well-formed UTF-8: request (viii).
pub const UTF8: u32 = 22;
/// A key that the open feature of a strict layer already has: request (xiv). The Rust has no such layers.
pub const AGAIN: u32 = 23;

/// The most bytes of a text, from document 01.
pub const TEXT_LIMIT: usize = 1_024;
/// The most keys of a layer, and the most values.
pub const MAX_ENTRIES: usize = 65_536;

/// Whether the Rust takes these bytes for a text: its `&str` is well-formed UTF-8.
pub fn is_text(bytes: &[u8]) -> bool {
    std::str::from_utf8(bytes).is_ok()
}

/// TEXT or UTF8 of the texts that a call is given, or 0: all lengths come first.
pub fn refuses_texts(texts: &[&[u8]]) -> u32 {
    if texts.iter().any(|text| text.len() > TEXT_LIMIT) {
        TEXT
    } else if !texts.iter().all(|text| is_text(text)) {
        UTF8
    } else {
        0
    }
}

/// The lengths of the lists: keys, values, texts, features, names, bytes.
pub type Rooms = [usize; 6];

/// The six lists of a layer and a tile.
#[derive(Clone)]
pub struct Memory {
    pub keys: Watched<u32>,
    pub values: Watched<u32>,
    pub texts: Watched<u8>,
    pub features: Watched<u32>,
    pub names: Watched<u32>,
    pub bytes: Watched<u8>,
}

impl Memory {
    pub fn new(rooms: Rooms) -> Self {
        Memory {
            keys: Watched::new(rooms[0]),
            values: Watched::new(rooms[1]),
            texts: Watched::new(rooms[2]),
            features: Watched::new(rooms[3]),
            names: Watched::new(rooms[4]),
            bytes: Watched::new(rooms[5]),
        }
    }

    pub fn lent(&mut self) -> (Lists<'_>, TileLists<'_>) {
        let lists = Lists {
            keys: self.keys.lent(),
            values: self.values.lent(),
            texts: self.texts.lent(),
            features: self.features.lent(),
        };
        let tile = TileLists {
            names: self.names.lent(),
            bytes: self.bytes.lent(),
        };
        (lists, tile)
    }

    /// Whether a layer with these figures finds room, by the lists and by document 01's most.
    fn holds(&self, figures: Figures) -> bool {
        figures.keys <= (self.keys.room() / 2).min(MAX_ENTRIES)
            && figures.values <= (self.values.room() / 3).min(MAX_ENTRIES)
            && figures.texts <= self.texts.room()
            && figures.features <= self.features.room()
    }

    /// From now on each list is expected to hold what that memory's holds.
    pub fn expect_like(&mut self, other: &Memory) {
        self.keys.expect_like(&other.keys);
        self.values.expect_like(&other.values);
        self.texts.expect_like(&other.texts);
        self.features.expect_like(&other.features);
        self.names.expect_like(&other.names);
        self.bytes.expect_like(&other.bytes);
    }

    /// Whether every guard is unharmed.
    pub fn is_guarded(&self) -> bool {
        [&self.keys, &self.values, &self.features, &self.names]
            .iter()
            .all(|list| list.kept(0))
            && self.texts.kept(0)
            && self.bytes.kept(0)
    }

    /// A key as that entry, its text at that place.
    fn store_key(&mut self, entry: usize, at: usize, key: &[u8]) {
        self.keys.expect(2 * entry, &[at as u32, key.len() as u32]);
        self.texts.expect(at, key);
    }

    /// A value as that entry, its text, if it has one, at that place.
    fn store_value(&mut self, entry: usize, at: usize, value: &Value) {
        let words = match value {
            Value::Text(text) => [1, at as u32, text.len() as u32],
            Value::Bits(kind, bits) => [*kind, *bits as u32, (*bits >> 32) as u32],
        };
        self.values.expect(3 * entry, &words);
        self.texts.expect(at, value.text());
    }

    pub fn differs(&self) -> Option<String> {
        self.keys
            .differs("keys")
            .or_else(|| self.values.differs("values"))
            .or_else(|| self.texts.differs("texts"))
            .or_else(|| self.features.differs("features"))
            .or_else(|| self.names.differs("names"))
            .or_else(|| self.bytes.differs("bytes"))
    }
}

/// What the Rust has at hand.
enum Hand {
    Nothing,
    Layer(mvt_open::Layer),
    Feature(Feature),
}

fn utf8(text: &[u8]) -> &str {
    std::str::from_utf8(text).expect("texts that are not UTF-8 are refused before")
}

/// An accepted operation on the Rust's layer. Adding is not one of them.
fn put(hand: Hand, operation: &Operation) -> Hand {
    match (operation, hand) {
        // A layer takes its extent from the tile that creates it.
        (Operation::Create(extent, name), _) => {
            Hand::Layer(mvt_open::Tile::new(*extent).create_layer(utf8(name)))
        }
        (Operation::Open(kind, words), Hand::Layer(layer)) => {
            use GeomType::{Linestring, Point, Polygon};
            let kind = [Point, Linestring, Polygon][*kind as usize - 1].clone();
            Hand::Feature(layer.into_feature(GeomData::given(kind, words.clone())))
        }
        (Operation::SetId(id), Hand::Feature(mut feature)) => {
            feature.set_id(*id);
            Hand::Feature(feature)
        }
        (Operation::Tag(key, value), Hand::Feature(mut feature)) => {
            put_tag(&mut feature, utf8(key), value);
            Hand::Feature(feature)
        }
        (Operation::Close, Hand::Feature(feature)) => Hand::Layer(feature.into_layer()),
        (Operation::Abandon, Hand::Feature(feature)) => Hand::Layer(feature.layer()),
        _ => panic!("the Rust cannot be asked {operation:?} now"),
    }
}

fn put_tag(feature: &mut Feature, key: &str, value: &Value) {
    match value {
        Value::Text(text) => feature.add_tag_string(key, utf8(text)),
        Value::Bits(2, bits) => feature.add_tag_float(key, f32::from_bits(*bits as u32)),
        Value::Bits(3, bits) => feature.add_tag_double(key, f64::from_bits(*bits)),
        Value::Bits(4, bits) => feature.add_tag_int(key, *bits as i64),
        Value::Bits(5, bits) => feature.add_tag_uint(key, *bits),
        Value::Bits(6, bits) => feature.add_tag_sint(key, *bits as i64),
        Value::Bits(_, bits) => feature.add_tag_bool(key, *bits != 0),
    }
}

/// What is the same for two values that are equal: both zeros are.
fn shared(value: &Value) -> Value {
    match value {
        Value::Bits(2, 0x8000_0000) => Value::Bits(2, 0),
        Value::Bits(3, 0x8000_0000_0000_0000) => Value::Bits(3, 0),
        value => value.clone(),
    }
}

pub struct TileJudge {
    rust: mvt_open::Tile,
    hand: Hand,
    /// What was accepted of the layer at hand: the Rust's layer can be made again from it, where the Rust has kept it with a refusal.
    log: Vec<Operation>,
    keys: Vec<Vec<u8>>,
    values: Vec<Value>,
    features: usize,
    names: Vec<Vec<u8>>,
    /// The layer at hand and the tile as our library is to carry them.
    pub layer: Layer,
    pub tile: Tile,
    /// The most that was used of each list.
    pub peaks: Rooms,
    /// The last tag's key and value index by document 01's rules, to be held against the Rust's.
    found: [u32; 2],
    /// How many tags were put to the Rust.
    pub tags: usize,
}

impl TileJudge {
    pub fn new(extent: u32) -> Self {
        TileJudge {
            rust: mvt_open::Tile::new(extent),
            hand: Hand::Nothing,
            log: Vec::new(),
            keys: Vec::new(),
            values: Vec::new(),
            features: 0,
            names: Vec::new(),
            layer: Layer::default(),
            tile: Tile {
                extent,
                used: 0,
                layers: 0,
            },
            peaks: [0; 6],
            found: [0; 2],
            tags: 0,
        }
    }

    pub fn has_layer(&self) -> bool {
        !matches!(self.hand, Hand::Nothing)
    }

    /// How many features are complete; the Rust shows it while none is open.
    pub fn num_features(&self) -> usize {
        if let Hand::Layer(layer) = &self.hand {
            assert_eq!(layer.num_features(), self.features, "num_features");
        }
        self.features
    }

    /// How many tag words the open feature has, or TURN.
    pub fn num_tags(&self) -> Result<usize, u32> {
        match &self.hand {
            Hand::Feature(feature) => Ok(feature.num_tags()),
            _ => Err(TURN),
        }
    }

    /// Layers and bytes of the Rust's tile.
    pub fn sizes(&self) -> (usize, usize) {
        (self.rust.num_layers(), self.rust.compute_size())
    }

    /// Document 01's refusal or 0; what is accepted is put to the Rust, and the memory is then expected to hold it.
    pub fn perform(&mut self, operation: &Operation, memory: &mut Memory) -> u32 {
        let refusal = match operation {
            Operation::Create(extent, name) => self.create(*extent, name, memory),
            Operation::Open(kind, words) => self.open(*kind, words, memory),
            Operation::Tag(key, value) => self.tag(key, value, memory),
            Operation::Add => return self.add(memory),
            _ if self.layer.is_open == 0 => TURN,
            Operation::SetId(id) => {
                let at = self.layer.since.features + 1;
                memory
                    .features
                    .expect(at, &[1, *id as u32, (*id >> 32) as u32]);
                0
            }
            Operation::Close => {
                self.features += 1;
                self.shut(self.layer.used);
                0
            }
            Operation::Abandon => {
                self.shut(self.layer.since);
                0
            }
        };
        if refusal == 0 {
            self.ask(operation);
        }
        refusal
    }

    /// What a whole feature is refused for, or 0: KIND, TEXT, UTF8, TURN, and last ROOM, of exactly what it needs. A key or a value that comes twice in it is
    /// stored once.
    pub fn refuses_whole(
        &self,
        kind: u32,
        words: usize,
        tags: &[(&[u8], &Value)],
        memory: &Memory,
    ) -> u32 {
        if !(1..=3).contains(&kind) {
            return KIND;
        }
        let texts: Vec<&[u8]> = tags
            .iter()
            .flat_map(|(key, value)| [*key, value.text()])
            .collect();
        let refusal = refuses_texts(&texts);
        if refusal != 0 {
            return refusal;
        }
        if self.layer.is_open == 1 {
            return TURN;
        }
        let mut need = self.layer.used;
        need.features += 6 + words + 2 * tags.len();
        let (mut keys, mut values) = (self.keys.clone(), self.values.clone());
        for (key, value) in tags {
            if !keys.iter().any(|known| known == key) {
                keys.push(key.to_vec());
                need.texts += key.len();
            }
            if !values.contains(&shared(value)) {
                values.push(shared(value));
                need.texts += value.text().len();
            }
        }
        (need.keys, need.values) = (keys.len(), values.len());
        if words > MAX_WORDS || !memory.holds(need) {
            return ROOM;
        }
        0
    }

    /// Puts an accepted operation to the Rust.
    fn ask(&mut self, operation: &Operation) {
        if matches!(operation, Operation::Create(..)) {
            self.log.clear();
        }
        self.log.push(operation.clone());
        self.hand = put(std::mem::replace(&mut self.hand, Hand::Nothing), operation);
        if let (Operation::Tag(..), Hand::Feature(feature)) = (operation, &self.hand) {
            let words = feature.tag_words();
            assert_eq!(words[words.len() - 2..], self.found, "a tag's indices");
        }
        let Figures {
            keys,
            values,
            texts,
            features,
        } = self.layer.used;
        let used = [
            2 * keys,
            3 * values,
            texts,
            features,
            2 * self.tile.layers,
            self.tile.used,
        ];
        for at in 0..6 {
            self.peaks[at] = self.peaks[at].max(used[at]);
        }
    }

    fn create(&mut self, extent: u32, name: &[u8], memory: &mut Memory) -> u32 {
        let refusal = refuses_texts(&[name]);
        if refusal != 0 {
            return refusal;
        }
        if name.len() > memory.texts.room() {
            return ROOM;
        }
        memory.texts.expect(0, name);
        self.keys.clear();
        self.values.clear();
        self.features = 0;
        self.layer = Layer {
            extent,
            name: name.len(),
            used: Figures {
                texts: name.len(),
                ..Figures::default()
            },
            ..Layer::default()
        };
        0
    }

    fn open(&mut self, kind: u32, words: &[u32], memory: &mut Memory) -> u32 {
        let from = self.layer.used.features;
        if !(1..=3).contains(&kind) {
            return KIND;
        }
        if self.layer.is_open == 1 {
            return TURN;
        }
        if words.len() > MAX_WORDS || from + 6 + words.len() > memory.features.room() {
            return ROOM;
        }
        let head = [kind, 0, 0, 0, 0, words.len() as u32];
        memory.features.expect(from, &head);
        memory.features.expect(from + 6, words);
        self.layer.since = self.layer.used;
        self.layer.is_open = 1;
        self.layer.used.features += 6 + words.len();
        0
    }

    fn shut(&mut self, used: Figures) {
        self.layer.used = used;
        self.layer.is_open = 0;
        self.layer.since = Figures::default();
        self.keys.truncate(used.keys);
        self.values.truncate(used.values);
    }

    /// TEXT, UTF8, TURN, ROOM; else the tag's entries are stored if they are new, and its indices stand behind the open feature.
    fn tag(&mut self, key: &[u8], value: &Value, memory: &mut Memory) -> u32 {
        let text = value.text();
        let refusal = refuses_texts(&[key, text]);
        if refusal != 0 {
            return refusal;
        }
        if self.layer.is_open == 0 {
            return TURN;
        }
        let same = shared(value);
        let key_at = self.keys.iter().position(|known| known == key);
        let value_at = self.values.iter().position(|known| *known == same);
        let used = self.layer.used;
        let (new_key, new_value) = (key_at.is_none(), value_at.is_none());
        let text_at = used.texts + if new_key { key.len() } else { 0 };
        let next = Figures {
            keys: used.keys + usize::from(new_key),
            values: used.values + usize::from(new_value),
            texts: text_at + if new_value { text.len() } else { 0 },
            features: used.features + 2,
        };
        if !memory.holds(next) {
            return ROOM;
        }
        // Key before value, new entries last.
        if new_key {
            memory.store_key(used.keys, used.texts, key);
            self.keys.push(key.to_vec());
        }
        if new_value {
            memory.store_value(used.values, text_at, value);
            self.values.push(same);
        }
        self.found = [
            key_at.unwrap_or(used.keys) as u32,
            value_at.unwrap_or(used.values) as u32,
        ];
        memory.features.expect(used.features, &self.found);
        let count_at = self.layer.since.features + 4;
        let count = memory.features.expected(count_at) + 2;
        memory.features.expect(count_at, &[count]);
        self.layer.used = next;
        self.tags += 1;
        0
    }

    /// The bytes of the layer at hand by themselves.
    fn alone(&self) -> usize {
        let Hand::Layer(layer) = self.again() else {
            panic!("a layer is at hand")
        };
        let mut tile = mvt_open::Tile::new(self.layer.extent);
        tile.add_layer(layer).expect("the first layer is accepted");
        tile.compute_size()
    }

    fn again(&self) -> Hand {
        self.log.iter().fold(Hand::Nothing, put)
    }

    fn add(&mut self, memory: &mut Memory) -> u32 {
        if self.layer.is_open == 1 {
            return TURN;
        }
        let Some(Operation::Create(extent, name)) = self.log.first().cloned() else {
            panic!("a layer is at hand")
        };
        let wanted = if extent != self.tile.extent {
            EXTENT
        } else if self.names.contains(&name) {
            NAME
        } else if 2 * (self.tile.layers + 1) > memory.names.room()
            || self.tile.used + self.alone() > memory.bytes.room()
        {
            return ROOM;
        } else {
            0
        };
        let Hand::Layer(layer) = std::mem::replace(&mut self.hand, Hand::Nothing) else {
            panic!("a layer is at hand")
        };
        let said = match self.rust.add_layer(layer) {
            Ok(()) => 0,
            Err(Error::WrongExtent()) => EXTENT,
            Err(Error::DuplicateName()) => NAME,
            Err(other) => panic!("adding a layer has no such refusal: {other}"),
        };
        assert_eq!(said, wanted, "the Rust and document 01 on adding a layer");
        if said != 0 {
            self.hand = self.again();
            return said;
        }
        let bytes = self.rust.to_bytes().expect("a tile has bytes");
        let start = name_place(&bytes, self.tile.used);
        memory.bytes.expect(0, &bytes);
        memory
            .names
            .expect(2 * self.tile.layers, &[start as u32, name.len() as u32]);
        assert_eq!(
            &bytes[start..start + name.len()],
            &name[..],
            "a name's place"
        );
        self.tile.layers += 1;
        self.tile.used = bytes.len();
        self.names.push(name);
        self.peaks[4] = self.peaks[4].max(2 * self.tile.layers);
        self.peaks[5] = self.peaks[5].max(self.tile.used);
        0
    }
}

/// Where the name stands of the layer whose field starts there.
fn name_place(bytes: &[u8], layer: usize) -> usize {
    let behind_varint = |at: usize| at + bytes[at..].iter().position(|b| *b < 128).unwrap() + 1;
    behind_varint(behind_varint(layer + 1) + 1)
}
