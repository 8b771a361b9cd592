//! The rules of request (i), written out apart from our code: what a good tile is, what it says, and what the calls answer at any place. Places of faults are in
//! `scan`.

use crate::scan;
use crate::tile::{Feature, Layer, Tile, Value};

/// The most that a field's number can be.
pub const MOST_NUMBER: u64 = 536_870_911;

/// The refusals of a reader.
pub const STATE: u32 = 4;
pub const ROOM: u32 = 7;
pub const WIRE: u32 = 15;

#[derive(Clone, Copy, Debug, PartialEq)]
pub enum Kind {
    Tile,
    Layer,
    Feature,
    Value,
}

/// What a known field holds.
#[derive(Clone, Copy, Debug, PartialEq)]
pub enum Holds {
    Number,
    Four,
    Eight,
    Text,
    Packed,
    Message(Kind),
}

impl Kind {
    pub fn knows(self, number: u64) -> Option<Holds> {
        Some(match (self, number) {
            (Kind::Tile, 3) => Holds::Message(Kind::Layer),
            (Kind::Layer, 1 | 3) => Holds::Text,
            (Kind::Layer, 2) => Holds::Message(Kind::Feature),
            (Kind::Layer, 4) => Holds::Message(Kind::Value),
            (Kind::Layer, 5 | 15) => Holds::Number,
            (Kind::Feature, 1 | 3) => Holds::Number,
            (Kind::Feature, 2 | 4) => Holds::Packed,
            (Kind::Value, 1) => Holds::Text,
            (Kind::Value, 2) => Holds::Four,
            (Kind::Value, 3) => Holds::Eight,
            (Kind::Value, 4..=7) => Holds::Number,
            _ => return None,
        })
    }

    /// Whether a field of that number can have that wire type.
    pub fn takes(self, number: u64, wire: u64) -> bool {
        match self.knows(number) {
            None => matches!(wire, 0 | 1 | 2 | 5),
            Some(Holds::Number) => wire == 0,
            Some(Holds::Four) => wire == 5,
            Some(Holds::Eight) => wire == 1,
            Some(Holds::Text | Holds::Message(_)) => wire == 2,
            Some(Holds::Packed) => matches!(wire, 0 | 2),
        }
    }
}

/// A varint that stands there, and where it ends.
pub fn varint(bytes: &[u8], at: usize, end: usize) -> Option<(u64, usize)> {
    let mut value: u128 = 0;
    for i in 0..10 {
        if at + i >= end {
            return None;
        }
        let byte = bytes[at + i];
        value |= u128::from(byte & 127) << (7 * i);
        if byte < 128 {
            return u64::try_from(value).ok().map(|value| (value, at + i + 1));
        }
    }
    None
}

/// A field: its number, the value of a number or of fixed bytes, and where what follows its key, or its length, stands.
#[derive(Clone, Copy, Debug)]
pub struct Field {
    pub number: u64,
    pub wire: u64,
    pub value: u64,
    pub start: usize,
    pub end: usize,
}

/// The field that stands there, in a message that ends there.
fn field(kind: Kind, bytes: &[u8], at: usize, end: usize) -> Option<Field> {
    let (key, behind) = varint(bytes, at, end)?;
    let (number, wire) = (key >> 3, key & 7);
    if !(1..=MOST_NUMBER).contains(&number) || !kind.takes(number, wire) {
        return None;
    }
    let fixed = |size: usize| {
        let stop = behind.checked_add(size).filter(|stop| *stop <= end)?;
        let mut value = [0; 8];
        value[..size].copy_from_slice(&bytes[behind..stop]);
        Some((u64::from_le_bytes(value), behind, stop))
    };
    let (value, start, stop) = match wire {
        0 => varint(bytes, behind, end).map(|(value, stop)| (value, behind, stop))?,
        1 => fixed(8)?,
        5 => fixed(4)?,
        _ => {
            let (length, start) = varint(bytes, behind, end)?;
            if length > (end - start) as u64 {
                return None;
            }
            (length, start, start + length as usize)
        }
    };
    Some(Field {
        number,
        wire,
        value,
        start,
        end: stop,
    })
}

/// The fields of a message, whose bodies are not looked into.
pub fn fields(kind: Kind, bytes: &[u8], start: usize, end: usize) -> Option<Vec<Field>> {
    let (mut found, mut at) = (Vec::new(), start);
    while at < end {
        let next = field(kind, bytes, at, end)?;
        at = next.end;
        found.push(next);
    }
    Some(found)
}

/// A part of the bytes.
#[derive(Clone, Copy, Debug, Default, PartialEq)]
pub struct Part {
    pub start: usize,
    pub len: usize,
}

impl Part {
    fn of(field: &Field) -> Self {
        Part {
            start: field.start,
            len: field.end - field.start,
        }
    }

    fn text(self, bytes: &[u8]) -> Vec<u8> {
        bytes[self.start..self.start + self.len].to_vec()
    }
}

fn last(fields: &[Field], number: u64) -> Option<&Field> {
    fields.iter().rev().find(|field| field.number == number)
}

fn count(fields: &[Field], number: u64) -> usize {
    fields.iter().filter(|field| field.number == number).count()
}

/// All numbers of a list, packed and single, in order.
fn numbers(bytes: &[u8], fields: &[Field], number: u64) -> Option<Vec<u32>> {
    let mut found = Vec::new();
    for field in fields.iter().filter(|field| field.number == number) {
        if field.wire == 0 {
            found.push(field.value as u32);
            continue;
        }
        let mut at = field.start;
        while at < field.end {
            let (value, behind) = varint(bytes, at, field.end)?;
            found.push(value as u32);
            at = behind;
        }
    }
    Some(found)
}

fn feature(bytes: &[u8], start: usize, end: usize) -> Option<Feature> {
    let fields = fields(Kind::Feature, bytes, start, end)?;
    Some(Feature {
        id: last(&fields, 1).map(|field| field.value),
        kind: last(&fields, 3).map_or(0, |field| field.value as u32),
        tags: numbers(bytes, &fields, 2)?,
        geometry: numbers(bytes, &fields, 4)?,
    })
}

/// What a call says of a value: its kind, its text's part, its bits, and where it ends.
#[derive(Clone, Copy, Debug, Default, PartialEq)]
pub struct ValueAt {
    pub kind: u32,
    pub text: Part,
    pub bits: u64,
    pub end: usize,
}

fn unzigzag(bits: u64) -> i64 {
    (bits >> 1) as i64 ^ -((bits & 1) as i64)
}

fn value_at(bytes: &[u8], start: usize, end: usize) -> Option<ValueAt> {
    let fields = fields(Kind::Value, bytes, start, end)?;
    let kind = fields
        .iter()
        .map(|field| field.number)
        .filter(|number| *number <= 7)
        .min();
    let Some(kind) = kind else {
        return Some(ValueAt {
            end,
            ..ValueAt::default()
        });
    };
    let field = last(&fields, kind).expect("a field of that number is there");
    let (text, bits) = match kind {
        1 => (Part::of(field), 0),
        6 => (Part::default(), unzigzag(field.value) as u64),
        7 => (Part::default(), u64::from(field.value != 0)),
        _ => (Part::default(), field.value),
    };
    Some(ValueAt {
        kind: kind as u32,
        text,
        bits,
        end,
    })
}

impl ValueAt {
    pub fn value(&self, bytes: &[u8]) -> Value {
        match self.kind {
            1 => Value::Text(self.text.text(bytes)),
            2 => Value::Float(self.bits as u32),
            3 => Value::Double(self.bits),
            4 => Value::Int(self.bits as i64),
            5 => Value::Uint(self.bits),
            6 => Value::Sint(self.bits as i64),
            7 => Value::Bool(self.bits != 0),
            _ => Value::Empty,
        }
    }
}

fn layer(bytes: &[u8], start: usize, end: usize) -> Option<Layer> {
    let fields = fields(Kind::Layer, bytes, start, end)?;
    let mut layer = Layer {
        name: last(&fields, 1).map_or(Vec::new(), |field| Part::of(field).text(bytes)),
        version: last(&fields, 15).map_or(1, |field| field.value as u32),
        extent: last(&fields, 5).map_or(4096, |field| field.value as u32),
        ..Layer::default()
    };
    for field in &fields {
        match field.number {
            2 => layer.features.push(feature(bytes, field.start, field.end)?),
            3 => layer.keys.push(Part::of(field).text(bytes)),
            4 => layer
                .values
                .push(value_at(bytes, field.start, field.end)?.value(bytes)),
            _ => {}
        }
    }
    Some(layer)
}

/// What a good tile says, by the grammar alone.
pub fn tile(bytes: &[u8]) -> Option<Tile> {
    let fields = fields(Kind::Tile, bytes, 0, bytes.len())?;
    let layers = fields.iter().filter(|field| field.number == 3);
    let layers: Option<_> = layers.map(|f| layer(bytes, f.start, f.end)).collect();
    layers.map(|layers| Tile { layers })
}

/// What a tile says, or the place of its fault. The grammar and the places have to agree on what is good.
pub fn read(bytes: &[u8]) -> Result<Tile, usize> {
    match (tile(bytes), scan::place(bytes)) {
        (Some(tile), None) => Ok(tile),
        (None, Some(place)) => Err(place),
        (told, place) => panic!("the grammar says {told:?}, the place is {place:?}: {bytes:02x?}"),
    }
}

// ---- the calls, at any place

/// A refusal with its place, which only WIRE has.
pub type Refused = (u32, usize);

/// What a call says: something, that there is nothing more, or a refusal.
pub type Next<T> = Result<Option<T>, Refused>;

#[derive(Clone, Copy, Debug, Default, PartialEq)]
pub struct LayerHead {
    pub name: Part,
    pub version: u32,
    pub extent: u32,
    pub keys: usize,
    pub values: usize,
    pub features: usize,
    pub start: usize,
    pub end: usize,
}

#[derive(Clone, Copy, Debug, Default, PartialEq)]
pub struct FeatureHead {
    pub has_id: bool,
    pub id: u64,
    pub kind: u32,
    pub tags: usize,
    pub words: usize,
    pub start: usize,
    pub end: usize,
}

/// The bytes that calls are asked about, with the place of their fault.
pub struct Asked<'a> {
    bytes: &'a [u8],
    fault: Option<usize>,
}

impl<'a> Asked<'a> {
    pub fn new(bytes: &'a [u8]) -> Self {
        Asked {
            bytes,
            fault: scan::place(bytes),
        }
    }

    /// What cannot be read is the tile's fault; where it has none, the place that was given is no field's.
    fn blamed(&self) -> Refused {
        self.fault.map_or((STATE, 0), |place| (WIRE, place))
    }

    fn within(&self, at: usize, end: usize) -> Result<(), Refused> {
        let is_within = at <= end && end <= self.bytes.len();
        is_within.then_some(()).ok_or((STATE, 0))
    }

    /// The first field of that number with a body, from there on.
    fn first(&self, kind: Kind, number: u64, at: usize, end: usize) -> Next<Field> {
        self.within(at, end)?;
        let mut at = at;
        while at < end {
            let next = field(kind, self.bytes, at, end).ok_or(self.blamed())?;
            if next.number == number {
                return Ok(Some(next));
            }
            at = next.end;
        }
        Ok(None)
    }

    /// How many layers there are.
    pub fn open(&self) -> Result<usize, Refused> {
        match tile(self.bytes) {
            Some(tile) => Ok(tile.layers.len()),
            None => Err(self.blamed()),
        }
    }

    pub fn next_layer(&self, at: usize) -> Next<LayerHead> {
        let Some(found) = self.first(Kind::Tile, 3, at, self.bytes.len())? else {
            return Ok(None);
        };
        let own = fields(Kind::Layer, self.bytes, found.start, found.end).ok_or(self.blamed())?;
        Ok(Some(LayerHead {
            name: last(&own, 1).map_or(Part::default(), Part::of),
            version: last(&own, 15).map_or(1, |field| field.value as u32),
            extent: last(&own, 5).map_or(4096, |field| field.value as u32),
            keys: count(&own, 3),
            values: count(&own, 4),
            features: count(&own, 2),
            start: found.start,
            end: found.end,
        }))
    }

    pub fn next_feature(&self, at: usize, end: usize) -> Next<FeatureHead> {
        let Some(found) = self.first(Kind::Layer, 2, at, end)? else {
            return Ok(None);
        };
        let said = feature(self.bytes, found.start, found.end).ok_or(self.blamed())?;
        Ok(Some(FeatureHead {
            has_id: said.id.is_some(),
            id: said.id.unwrap_or(0),
            kind: said.kind,
            tags: said.tags.len(),
            words: said.geometry.len(),
            start: found.start,
            end: found.end,
        }))
    }

    pub fn next_key(&self, at: usize, end: usize) -> Next<Part> {
        let found = self.first(Kind::Layer, 3, at, end)?;
        Ok(found.as_ref().map(Part::of))
    }

    pub fn next_value(&self, at: usize, end: usize) -> Next<ValueAt> {
        let Some(found) = self.first(Kind::Layer, 4, at, end)? else {
            return Ok(None);
        };
        let said = value_at(self.bytes, found.start, found.end).ok_or(self.blamed())?;
        Ok(Some(said))
    }

    /// The numbers of a feature's tags (2) or geometry (4) whose message stands there, where the lent list has so much room.
    pub fn words(
        &self,
        number: u64,
        start: usize,
        end: usize,
        room: usize,
    ) -> Result<Vec<u32>, Refused> {
        self.within(start, end)?;
        let said = feature(self.bytes, start, end).ok_or(self.blamed())?;
        let words = if number == 2 {
            said.tags
        } else {
            said.geometry
        };
        if words.len() > room {
            return Err((ROOM, 0));
        }
        Ok(words)
    }
}
