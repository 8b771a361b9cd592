//! Tiles opened by our library, against the rules of request (i) written out in `opened::rules` and against prost. Each call is asked along the tile and at other
//! places, on good tiles and on damaged ones; its whole answer must be that of the rules, and what is lent may hold no word more.

use crate::lent::Watched;
use crate::open_tiles;
use crate::random::Random;
use crate::report::{Difference, Tally};
use crate::shrink::smallest;
use opened::rules::{
    self, Asked, FeatureHead, Holds, Kind, LayerHead, Next, Part, Refused, ValueAt,
};
use opened::tile::{Feature, Layer, Tile};
use ours::reader::{self, NextFeature, NextKey, NextLayer, NextValue, Opened, Words};

/// What is changed of ours before it is compared, to show that it is found.
#[derive(Clone, Copy, PartialEq)]
pub enum Spoil {
    Nothing,
    /// A fault's place is one more.
    Place,
    /// A tile that only ends too early is good.
    Early,
    /// A name stands one byte further.
    Name,
    /// A missing extent is 0.
    Extent,
    /// A bool is true by its low 32 bits.
    Truth,
    /// A word of a geometry is another.
    Word,
    /// WIRE is said for STATE.
    State,
    /// A list that is too short is written into.
    Room,
}

/// The fields of a refusal, for every answer.
fn refused<T>(next: &Next<T>) -> (u32, usize, u32) {
    match next {
        Ok(Some(_)) => (0, 0, 1),
        Ok(None) => (0, 0, 0),
        Err((refusal, place)) => (*refusal, *place, 0),
    }
}

fn layer_answer(next: Next<LayerHead>) -> NextLayer {
    let (refusal, place, is_there) = refused(&next);
    let head = next.ok().flatten().unwrap_or_default();
    NextLayer {
        refusal,
        place,
        is_there,
        version: head.version,
        extent: head.extent,
        name_start: head.name.start,
        name_len: head.name.len,
        keys: head.keys,
        values: head.values,
        features: head.features,
        start: head.start,
        end: head.end,
    }
}

fn feature_answer(next: Next<FeatureHead>) -> NextFeature {
    let (refusal, place, is_there) = refused(&next);
    let head = next.ok().flatten().unwrap_or_default();
    NextFeature {
        refusal,
        place,
        is_there,
        has_id: u32::from(head.has_id),
        kind: head.kind,
        id: head.id,
        tags: head.tags,
        words: head.words,
        start: head.start,
        end: head.end,
    }
}

fn key_answer(next: Next<Part>) -> NextKey {
    let (refusal, place, is_there) = refused(&next);
    let Part { start, len } = next.ok().flatten().unwrap_or_default();
    NextKey {
        refusal,
        place,
        is_there,
        start,
        len,
    }
}

fn value_answer(next: Next<ValueAt>) -> NextValue {
    let (refusal, place, is_there) = refused(&next);
    let value = next.ok().flatten().unwrap_or_default();
    NextValue {
        refusal,
        place,
        is_there,
        kind: value.kind,
        start: value.text.start,
        len: value.text.len,
        bits: value.bits,
        next: value.end,
    }
}

fn words_answer(words: &Result<Vec<u32>, Refused>) -> Words {
    match words {
        Ok(words) => Words {
            count: words.len(),
            ..Words::default()
        },
        Err((refusal, place)) => Words {
            refusal: *refusal,
            place: *place,
            count: 0,
        },
    }
}

/// Ours and the rules on the same bytes.
struct Side<'a> {
    bytes: &'a [u8],
    asked: Asked<'a>,
    spoil: Spoil,
    calls: usize,
    refused: [usize; 16],
    /// Where messages and texts begin and end, as far as they were walked along.
    places: Vec<usize>,
}

impl<'a> Side<'a> {
    fn new(bytes: &'a [u8], spoil: Spoil) -> Self {
        Side {
            bytes,
            asked: Asked::new(bytes),
            spoil,
            calls: 0,
            refused: [0; 16],
            places: vec![0, bytes.len()],
        }
    }

    /// Ours has to be what the rules say.
    fn same<T: PartialEq + std::fmt::Debug>(
        &mut self,
        call: &str,
        ours: T,
        expected: T,
        refusal: u32,
    ) -> Result<(), String> {
        self.calls += 1;
        self.refused[refusal as usize] += 1;
        if ours == expected {
            return Ok(());
        }
        Err(format!("{call}: ours {ours:?}, expected {expected:?}"))
    }

    fn place(&self, refusal: &mut u32, place: &mut usize) {
        if self.spoil == Spoil::Place && *refusal == rules::WIRE && *place < self.bytes.len() {
            *place += 1;
        }
        if self.spoil == Spoil::State && *refusal == rules::STATE {
            *refusal = rules::WIRE;
        }
    }

    fn open(&mut self) -> Result<bool, String> {
        let mut ours = reader::open(self.bytes);
        self.place(&mut ours.refusal, &mut ours.place);
        if self.spoil == Spoil::Early && ours.place == self.bytes.len() {
            ours = Opened::default();
        }
        let expected = match self.asked.open() {
            Ok(layers) => Opened {
                layers,
                ..Opened::default()
            },
            Err((refusal, place)) => Opened {
                refusal,
                place,
                layers: 0,
            },
        };
        self.same("bp_open", ours, expected, expected.refusal)?;
        Ok(expected.refusal == 0)
    }

    fn layer(&mut self, at: usize) -> Result<NextLayer, String> {
        let mut ours = reader::next_layer(self.bytes, at);
        self.place(&mut ours.refusal, &mut ours.place);
        if self.spoil == Spoil::Name && ours.name_len > 0 {
            ours.name_start += 1;
        }
        if self.spoil == Spoil::Extent && ours.is_there == 1 && ours.extent == 4096 {
            ours.extent = 0;
        }
        let expected = layer_answer(self.asked.next_layer(at));
        let call = format!("bp_next_layer at {at}");
        self.same(&call, ours, expected, expected.refusal)?;
        Ok(ours)
    }

    fn feature(&mut self, at: usize, end: usize) -> Result<NextFeature, String> {
        let mut ours = reader::next_feature(self.bytes, at, end);
        self.place(&mut ours.refusal, &mut ours.place);
        let expected = feature_answer(self.asked.next_feature(at, end));
        let call = format!("bp_next_feature at {at} to {end}");
        self.same(&call, ours, expected, expected.refusal)?;
        Ok(ours)
    }

    fn key(&mut self, at: usize, end: usize) -> Result<NextKey, String> {
        let mut ours = reader::next_key(self.bytes, at, end);
        self.place(&mut ours.refusal, &mut ours.place);
        let expected = key_answer(self.asked.next_key(at, end));
        let call = format!("bp_next_key at {at} to {end}");
        self.same(&call, ours, expected, expected.refusal)?;
        Ok(ours)
    }

    fn value(&mut self, at: usize, end: usize) -> Result<NextValue, String> {
        let mut ours = reader::next_value(self.bytes, at, end);
        self.place(&mut ours.refusal, &mut ours.place);
        let expected = value_answer(self.asked.next_value(at, end));
        if self.spoil == Spoil::Truth && ours.kind == 7 && self.has_high_truth() {
            ours.bits = 0;
        }
        let call = format!("bp_next_value at {at} to {end}");
        self.same(&call, ours, expected, expected.refusal)?;
        Ok(ours)
    }

    /// Whether a number of which the low 32 bits are none stands somewhere in the tile, as 2^32 does.
    fn has_high_truth(&self) -> bool {
        let wide = [128, 128, 128, 128, 16];
        self.bytes.windows(5).any(|window| window == wide)
    }

    /// Tags (2) or geometry (4) in a list that is just long enough, longer, and too short.
    fn words(&mut self, number: u64, start: usize, end: usize) -> Result<Vec<u32>, String> {
        let call = if number == 2 {
            "bp_read_tags"
        } else {
            "bp_read_geometry"
        };
        let all = self.asked.words(number, start, end, usize::MAX);
        let count = all.as_ref().map_or(1, Vec::len);
        for room in [count, count + 3, count.saturating_sub(1)] {
            let mut list = Watched::new(room);
            let mut ours = match number {
                2 => reader::read_tags(self.bytes, start, end, list.lent()),
                _ => reader::read_geometry(self.bytes, start, end, list.lent()),
            };
            self.place(&mut ours.refusal, &mut ours.place);
            let expected = self.asked.words(number, start, end, room);
            if let Ok(words) = &expected {
                list.expect(0, words);
                if self.spoil == Spoil::Word && words.len() > 2 {
                    list.lent()[2] ^= 1;
                }
            } else if self.spoil == Spoil::Room && ours.refusal == rules::ROOM && room > 0 {
                list.lent()[0] ^= 1;
            }
            let answer = words_answer(&expected);
            let told = format!("{call} from {start} to {end}, {room} lent");
            self.same(&told, ours, answer, answer.refusal)?;
            if let Some(what) = list.differs("words") {
                return Err(format!("{told}: {what}"));
            }
        }
        Ok(all.unwrap_or_default())
    }

    fn text(&self, start: usize, len: usize) -> Vec<u8> {
        self.bytes[start..start + len].to_vec()
    }

    /// The tile along our calls, from the front to the first refusal.
    fn walk(&mut self) -> Result<Option<Tile>, String> {
        let (mut tile, mut at) = (Tile::default(), 0);
        loop {
            let head = self.layer(at)?;
            if head.refusal != 0 {
                return Ok(None);
            }
            if head.is_there == 0 {
                return Ok(Some(tile));
            }
            self.places.extend([head.start, head.end]);
            let Some(layer) = self.walk_layer(&head)? else {
                return Ok(None);
            };
            let counted = [layer.keys.len(), layer.values.len(), layer.features.len()];
            if counted != [head.keys, head.values, head.features] {
                return Err(format!("{head:?}, and {counted:?} were found"));
            }
            tile.layers.push(layer);
            at = head.end;
        }
    }

    fn walk_layer(&mut self, head: &NextLayer) -> Result<Option<Layer>, String> {
        let mut layer = Layer {
            name: self.text(head.name_start, head.name_len),
            version: head.version,
            extent: head.extent,
            ..Layer::default()
        };
        let (mut at, end) = (head.start, head.end);
        loop {
            let key = self.key(at, end)?;
            match (key.refusal, key.is_there) {
                (0, 0) => break,
                (0, _) => layer.keys.push(self.text(key.start, key.len)),
                _ => return Ok(None),
            }
            at = key.start + key.len;
            self.places.extend([key.start, at]);
        }
        at = head.start;
        loop {
            let value = self.value(at, end)?;
            let said = ValueAt {
                kind: value.kind,
                text: Part {
                    start: value.start,
                    len: value.len,
                },
                bits: value.bits,
                end: value.next,
            };
            match (value.refusal, value.is_there) {
                (0, 0) => break,
                (0, _) => layer.values.push(said.value(self.bytes)),
                _ => return Ok(None),
            }
            at = value.next;
            self.places.push(at);
        }
        at = head.start;
        loop {
            let feature = self.feature(at, end)?;
            match (feature.refusal, feature.is_there) {
                (0, 0) => return Ok(Some(layer)),
                (0, _) => layer.features.push(Feature {
                    id: (feature.has_id == 1).then_some(feature.id),
                    kind: feature.kind,
                    tags: self.words(2, feature.start, feature.end)?,
                    geometry: self.words(4, feature.start, feature.end)?,
                }),
                _ => return Ok(None),
            }
            self.places.extend([feature.start, feature.end]);
            at = feature.end;
        }
    }

    /// Every call at some other place.
    fn elsewhere(&mut self, at: usize, end: usize) -> Result<(), String> {
        self.layer(at)?;
        self.feature(at, end)?;
        self.key(at, end)?;
        self.value(at, end)?;
        self.words(2, at, end)?;
        self.words(4, at, end)?;
        Ok(())
    }

    fn all(&mut self, seed: u64) -> Result<bool, String> {
        let is_good = self.open()?;
        let walked = self.walk()?;
        let prost = opened::opened_by_prost(self.bytes);
        match (is_good, walked, prost) {
            (true, Some(ours), Ok(tile)) if ours != tile => {
                return Err(format!("ours {ours:?}, prost {tile:?}"))
            }
            (true, None, _) => return Err("a call refuses a good tile".into()),
            (true, _, Err(wrong)) if !wrong.to_string().contains("not UTF-8") => {
                return Err(format!("prost does not read a good tile: {wrong}"))
            }
            (false, _, Ok(_)) if !self.begins_group() => {
                return Err("prost reads a tile that is refused".into())
            }
            _ => {}
        }
        let mut random = Random::new(seed);
        let most = self.bytes.len() + 2;
        let mut place = || match random.below(3) {
            0 => random.below(most),
            _ => random.pick(&self.places),
        };
        let pairs = [(); 4].map(|()| (place(), place()));
        for (turn, (at, end)) in pairs.into_iter().enumerate() {
            // The first as it comes, the others in order.
            let is_turned = turn > 0 && at > end;
            let (at, end) = if is_turned { (end, at) } else { (at, end) };
            self.elsewhere(at, end)?;
        }
        let far = random.pick(&[usize::MAX, usize::MAX - 1, 1 << 63]);
        self.elsewhere(far, random.pick(&[far, 0, usize::MAX]))?;
        self.elsewhere(random.below(most), far)?;
        Ok(is_good)
    }

    /// Whether the fault is a group's key, which prost takes.
    fn begins_group(&self) -> bool {
        let fault = opened::scan::place(self.bytes);
        fault.is_some_and(|at| self.bytes.get(at).is_some_and(|byte| byte & 7 == 3))
    }
}

/// A message without one of its fields, with one of them written shorter, or with a simpler message in it.
fn simpler_message(kind: Kind, bytes: &[u8]) -> Vec<Vec<u8>> {
    let Some(fields) = rules::fields(kind, bytes, 0, bytes.len()) else {
        return Vec::new();
    };
    let mut found = Vec::new();
    let mut from = 0;
    for field in &fields {
        let (front, back) = (&bytes[..from], &bytes[field.end..]);
        let content = &bytes[field.start..field.end];
        let key = open_tiles::varint(field.number << 3 | field.wire, 1);
        let with = |content: &[u8]| {
            let head = match field.wire {
                2 => [&key[..], &open_tiles::varint(content.len() as u64, 1)].concat(),
                _ => key.clone(),
            };
            [front, &head, content, back].concat()
        };
        found.push([front, back].concat());
        found.push(match field.wire {
            0 => with(&open_tiles::varint(field.value, 1)),
            _ => with(content),
        });
        match kind.knows(field.number) {
            Some(Holds::Message(inner)) => {
                found.extend(
                    simpler_message(inner, content)
                        .iter()
                        .map(|next| with(next)),
                );
            }
            Some(Holds::Text | Holds::Packed) if field.wire == 2 && !content.is_empty() => {
                found.push(with(&content[1..]));
            }
            _ => {}
        }
        from = field.end;
    }
    found
}

/// A simpler message, halves, and a byte less.
fn simpler(bytes: &Vec<u8>) -> Vec<Vec<u8>> {
    let mut found = simpler_message(Kind::Tile, bytes);
    let (front, back) = bytes.split_at(bytes.len() / 2);
    found.extend([front.to_vec(), back.to_vec()]);
    for at in 0..bytes.len() {
        let mut less = bytes.clone();
        less.remove(at);
        found.push(less);
    }
    found.retain(|next| next.len() < bytes.len());
    found
}

/// So many tiles, good and damaged.
pub fn compare(seed: u64, count: usize, spoil: Spoil, tally: &mut Tally) -> Option<Difference> {
    let mut random = Random::new(seed);
    for at in 0..count {
        let (class, bytes) = open_tiles::next(&mut random);
        let places = seed.wrapping_add(at as u64);
        let mut side = Side::new(&bytes, spoil);
        let Ok(is_good) = side.all(places) else {
            let differs = |bytes: &Vec<u8>| Side::new(bytes, spoil).all(places).err();
            let (bytes, what) = smallest(bytes, &differs, &simpler);
            let hex: String = bytes.iter().map(|byte| format!("{byte:02x}")).collect();
            return Some(Difference {
                what,
                input: format!("{hex}, places of seed {places}"),
            });
        };
        tally.add(class, 1);
        tally.add(if is_good { "good" } else { "refused" }, 1);
        let early = opened::scan::place(&bytes) == Some(bytes.len());
        tally.add("that only end too early", usize::from(early));
        tally.add("calls", side.calls);
        for (name, refusal) in [
            ("calls accepted", 0),
            ("calls WIRE", rules::WIRE),
            ("calls STATE", rules::STATE),
            ("calls ROOM", rules::ROOM),
        ] {
            tally.add(name, side.refused[refusal as usize]);
        }
    }
    // A maker that makes only some of these would show nothing of the others.
    let wanted = [
        "good",
        "refused",
        "that only end too early",
        "calls accepted",
        "calls WIRE",
        "calls STATE",
        "calls ROOM",
    ];
    let rare = |which: &&str| tally.count(which) < count / 20;
    wanted.into_iter().find(rare).map(|which| Difference {
        what: format!("only {} {which}", tally.count(which)),
        input: format!("{count} tiles of seed {seed}"),
    })
}
