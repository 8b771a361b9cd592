//! How long a varint is. A number goes into a tile of its own, as a feature's id, as a uint and as an int; what our library says the layer takes is held
//! against prost's own length of the number, and bytes and sizes against the Rust's tile of the same calls. A list of bytes one short is ROOM.

use crate::judge::ROOM;
use crate::lent::Watched;
use crate::random::Random;
use crate::report::{Difference, Tally};
use mvt_open::{GeomData, GeomType};
use ours::tiles::{self, Changed, Layer, Lists, Tile, TileLists, Value};
use prost::encoding::encoded_len_varint;

const EXTENT: u32 = 4096;

/// Where the number stands as a varint.
#[derive(Clone, Copy, Debug)]
enum Place {
    Id,
    Uint,
    Int,
}

/// The Rust's tile with a feature that has the number: its size and its bytes.
fn rust(place: Place, n: u64) -> (usize, Vec<u8>) {
    let mut tile = mvt_open::Tile::new(EXTENT);
    let point = GeomData::given(GeomType::Point, Vec::new());
    let mut feature = tile.create_layer("v").into_feature(point);
    match place {
        Place::Id => feature.set_id(n),
        Place::Uint => feature.add_tag_uint("k", n),
        Place::Int => feature.add_tag_int("k", n as i64),
    }
    tile.add_layer(feature.into_layer())
        .expect("the only layer of the tile");
    (
        tile.compute_size(),
        tile.to_bytes().expect("bytes in memory"),
    )
}

fn accepted(changed: Changed) -> Layer {
    assert_eq!(changed.refusal, 0, "a call that has nothing to refuse");
    changed.layer
}

/// What our library says of the same tile: the size that it reckons, the bytes that it writes where they just fit, and its refusal where one is missing.
fn ours(place: Place, n: u64) -> Result<(usize, Vec<u8>), String> {
    let (mut keys, mut values, mut texts, mut features) = ([0; 2], [0; 3], [0; 2], [0; 8]);
    let mut lists = Lists {
        keys: &mut keys,
        values: &mut values,
        texts: &mut texts,
        features: &mut features,
    };
    let tile = tiles::tile(EXTENT);
    let layer = accepted(tile.create_layer(b"v", lists.texts));
    let layer = accepted(layer.into_feature(1, &[], &mut lists));
    let layer = accepted(match place {
        Place::Id => layer.set_id(n, &mut lists),
        Place::Uint => layer.add_tag(b"k", Value::Bits(5, n), &mut lists),
        Place::Int => layer.add_tag(b"k", Value::Bits(4, n), &mut lists),
    });
    let layer = accepted(layer.into_layer(&mut lists));
    let asked = tile.layer_size(layer, &lists);
    if asked.refusal != 0 {
        return Err(format!("refusal {} of the size", asked.refusal));
    }
    let size = asked.count;
    match add(tile, layer, &lists, size - 1)? {
        (ROOM, _) => {}
        (refusal, _) => return Err(format!("refusal {refusal} with a byte too few")),
    }
    match add(tile, layer, &lists, size)? {
        (0, bytes) => Ok((size, bytes)),
        (refusal, _) => Err(format!("refusal {refusal} in the {size} bytes asked for")),
    }
}

/// Our layer added to the tile with so much room: the refusal, and every byte of that room. Beside it nothing is written, and where refused nothing at all.
fn add(tile: Tile, layer: Layer, lists: &Lists, room: usize) -> Result<(u32, Vec<u8>), String> {
    let (mut names, mut bytes) = (Watched::new(2), Watched::new(room));
    let mut tile_lists = TileLists {
        names: names.lent(),
        bytes: bytes.lent(),
    };
    let refusal = tile.add_layer(layer, lists, &mut tile_lists).refusal;
    let unwritten = |all: usize| if refusal == 0 { 0 } else { all };
    if !bytes.kept(unwritten(room)) || !names.kept(unwritten(2)) {
        return Err(format!(
            "refusal {refusal}, and more was written than it says"
        ));
    }
    Ok((refusal, bytes.lent().to_vec()))
}

/// What differs with a number, the varint of zero taking one byte; `spoil` is added to our size.
fn differs(n: u64, spoil: usize) -> Option<String> {
    [Place::Id, Place::Uint, Place::Int]
        .into_iter()
        .find_map(|place| {
            let (size, bytes) = match ours(place, n) {
                Ok(said) => said,
                Err(what) => return Some(format!("{place:?}: {what}")),
            };
            let zero = rust(place, 0).0;
            let long = size + spoil + 1 - zero;
            if long != encoded_len_varint(n) {
                let prost = encoded_len_varint(n);
                return Some(format!("{place:?}: ours {long} bytes, prost {prost}"));
            }
            let expected = rust(place, n);
            ((size, &bytes) != (expected.0, &expected.1))
                .then(|| format!("{place:?}: ours {size} {bytes:?}, expected {expected:?}"))
        })
}

/// Zero, every power of two and each less one, and the largest number.
fn fixed() -> impl Iterator<Item = u64> {
    let powers = (0..64).flat_map(|k| [(1 << k) - 1, 1 << k]);
    [0].into_iter().chain(powers).chain([u64::MAX])
}

/// The fixed numbers and so many of any width.
pub fn compare(seed: u64, count: usize, spoil: bool, tally: &mut Tally) -> Option<Difference> {
    let mut random = Random::new(seed);
    let random = (0..count).map(|_| {
        let width = random.below(64);
        random.next() >> width
    });
    for n in fixed().chain(random) {
        if let Some(what) = differs(n, usize::from(spoil)) {
            return Some(Difference {
                what,
                input: n.to_string(),
            });
        }
        tally.add("numbers", 1);
        tally.add("tiles", 3);
    }
    None
}
