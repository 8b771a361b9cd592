//! Single words and single cuts.

use crate::{spaced, COORD_LIMIT};
use mvt::{CoordNum, GeomEncoder, GeomType};
use pointy::{BBox, Pt, Seg};

/// A box that document 01 accepts, or `None`.
pub fn checked_box(edges: [i32; 4]) -> Option<BBox<i32>> {
    let [x_min, x_max, y_min, y_max] = edges;
    if x_min >= x_max || y_min >= y_max || !edges.into_iter().all(within) {
        return None;
    }
    Some(BBox::new(x_min, x_max, y_min, y_max))
}

pub fn within(n: i32) -> bool {
    (-COORD_LIMIT..=COORD_LIMIT).contains(&n)
}

/// Cuts a segment at a box: both ends, or `none` where the Rust says so.
pub fn clip(case: [i32; 8]) -> String {
    let [x1, y1, x2, y2, x_min, x_max, y_min, y_max] = case;
    let Some(bbox) = checked_box([x_min, x_max, y_min, y_max]) else {
        return "outside BOX".into();
    };
    if ![x1, y1, x2, y2].into_iter().all(within) {
        return "outside COORD".into();
    }
    let given = Seg::new(Pt::from((x1, y1)), Pt::from((x2, y2)));
    match i32::clip(given, bbox) {
        Some(seg) => spaced([seg.p0.x, seg.p0.y, seg.p1.x, seg.p1.y]),
        None => "none".into(),
    }
}

/// The word of a parameter. The unchanged copy hides it, but writes it as the
/// x step of a single point; both copies must agree.
pub fn param([value]: [i32; 1]) -> String {
    let point = GeomEncoder::new(GeomType::Point)
        .point(value, 0)
        .and_then(GeomEncoder::encode);
    let words = geometry_words(point.expect("a point is accepted"));
    let word = mvt_open::param_word(value);
    assert_eq!(words, [9, word, 0], "the two copies differ");
    word.to_string()
}

/// The word of a command. The Rust has no answer for other ids or counts.
pub fn command([id, count]: [u32; 2]) -> String {
    if ![1, 2, 7].contains(&id) || count > 0x1FFF_FFFF {
        return "outside COMMAND".into();
    }
    mvt_open::command_word(id, count).to_string()
}

/// What is read back of a tile: the words of its features.
#[derive(Clone, PartialEq, prost::Message)]
struct TileRead {
    #[prost(message, repeated, tag = "3")]
    layers: Vec<LayerRead>,
}

#[derive(Clone, PartialEq, prost::Message)]
struct LayerRead {
    #[prost(message, repeated, tag = "2")]
    features: Vec<FeatureRead>,
}

#[derive(Clone, PartialEq, prost::Message)]
struct FeatureRead {
    #[prost(uint32, repeated, tag = "4")]
    geometry: Vec<u32>,
}

/// The words of a geometry, which the unchanged copy shows only in tile bytes.
pub fn geometry_words(geometry: mvt::GeomData) -> Vec<u32> {
    let mut tile = mvt::Tile::new(1);
    let layer = tile.create_layer("").into_feature(geometry).into_layer();
    tile.add_layer(layer).expect("the first layer is accepted");
    let bytes = tile.to_bytes().expect("a small tile has bytes");
    let read: TileRead = prost::Message::decode(&bytes[..]).expect("the tile reads back");
    read.layers[0].features[0].geometry.clone()
}
