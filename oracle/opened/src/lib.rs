//! Tiles as a reader says them, printed as our program `open_tile` prints them: by the rules of request (i), written out here, and by prost with the Rust's own
//! messages.

pub mod rules;
pub mod scan;
pub mod tile;

/// The Rust's messages as prost-build made them, copied by oracle/setup.
#[path = "../../mvt/src/vector_tile.rs"]
#[allow(dead_code)]
pub mod vector_tile;

use prost::Message;
use tile::{Feature, Layer, Tile, Value};
use vector_tile::tile as by_prost;

/// prost's reading of these bytes, or what it says where it does not decode them.
pub fn decoded(bytes: &[u8]) -> Result<vector_tile::Tile, prost::DecodeError> {
    vector_tile::Tile::decode(bytes)
}

/// A feature's numbers; a type that MVT does not name is given as it is.
fn feature(given: &by_prost::Feature) -> Feature {
    Feature {
        id: given.id,
        kind: given.r#type.unwrap_or(0) as u32,
        tags: given.tags.clone(),
        geometry: given.geometry.clone(),
    }
}

/// The kind with the lowest number that is there.
fn value(given: &by_prost::Value) -> Value {
    if let Some(text) = &given.string_value {
        Value::Text(text.clone().into_bytes())
    } else if let Some(number) = given.float_value {
        Value::Float(number.to_bits())
    } else if let Some(number) = given.double_value {
        Value::Double(number.to_bits())
    } else if let Some(number) = given.int_value {
        Value::Int(number)
    } else if let Some(number) = given.uint_value {
        Value::Uint(number)
    } else if let Some(number) = given.sint_value {
        Value::Sint(number)
    } else if let Some(is_true) = given.bool_value {
        Value::Bool(is_true)
    } else {
        Value::Empty
    }
}

fn layer(given: &by_prost::Layer) -> Layer {
    Layer {
        name: given.name.clone().into_bytes(),
        version: given.version,
        extent: given.extent(),
        keys: given
            .keys
            .iter()
            .map(|key| key.clone().into_bytes())
            .collect(),
        values: given.values.iter().map(value).collect(),
        features: given.features.iter().map(feature).collect(),
    }
}

/// The tile that prost reads in these bytes.
pub fn opened_by_prost(bytes: &[u8]) -> Result<Tile, prost::DecodeError> {
    let decoded = decoded(bytes)?;
    Ok(Tile {
        layers: decoded.layers.iter().map(layer).collect(),
    })
}
