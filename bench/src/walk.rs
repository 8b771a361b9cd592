//! All that is in a tile, read by our library call by call: every layer, key, value and feature, and each feature's numbers.

use ours::reader::{next_feature, next_key, next_layer, next_value, read_geometry, read_tags};
use std::hint::black_box;

/// How many features there are.
pub fn walked(bytes: &[u8], list: &mut [u32]) -> usize {
    let (mut features, mut at) = (0, 0);
    loop {
        let layer = next_layer(bytes, at);
        if layer.is_there == 0 {
            return features;
        }
        entries(bytes, layer.start, layer.end);
        features += numbers(bytes, layer.start, layer.end, list);
        at = layer.end;
    }
}

fn entries(bytes: &[u8], start: usize, end: usize) {
    let mut at = start;
    loop {
        let key = black_box(next_key(bytes, at, end));
        if key.is_there == 0 {
            break;
        }
        at = key.start + key.len;
    }
    at = start;
    loop {
        let value = black_box(next_value(bytes, at, end));
        if value.is_there == 0 {
            break;
        }
        at = value.next;
    }
}

fn numbers(bytes: &[u8], start: usize, end: usize, list: &mut [u32]) -> usize {
    let (mut count, mut at) = (0, start);
    loop {
        let feature = next_feature(bytes, at, end);
        if feature.is_there == 0 {
            return count;
        }
        black_box(read_tags(bytes, feature.start, feature.end, list));
        black_box(read_geometry(bytes, feature.start, feature.end, list));
        count += 1;
        at = feature.end;
    }
}
