//! Our reader of tiles as a Rust program calls it.

/// What a tile is: its layers, or a refusal with its place.
#[repr(C)]
#[derive(Clone, Copy, Debug, Default, PartialEq)]
pub struct Opened {
    pub refusal: u32,
    pub place: usize,
    pub layers: usize,
}

/// The next layer. Where it is refused or there is none, the rest is 0.
#[repr(C)]
#[derive(Clone, Copy, Debug, Default, PartialEq)]
pub struct NextLayer {
    pub refusal: u32,
    pub is_there: u32,
    pub place: usize,
    pub version: u32,
    pub extent: u32,
    pub name_start: usize,
    pub name_len: usize,
    pub keys: usize,
    pub values: usize,
    pub features: usize,
    pub start: usize,
    pub end: usize,
}

#[repr(C)]
#[derive(Clone, Copy, Debug, Default, PartialEq)]
pub struct NextFeature {
    pub refusal: u32,
    pub is_there: u32,
    pub place: usize,
    pub has_id: u32,
    pub kind: u32,
    pub id: u64,
    pub tags: usize,
    pub words: usize,
    pub start: usize,
    pub end: usize,
}

#[repr(C)]
#[derive(Clone, Copy, Debug, Default, PartialEq)]
pub struct NextKey {
    pub refusal: u32,
    pub is_there: u32,
    pub place: usize,
    pub start: usize,
    pub len: usize,
}

#[repr(C)]
#[derive(Clone, Copy, Debug, Default, PartialEq)]
pub struct NextValue {
    pub refusal: u32,
    pub is_there: u32,
    pub place: usize,
    pub kind: u32,
    pub start: usize,
    pub len: usize,
    pub bits: u64,
    pub next: usize,
}

#[repr(C)]
#[derive(Clone, Copy, Debug, Default, PartialEq)]
pub struct Words {
    pub refusal: u32,
    pub place: usize,
    pub count: usize,
}

mod c {
    use super::*;

    extern "C" {
        pub fn bp_open(bytes: *const u8, len: usize) -> Opened;
        pub fn bp_next_layer(bytes: *const u8, len: usize, at: usize) -> NextLayer;
        pub fn bp_next_feature(bytes: *const u8, len: usize, at: usize, end: usize) -> NextFeature;
        pub fn bp_next_key(bytes: *const u8, len: usize, at: usize, end: usize) -> NextKey;
        pub fn bp_next_value(bytes: *const u8, len: usize, at: usize, end: usize) -> NextValue;
        pub fn bp_read_tags(
            bytes: *const u8,
            len: usize,
            start: usize,
            end: usize,
            out: *mut u32,
            out_len: usize,
        ) -> Words;
        pub fn bp_read_geometry(
            bytes: *const u8,
            len: usize,
            start: usize,
            end: usize,
            out: *mut u32,
            out_len: usize,
        ) -> Words;
    }
}

#[inline]
pub fn open(bytes: &[u8]) -> Opened {
    unsafe { c::bp_open(bytes.as_ptr(), bytes.len()) }
}

#[inline]
pub fn next_layer(bytes: &[u8], at: usize) -> NextLayer {
    unsafe { c::bp_next_layer(bytes.as_ptr(), bytes.len(), at) }
}

#[inline]
pub fn next_feature(bytes: &[u8], at: usize, end: usize) -> NextFeature {
    unsafe { c::bp_next_feature(bytes.as_ptr(), bytes.len(), at, end) }
}

#[inline]
pub fn next_key(bytes: &[u8], at: usize, end: usize) -> NextKey {
    unsafe { c::bp_next_key(bytes.as_ptr(), bytes.len(), at, end) }
}

#[inline]
pub fn next_value(bytes: &[u8], at: usize, end: usize) -> NextValue {
    unsafe { c::bp_next_value(bytes.as_ptr(), bytes.len(), at, end) }
}

#[inline]
pub fn read_tags(bytes: &[u8], start: usize, end: usize, out: &mut [u32]) -> Words {
    let (to, room) = (out.as_mut_ptr(), out.len());
    unsafe { c::bp_read_tags(bytes.as_ptr(), bytes.len(), start, end, to, room) }
}

#[inline]
pub fn read_geometry(bytes: &[u8], start: usize, end: usize, out: &mut [u32]) -> Words {
    let (to, room) = (out.as_mut_ptr(), out.len());
    unsafe { c::bp_read_geometry(bytes.as_ptr(), bytes.len(), start, end, to, room) }
}
