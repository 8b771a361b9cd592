//! Our compiled library as a Rust program calls it: include/brinepost.h in Rust.

pub mod reader;
pub mod tiles;

/// The number of the interface that is written down here; the archives have to be of it.
pub const VERSION: u32 = 7;

#[repr(C)]
#[derive(Clone, Copy, Debug, Default, PartialEq)]
pub struct Clipped {
    pub refusal: u32,
    pub x0: i32,
    pub y0: i32,
    pub x1: i32,
    pub y1: i32,
    pub edge0: u32,
    pub edge1: u32,
}

#[repr(C)]
#[derive(Clone, Copy, Debug, Default, PartialEq)]
pub struct Job {
    pub refusal: u32,
    pub points: usize,
    pub words: usize,
}

#[repr(C)]
#[derive(Clone, Copy, Debug, Default, PartialEq)]
pub struct Reading {
    pub refusal: u32,
    pub vertices: usize,
    pub place: usize,
}

#[repr(C)]
#[derive(Clone, Copy, Debug, Default, PartialEq)]
pub struct Point {
    pub is_set: u32,
    pub x: i32,
    pub y: i32,
}

#[repr(C)]
#[derive(Clone, Copy, Debug, Default, PartialEq)]
pub struct Encoder {
    pub kind: u32,
    pub count: u32,
    pub used: usize,
    pub cmd_offset: usize,
    pub x_min: i32,
    pub x_max: i32,
    pub y_min: i32,
    pub y_max: i32,
    pub xy_end: Point,
    pub pt0: Point,
    pub pt1: Point,
    pub taken: u32,
    pub boundary: u32,
    pub skipped: u32,
    pub taken_out: u32,
}

#[repr(C)]
#[derive(Clone, Copy, Debug, Default, PartialEq)]
pub struct Started {
    pub refusal: u32,
    pub state: Encoder,
}

#[repr(C)]
#[derive(Clone, Copy, Debug, Default, PartialEq)]
pub struct Drawn {
    pub refusal: u32,
    pub words: usize,
    pub state: Encoder,
    pub edge0: u32,
    pub edge1: u32,
}

#[repr(C)]
#[derive(Clone, Copy, Debug, Default, PartialEq)]
pub struct Finished {
    pub refusal: u32,
    pub points: usize,
    pub state: Encoder,
}

/// The map of a survey: x on the grid is a·x + b·y + c, y is d·x + e·y + f.
#[repr(C)]
#[derive(Clone, Copy, Debug, Default, PartialEq)]
pub struct Affine {
    pub a: f64,
    pub b: f64,
    pub c: f64,
    pub d: f64,
    pub e: f64,
    pub f: f64,
}

#[repr(C)]
#[derive(Clone, Copy, Debug, Default, PartialEq)]
pub struct Mapped {
    pub refusal: u32,
    pub x: i32,
    pub y: i32,
}

mod c {
    use super::*;

    extern "C" {
        pub fn bp_version() -> u32;
        pub fn bp_tiles_version() -> u32;
        pub fn bp_reader_version() -> u32;
        pub fn bp_clip(
            x0: i32,
            y0: i32,
            x1: i32,
            y1: i32,
            x_min: i32,
            x_max: i32,
            y_min: i32,
            y_max: i32,
        ) -> Clipped;
        pub fn bp_encode_job(
            kind: u32,
            x_min: i32,
            x_max: i32,
            y_min: i32,
            y_max: i32,
            points: *const i32,
            points_len: usize,
            ends: *const u32,
            ends_len: usize,
            words: *mut u32,
            words_len: usize,
        ) -> Job;
        pub fn bp_encode_job_edges(
            kind: u32,
            x_min: i32,
            x_max: i32,
            y_min: i32,
            y_max: i32,
            points: *const i32,
            points_len: usize,
            ends: *const u32,
            ends_len: usize,
            words: *mut u32,
            words_len: usize,
            edges: *mut u32,
            edges_len: usize,
        ) -> Job;
        pub fn bp_encode_job_state(
            kind: u32,
            x_min: i32,
            x_max: i32,
            y_min: i32,
            y_max: i32,
            points: *const i32,
            points_len: usize,
            ends: *const u32,
            ends_len: usize,
            words: *mut u32,
            words_len: usize,
        ) -> Finished;
        pub fn bp_decode(
            words: *const u32,
            words_len: usize,
            out: *mut i32,
            out_len: usize,
        ) -> Reading;
        pub fn bp_encoder_new(kind: u32, x_min: i32, x_max: i32, y_min: i32, y_max: i32)
            -> Started;
        pub fn bp_encoder_add_point(
            state: Encoder,
            x: i32,
            y: i32,
            words: *mut u32,
            words_len: usize,
        ) -> Drawn;
        pub fn bp_encoder_complete_geom(state: Encoder, words: *mut u32, words_len: usize)
            -> Drawn;
        pub fn bp_encoder_count(state: Encoder) -> u32;
        pub fn bp_encoder_len(state: Encoder) -> usize;
        pub fn bp_map_point(map: Affine, x: f64, y: f64) -> Mapped;
        pub fn bp_encoder_add_surveyed(
            state: Encoder,
            map: Affine,
            x: f64,
            y: f64,
            words: *mut u32,
            words_len: usize,
        ) -> Drawn;
        pub fn bp_encode_survey(
            kind: u32,
            x_min: i32,
            x_max: i32,
            y_min: i32,
            y_max: i32,
            map: Affine,
            points: *const f64,
            points_len: usize,
            ends: *const u32,
            ends_len: usize,
            words: *mut u32,
            words_len: usize,
        ) -> Job;
    }
}

/// The numbers of the interface that the two archives answer.
pub fn versions() -> [u32; 3] {
    unsafe { [c::bp_version(), c::bp_tiles_version(), c::bp_reader_version()] }
}

/// A segment as x0, y0, x1, y1; box edges as x_min, x_max, y_min, y_max, here and below. Inlined, as a C compiler would call it.
#[inline]
pub fn clip(segment: [i32; 4], edges: [i32; 4]) -> Clipped {
    let ([x0, y0, x1, y1], [x_min, x_max, y_min, y_max]) = (segment, edges);
    unsafe { c::bp_clip(x0, y0, x1, y1, x_min, x_max, y_min, y_max) }
}

pub fn encode_job(
    kind: u32,
    edges: [i32; 4],
    points: &[i32],
    ends: &[u32],
    words: &mut [u32],
) -> Job {
    let [x_min, x_max, y_min, y_max] = edges;
    unsafe {
        c::bp_encode_job(
            kind,
            x_min,
            x_max,
            y_min,
            y_max,
            points.as_ptr(),
            points.len(),
            ends.as_ptr(),
            ends.len(),
            words.as_mut_ptr(),
            words.len(),
        )
    }
}

/// With a list that takes the edges which moved the ends of each raw segment.
pub fn encode_job_edges(
    kind: u32,
    edges: [i32; 4],
    points: &[i32],
    ends: &[u32],
    words: &mut [u32],
    moved: &mut [u32],
) -> Job {
    let [x_min, x_max, y_min, y_max] = edges;
    unsafe {
        c::bp_encode_job_edges(
            kind,
            x_min,
            x_max,
            y_min,
            y_max,
            points.as_ptr(),
            points.len(),
            ends.as_ptr(),
            ends.len(),
            words.as_mut_ptr(),
            words.len(),
            moved.as_mut_ptr(),
            moved.len(),
        )
    }
}

/// With the state after its last call, which has the counts.
pub fn encode_job_state(
    kind: u32,
    edges: [i32; 4],
    points: &[i32],
    ends: &[u32],
    words: &mut [u32],
) -> Finished {
    let [x_min, x_max, y_min, y_max] = edges;
    unsafe {
        c::bp_encode_job_state(
            kind,
            x_min,
            x_max,
            y_min,
            y_max,
            points.as_ptr(),
            points.len(),
            ends.as_ptr(),
            ends.len(),
            words.as_mut_ptr(),
            words.len(),
        )
    }
}

/// Of surveyed points, by their map.
pub fn encode_survey(
    kind: u32,
    edges: [i32; 4],
    map: Affine,
    points: &[f64],
    ends: &[u32],
    words: &mut [u32],
) -> Job {
    let [x_min, x_max, y_min, y_max] = edges;
    unsafe {
        c::bp_encode_survey(
            kind,
            x_min,
            x_max,
            y_min,
            y_max,
            map,
            points.as_ptr(),
            points.len(),
            ends.as_ptr(),
            ends.len(),
            words.as_mut_ptr(),
            words.len(),
        )
    }
}

pub fn decode(words: &[u32], out: &mut [i32]) -> Reading {
    unsafe { c::bp_decode(words.as_ptr(), words.len(), out.as_mut_ptr(), out.len()) }
}

pub fn encoder(kind: u32, edges: [i32; 4]) -> Started {
    let [x_min, x_max, y_min, y_max] = edges;
    unsafe { c::bp_encoder_new(kind, x_min, x_max, y_min, y_max) }
}

impl Affine {
    pub fn point(self, x: f64, y: f64) -> Mapped {
        unsafe { c::bp_map_point(self, x, y) }
    }
}

impl Encoder {
    pub fn add_surveyed(self, map: Affine, x: f64, y: f64, words: &mut [u32]) -> Drawn {
        unsafe { c::bp_encoder_add_surveyed(self, map, x, y, words.as_mut_ptr(), words.len()) }
    }

    pub fn add_point(self, x: i32, y: i32, words: &mut [u32]) -> Drawn {
        unsafe { c::bp_encoder_add_point(self, x, y, words.as_mut_ptr(), words.len()) }
    }

    pub fn complete_geom(self, words: &mut [u32]) -> Drawn {
        unsafe { c::bp_encoder_complete_geom(self, words.as_mut_ptr(), words.len()) }
    }

    pub fn count(self) -> u32 {
        unsafe { c::bp_encoder_count(self) }
    }

    pub fn len(self) -> usize {
        unsafe { c::bp_encoder_len(self) }
    }
}
