//! The pieces of work, by name.

use crate::tiles::{self, Given, Manner, Way};
use ours::Affine;

/// One part of surveyed points.
pub struct Survey {
    pub kind: u32,
    pub edges: [i32; 4],
    pub map: Affine,
    pub points: Vec<f64>,
}

impl Survey {
    /// How many numbers the map does not take to a whole one.
    pub fn parts(&self) -> usize {
        let Affine { a, b, c, d, e, f } = self.map;
        let mapped = |p: &[f64]| [a * p[0] + b * p[1] + c, d * p[0] + e * p[1] + f];
        let numbers = self.points.chunks_exact(2).flat_map(mapped);
        numbers.filter(|n| n.fract() != 0.0).count()
    }
}

pub enum Work {
    /// One part.
    Encode {
        kind: u32,
        edges: [i32; 4],
        points: Vec<i32>,
    },
    /// With the grid points that it comes to.
    Survey {
        survey: Survey,
        grid: Vec<i32>,
    },
    Clip {
        edges: [i32; 4],
        segments: Vec<[i32; 4]>,
    },
    Decode {
        words: Vec<u32>,
    },
    /// A tile of one layer with these features.
    Tile {
        given: Given,
        manner: Manner,
    },
    /// The bytes of such a tile, to be opened, and how many features it has.
    Open {
        bytes: Vec<u8>,
        features: usize,
        /// Whether all that is in the tile is read too, call by call.
        is_walked: bool,
    },
}

pub const NAMES: &[&str] = &[
    "line-inside-10",
    "line-inside-400",
    "line-inside-100000",
    "line-crossing-10",
    "line-crossing-400",
    "line-crossing-100000",
    "ring-collinear-10",
    "ring-collinear-400",
    "ring-collinear-100000",
    "survey-inside-10",
    "survey-inside-400",
    "survey-inside-100000",
    "survey-crossing-10",
    "survey-crossing-400",
    "survey-crossing-100000",
    "survey-ring-10",
    "survey-ring-400",
    "survey-ring-100000",
    "clip-inside-1000",
    "clip-crossing-1000",
    "clip-missing-1000",
    "decode-10",
    "decode-400",
    "decode-100000",
    "tile-same-10",
    "tile-same-100",
    "tile-same-1000",
    "tile-own-10",
    "tile-own-100",
    "tile-own-1000",
    "tile-duct1-100",
    "tile-duct2-100",
    "tile-duct3-100",
    "tile-scan-10",
    "tile-scan-100",
    "tile-scan-1000",
    "tile-whole-10",
    "tile-whole-100",
    "tile-whole-1000",
    "tile-calls-10",
    "tile-calls-100",
    "tile-calls-1000",
    "tile-strict-10",
    "tile-strict-100",
    "tile-strict-1000",
    "tile-strict-calls-10",
    "tile-strict-calls-100",
    "tile-tags-5",
    "tile-tags-10",
    "tile-tags-20",
    "tile-tags-40",
    "tile-strict-tags-5",
    "tile-strict-tags-10",
    "tile-strict-tags-20",
    "tile-strict-tags-40",
    "values-1024",
    "values-4096",
    "values-16384",
    "values-65536",
    "values-scan-1024",
    "values-scan-4096",
    "values-scan-16384",
    "values-scan-65536",
    "open-same-10",
    "open-same-100",
    "open-same-1000",
    "open-own-10",
    "open-own-100",
    "open-own-1000",
    "open-duct1-100",
    "open-duct2-100",
    "open-duct3-100",
    "open-values-1024",
    "walk-own-10",
    "walk-own-100",
    "walk-own-1000",
];

const EDGES: [i32; 4] = [0, 4096, 0, 4096];

/// Numbers that look like none: the same at every run.
struct Shaken(u32);

impl Shaken {
    fn below(&mut self, n: i32) -> i32 {
        self.0 = self.0.wrapping_mul(1_664_525).wrapping_add(1_013_904_223);
        ((u64::from(self.0) * n as u64) >> 32) as i32
    }
}

/// Points that never leave the box.
fn inside(count: usize) -> Vec<i32> {
    let mut shaken = Shaken(1);
    (0..2 * count).map(|_| 1 + shaken.below(4094)).collect()
}

/// Every segment crosses the box from one side to the other: two cuts each.
fn crossing(count: usize) -> Vec<i32> {
    let mut shaken = Shaken(2);
    let side = |at: usize| if at % 2 == 0 { -500 } else { 4600 };
    (0..count)
        .flat_map(|at| [side(at), 1000 + shaken.below(2000)])
        .collect()
}

/// A ring of runs along one axis: of each run of five points three are taken out.
fn collinear(count: usize) -> Vec<i32> {
    let step = |at: usize| [(20, 0), (0, 20), (-20, 0), (0, -20)][at / 5 % 4];
    let (mut x, mut y) = (2000, 2000);
    let mut points = Vec::new();
    for at in 0..count {
        let (dx, dy) = step(at);
        (x, y) = (x + dx, y + dy);
        points.extend([x, y]);
    }
    points
}

/// Grid points as a receiver has them: in metres, 12.8 steps of the grid to each, up to two fifths of a step beside the grid.
fn surveyed(kind: u32, grid: Vec<i32>) -> Work {
    let map = Affine {
        a: 12.8,
        b: 0.0,
        c: -5_531_238.4,
        d: 0.0,
        e: -12.8,
        f: 69_251_072.0,
    };
    let mut shaken = Shaken(4);
    let mut beside = |n: i32| f64::from(n) + f64::from(shaken.below(801) - 400) / 1000.0;
    let points = grid
        .chunks_exact(2)
        .flat_map(|p| {
            [
                (beside(p[0]) - map.c) / map.a,
                (beside(p[1]) - map.f) / map.e,
            ]
        })
        .collect();
    let survey = Survey {
        kind,
        edges: EDGES,
        map,
        points,
    };
    Work::Survey { survey, grid }
}

/// Segments of a thousand, from the points of a line.
fn segments(points: Vec<i32>) -> Vec<[i32; 4]> {
    points
        .windows(4)
        .step_by(2)
        .map(|s| [s[0], s[1], s[2], s[3]])
        .collect()
}

/// Beside the box on every side, without overlap.
fn missing() -> Vec<[i32; 4]> {
    let mut shaken = Shaken(3);
    let mut beside = |at: usize| match at % 4 {
        0 => [-9, -2, 0, 4096],
        1 => [4100, 4200, 0, 4096],
        2 => [0, 4096, -9, -2],
        _ => [0, 4096, 4100, 4200 + shaken.below(9)],
    };
    (0..1000)
        .map(|at| beside(at))
        .map(|[left, right, bottom, top]| [left, bottom, right, top])
        .collect()
}

fn encoded(points: &[i32]) -> Vec<u32> {
    let mut words = vec![0; 1_048_576];
    let ends = [(points.len() / 2) as u32];
    let count = ours::encode_job(2, EDGES, points, &ends, &mut words).words;
    words.truncate(count);
    words
}

pub fn named(name: &str) -> Option<Work> {
    let (kind, count) = name.rsplit_once('-')?;
    // Any size of a kind that is in the list.
    let known = NAMES
        .iter()
        .any(|known| known.rsplit_once('-').is_some_and(|(k, _)| k == kind));
    let count: usize = count.parse().ok().filter(|_| known)?;
    let line = |points| Work::Encode {
        kind: 2,
        edges: EDGES,
        points,
    };
    let clip = |segments| Work::Clip {
        edges: EDGES,
        segments,
    };
    let layer = |given, way, is_strict| {
        let manner = Manner { way, is_strict };
        Work::Tile { given, manner }
    };
    let tile = |given, way| layer(given, way, false);
    let strict = |given, way| layer(given, way, true);
    let opened = |given: Given, is_walked| Work::Open {
        features: given.len(),
        bytes: tiles::rust(&given),
        is_walked,
    };
    let open = |given| opened(given, false);
    Some(match kind {
        "tile-same" => tile(tiles::posts(count, false), Way::Many),
        "tile-own" => tile(tiles::posts(count, true), Way::Many),
        "tile-duct1" => tile(tiles::ducts(count, 1), Way::Many),
        "tile-duct2" => tile(tiles::ducts(count, 2), Way::Many),
        "tile-duct3" => tile(tiles::ducts(count, 3), Way::Many),
        "tile-scan" => tile(tiles::posts(count, true), Way::Scan),
        "tile-whole" => tile(tiles::posts(count, true), Way::Whole),
        "tile-calls" => tile(tiles::posts(count, true), Way::Calls),
        "tile-strict" => strict(tiles::posts(count, false), Way::Many),
        "tile-strict-calls" => strict(tiles::posts(count, true), Way::Calls),
        "tile-tags" => tile(tiles::tags(count), Way::Many),
        "tile-strict-tags" => strict(tiles::tags(count), Way::Many),
        "values" => tile(tiles::values(count), Way::Many),
        "values-scan" => tile(tiles::values(count), Way::Scan),
        "open-same" => open(tiles::posts(count, false)),
        "open-own" => open(tiles::posts(count, true)),
        "open-duct1" => open(tiles::ducts(count, 1)),
        "open-duct2" => open(tiles::ducts(count, 2)),
        "open-duct3" => open(tiles::ducts(count, 3)),
        "open-values" => open(tiles::values(count)),
        "walk-own" => opened(tiles::posts(count, true), true),
        "line-inside" => line(inside(count)),
        "line-crossing" => line(crossing(count)),
        "ring-collinear" => Work::Encode {
            kind: 3,
            edges: EDGES,
            points: collinear(count),
        },
        "survey-inside" => surveyed(2, inside(count)),
        "survey-crossing" => surveyed(2, crossing(count)),
        "survey-ring" => surveyed(3, collinear(count)),
        "clip-inside" => clip(segments(inside(count + 1))),
        "clip-crossing" => clip(segments(crossing(count + 1))),
        "clip-missing" => clip(missing()),
        _ => Work::Decode {
            words: encoded(&inside(count)),
        },
    })
}
