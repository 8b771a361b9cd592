//! Where a surveyed point lies on the grid (document 02, request (x)), by the Rust's own doubles; and other ways to reckon it, each of which is wrong somewhere.

use crate::judge::LIMIT;
use ours::Affine;

#[derive(Clone, Copy, Debug, PartialEq)]
pub enum Way {
    /// a·x + b·y + c, then the Rust's `round`.
    Right,
    /// One half is added, and the rest cut off.
    Half,
    /// Halves go to the even number.
    Even,
    /// The first product is not rounded before it is added.
    Fused,
    /// The sums from the right.
    Behind,
    /// What is above the limit is refused before it is rounded.
    Limit,
    /// A NaN lies at 0.
    Nan,
    /// b and d exchanged.
    Exchanged,
}

/// Those that are wrong somewhere, and what it is called where one gives another answer.
pub const WRONG: [(Way, &str); 7] = [
    (Way::Half, "where adding one half and cutting is wrong"),
    (Way::Even, "where halves to even are wrong"),
    (Way::Fused, "where a fused product is wrong"),
    (Way::Behind, "where sums from the right are wrong"),
    (Way::Limit, "where a limit before rounding is wrong"),
    (Way::Nan, "where a NaN at 0 is wrong"),
    (Way::Exchanged, "where b and d exchanged are wrong"),
];

/// A number after the map, before it is rounded.
pub fn along(way: Way, [a, b, c]: [f64; 3], x: f64, y: f64) -> f64 {
    match way {
        Way::Fused => a.mul_add(x, b * y) + c,
        Way::Behind => a * x + (b * y + c),
        _ => a * x + b * y + c,
    }
}

/// The grid's number, if it has one.
fn whole(way: Way, number: f64) -> Option<i32> {
    let rounded = match way {
        Way::Half => (number.abs() + 0.5).floor().copysign(number),
        Way::Even => number.round_ties_even(),
        Way::Nan if number.is_nan() => 0.0,
        Way::Limit if number.abs() > f64::from(LIMIT) => f64::INFINITY,
        _ => number.round(),
    };
    // Not so for a NaN.
    (rounded.abs() <= f64::from(LIMIT)).then_some(rounded as i32)
}

/// The map's rows, for x and for y.
pub fn rows(way: Way, map: Affine) -> [[f64; 3]; 2] {
    let Affine { a, b, c, d, e, f } = map;
    match way {
        Way::Exchanged => [[a, d, c], [b, e, f]],
        _ => [[a, b, c], [d, e, f]],
    }
}

/// The grid's x and y, each where there is one.
pub fn grid(way: Way, map: Affine, x: f64, y: f64) -> [Option<i32>; 2] {
    rows(way, map).map(|row| whole(way, along(way, row, x, y)))
}

/// The same with a number beyond the limit for one that the grid does not have.
pub fn place(way: Way, map: Affine, x: f64, y: f64) -> [i32; 2] {
    grid(way, map, x, y).map(|n| n.unwrap_or(LIMIT + 1))
}
