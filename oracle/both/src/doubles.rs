//! Doubles, maps and surveyed points: at halves and at the limit and beside them, whatever the map; with products that cancel; special ones, and any bits.

use crate::judge::LIMIT;
use crate::random::Random;
use ours::Affine;

/// A surveyed point and its map.
#[derive(Clone, Copy, Debug)]
pub struct Sight {
    pub map: Affine,
    pub x: f64,
    pub y: f64,
}

pub const IDENTITY: Affine = Affine {
    a: 1.0,
    b: 0.0,
    c: 0.0,
    d: 0.0,
    e: 1.0,
    f: 0.0,
};

/// The largest double below one half.
pub const BELOW_HALF: f64 = 0.49999999999999994;

/// Where the limit ends: what is nearer to zero is accepted.
pub const EDGE: f64 = 1073741823.5;

const SPECIAL: [f64; 22] = [
    0.0,
    -0.0,
    1.0,
    -1.0,
    0.5,
    -0.5,
    BELOW_HALF,
    EDGE,
    -EDGE,
    f64::MIN_POSITIVE,
    -f64::MIN_POSITIVE,
    5e-324,
    -5e-324,
    2.225073858507201e-308,
    f64::MAX,
    f64::MIN,
    1e300,
    -1e300,
    f64::INFINITY,
    f64::NEG_INFINITY,
    f64::NAN,
    f64::EPSILON,
];

/// Any bits: a NaN's own too.
pub fn any(random: &mut Random) -> f64 {
    f64::from_bits(random.next())
}

pub fn special(random: &mut Random) -> f64 {
    random.pick(&SPECIAL)
}

/// Between 0 and 1.
fn part(random: &mut Random) -> f64 {
    (random.next() >> 11) as f64 / 9007199254740992.0
}

fn signed(random: &mut Random, number: f64) -> f64 {
    random.pick(&[-1.0, 1.0]) * number
}

/// Any of a size that is itself any between these powers of two.
fn of_size(random: &mut Random, low: i64, high: i64) -> f64 {
    let power = random.between(low, high) as i32;
    let number = (1.0 + part(random)) * 2f64.powi(power);
    signed(random, number)
}

/// The double that is so many behind.
pub fn neighbour(number: f64, steps: i64) -> f64 {
    let mut found = number;
    for _ in 0..steps.abs() {
        found = match steps > 0 {
            true => found.next_up(),
            false => found.next_down(),
        };
    }
    found
}

/// A whole number: small, within the limit, at it.
fn whole(random: &mut Random) -> f64 {
    let limit = i64::from(LIMIT);
    let number = match random.below(4) {
        0 => random.between(0, limit),
        1 => limit - random.between(0, 3),
        _ => random.between(0, 40),
    };
    signed(random, number as f64)
}

/// Where a number is to come out: at a half or a whole number or beside it, at the limit's end or beside it, tiny, anywhere, far away.
pub fn target(random: &mut Random) -> f64 {
    let beside = random.between(-1, 1);
    match random.below(10) {
        0..=2 => {
            let half = signed(random, 0.5);
            neighbour(whole(random) + half, beside)
        }
        3 => neighbour(whole(random), beside),
        4 | 5 => {
            let edge = EDGE + random.pick(&[0.0, 0.0, 0.0, -0.5, -0.25, -1.0, 0.5]);
            signed(random, neighbour(edge, beside))
        }
        6 => {
            let tiny = random.pick(&[0.0, 0.5, BELOW_HALF, 5e-324, 1e-310, 0.25]);
            signed(random, tiny)
        }
        7 => of_size(random, -1, 70),
        _ => of_size(random, -3, 30),
    }
}

/// A scale that is in use: exact ones and others, tiny and large.
fn scale(random: &mut Random) -> f64 {
    let any = of_size(random, -20, 20);
    let number = random.pick(&[1.0, 2.0, 0.125, 12.8, 1.0 / 3.0, 1e-7, 1e5, 0.1, any, any]);
    signed(random, number)
}

/// Scales and shifts along the axes, the point where the targets are reached, as nearly as doubles allow.
fn plain(random: &mut Random, [to_x, to_y]: [f64; 2]) -> Sight {
    let [a, e] = [0; 2].map(|_| scale(random));
    let [c, f] = [0; 2].map(|_| match random.below(3) {
        0 => 0.0,
        _ => of_size(random, -2, 26),
    });
    Sight {
        map: Affine {
            a,
            c,
            e,
            f,
            ..Affine::default()
        },
        x: (to_x - c) / a,
        y: (to_y - f) / e,
    }
}

/// Any scales and any point, with the shifts that reach the targets.
fn turned(random: &mut Random, [to_x, to_y]: [f64; 2]) -> Sight {
    let [a, b, d, e] = [0; 4].map(|_| scale(random));
    let [x, y] = [0; 2].map(|_| of_size(random, -3, 24));
    let map = Affine {
        a,
        b,
        c: to_x - (a * x + b * y),
        d,
        e,
        f: to_y - (d * x + e * y),
    };
    Sight { map, x, y }
}

/// Products that cancel, so that what is rounded on the way is all that is left, beside the target.
fn cancelling(random: &mut Random, [to_x, to_y]: [f64; 2]) -> Sight {
    let mut wide = |bits: i64| (random.between(1 << (bits - 1), (1 << bits) - 1) | 1) as f64;
    let (a, x) = (wide(27), wide(30));
    let e = wide(27);
    let b = -1.0;
    let y = a * x + random.pick(&[0.0, 0.0, 1.0, -2.0, 64.0]);
    let d = -(e * y) / x;
    let map = Affine {
        a,
        b,
        c: to_x,
        d,
        e,
        f: to_y,
    };
    Sight { map, x, y }
}

/// A point far out whose two numbers cancel, with a shift that is lost where it is added first.
fn opposite(random: &mut Random, [to_x, to_y]: [f64; 2]) -> Sight {
    let x = of_size(random, 50, 62).trunc();
    let y = -neighbour(x, random.between(-2, 2));
    let [a, d] = [0; 2].map(|_| random.pick(&[1.0, 1.0, -1.0, 0.5]));
    let map = Affine {
        a,
        b: a,
        c: to_x,
        d,
        e: d,
        f: to_y,
    };
    Sight { map, x, y }
}

/// A sight of the eight numbers.
pub fn of_numbers([a, b, c, d, e, f, x, y]: [f64; 8]) -> Sight {
    let map = Affine { a, b, c, d, e, f };
    Sight { map, x, y }
}

pub fn numbers(sight: &Sight) -> [f64; 8] {
    let Affine { a, b, c, d, e, f } = sight.map;
    [a, b, c, d, e, f, sight.x, sight.y]
}

pub fn sight(random: &mut Random) -> Sight {
    let to = [0; 2].map(|_| target(random));
    match random.below(10) {
        0 | 1 => Sight {
            map: IDENTITY,
            x: to[0],
            y: to[1],
        },
        2 | 3 => plain(random, to),
        4 | 5 => turned(random, to),
        6 => cancelling(random, to),
        7 => opposite(random, to),
        // Special numbers among others, and any bits.
        8 => {
            let mut eight = numbers(&plain(random, to));
            for _ in 0..random.between(1, 4) {
                let at = random.below(8);
                eight[at] = special(random);
            }
            of_numbers(eight)
        }
        _ => of_numbers([0; 8].map(|_| match random.below(3) {
            0 => any(random),
            1 => special(random),
            _ => of_size(random, -40, 40),
        })),
    }
}

/// The map of a whole survey: none, scales and shifts, a turn, the axes exchanged.
pub fn survey_map(random: &mut Random) -> Affine {
    let [c, f] = [0; 2].map(|_| match random.below(3) {
        0 => 0.0,
        _ => of_size(random, -2, 22),
    });
    let [a, e] = [0; 2].map(|_| scale(random));
    match random.below(5) {
        0 => IDENTITY,
        1 | 2 => Affine {
            a,
            c,
            e,
            f,
            ..Affine::default()
        },
        3 => {
            let (sine, cosine) = (6.3 * part(random)).sin_cos();
            Affine {
                a: a * cosine,
                b: -a * sine,
                c,
                d: a * sine,
                e: a * cosine,
                f,
            }
        }
        _ => Affine {
            a: 0.0,
            b: a,
            c,
            d: e,
            e: 0.0,
            f,
        },
    }
}

/// Surveyed numbers that the map takes about there; beside it they come out up to one half away, or just so far.
pub fn back(random: &mut Random, map: Affine, to: [i32; 2]) -> [f64; 2] {
    let Affine { a, b, c, d, e, f } = map;
    let [to_x, to_y] = to.map(|n| {
        let any = part(random) - 0.5;
        let by = random.pick(&[0.0, 0.25, any, any, any, 0.5, BELOW_HALF]);
        f64::from(n) + signed(random, by)
    });
    if map == IDENTITY {
        return [to_x, to_y];
    }
    let (u, v) = (to_x - c, to_y - f);
    let by = a * e - b * d;
    [(e * u - b * v) / by, (a * v - d * u) / by]
}
