//! Clips through both.

use crate::cases::{self, Clip};
use crate::jobs::other_edge;
use crate::judge;
use crate::random::Random;
use crate::report::{Difference, Tally};
use crate::shrink;

type Case = [i32; 8];

fn parts(case: &Case) -> ([i32; 4], [i32; 4]) {
    let [x0, y0, x1, y1, left, right, bottom, top] = *case;
    ([x0, y0, x1, y1], [left, right, bottom, top])
}

/// Document 01's refusal, BOX before COORD; 0 where the Rust can be asked.
fn refusal(case: &Case) -> u32 {
    let (segment, edges) = parts(case);
    if !judge::good_box(edges) {
        judge::BOX
    } else if !segment.into_iter().all(judge::within) {
        judge::COORD
    } else {
        0
    }
}

/// Corners of the box 0..10, and ends on the line of an edge: what the order of the cuts makes of them and which edge it names, written out by hand.
const CORNERS: [([i32; 4], [i32; 4], [u32; 2]); 24] = [
    ([-1, -1, 11, 11], [0, 0, 10, 10], [1, 2]),
    ([11, 11, -1, -1], [10, 10, 0, 0], [2, 1]),
    ([-1, 11, 11, -1], [0, 10, 10, 0], [1, 2]),
    ([11, -1, -1, 11], [10, 0, 0, 10], [2, 1]),
    ([-1, 0, 1, -1], [0, 0, 0, 0], [1, 3]),
    ([1, -1, -1, 0], [0, 0, 0, 0], [3, 1]),
    ([0, -1, -1, 1], [0, 0, -1, 1], [3, 0]),
    ([-1, 1, 0, -1], [-1, 1, 0, 0], [0, 3]),
    // The first end lies beyond x_min and comes to lie on it, but by the cut at y_max.
    ([-1, 22, 0, -1], [0, 10, 0, 0], [4, 3]),
    ([0, -1, -1, 22], [0, 0, 0, 10], [3, 4]),
    ([10, 10, 11, 11], [10, 10, 10, 10], [0, 2]),
    ([11, 11, 10, 10], [10, 10, 10, 10], [2, 0]),
    ([0, 0, -1, -1], [0, 0, 0, 0], [0, 1]),
    ([0, 5, 0, 20], [0, 5, 0, 10], [0, 4]),
    ([0, 20, 0, 5], [0, 10, 0, 5], [4, 0]),
    ([0, -1, 0, 11], [0, 0, 0, 10], [3, 4]),
    ([10, 11, 10, -1], [10, 10, 10, 0], [4, 3]),
    ([-1, 0, 11, 0], [0, 0, 10, 0], [1, 2]),
    ([11, 10, -1, 10], [10, 10, 0, 10], [2, 1]),
    ([-1, 5, 5, 11], [0, 6, 4, 10], [1, 4]),
    ([-5, 3, 15, 8], [0, 4, 10, 7], [1, 2]),
    ([0, 0, 10, 10], [0, 0, 10, 10], [0, 0]),
    ([-1, -1, -1, 11], [-1, -1, -1, 11], [0, 0]),
    ([15, 5, 5, 15], [10, 10, 10, 10], [2, 4]),
];

/// What differs: the refusal by document 01, or the four numbers and the two edges by the Rust. Spoiled, an edge of ours that is not 0 is another one.
pub fn differs(case: &Case, spoil: bool) -> Option<String> {
    let (segment, edges) = parts(case);
    let mut given = ours::clip(segment, edges);
    if spoil {
        other_edge(&mut given.edge1);
    }
    let said = (
        given.refusal,
        [given.x0, given.y0, given.x1, given.y1],
        [given.edge0, given.edge1],
    );
    let wanted = match refusal(case) {
        0 => match std::panic::catch_unwind(|| judge::named_clip(segment, edges)) {
            Ok((cut, moved)) => (0, cut, moved),
            Err(panic) => return Some(judge::panicked(panic)),
        },
        refused => (refused, [0; 4], [0; 2]),
    };
    (said != wanted).then(|| format!("refusal, segment, edges: ours {said:?}, expected {wanted:?}"))
}

/// The Rust against what is written out of a corner.
fn corner(segment: [i32; 4], cut: [i32; 4], moved: [u32; 2]) -> Option<Difference> {
    let what = match std::panic::catch_unwind(|| judge::named_clip(segment, [0, 10, 0, 10])) {
        Ok(said) if said == (cut, moved) => return None,
        Ok(said) => format!("the Rust {said:?}, written out {:?}", (cut, moved)),
        Err(panic) => judge::panicked(panic),
    };
    Some(Difference {
        what,
        input: format!("{segment:?} in the box 0..10"),
    })
}

fn simpler(case: &Case) -> Vec<Case> {
    let mut found = Vec::new();
    for at in 0..8 {
        for n in shrink::nearer(case[at]) {
            let mut next = *case;
            next[at] = n;
            found.push(next);
        }
    }
    found
}

fn one(case: Case, spoil: bool, tally: &mut Tally) -> Option<Difference> {
    if differs(&case, spoil).is_some() {
        let (case, what) = shrink::smallest(case, &|case| differs(case, spoil), &simpler);
        return Some(Difference {
            what,
            input: format!("x0 y0 x1 y1 x_min x_max y_min y_max: {case:?}"),
        });
    }
    tally.add("clips", 1);
    tally.add(
        ["cut or as given", "", "", "BOX", "", "COORD"][refusal(&case) as usize],
        1,
    );
    if refusal(&case) == 0 {
        let (segment, edges) = parts(&case);
        for edge in judge::named_clip(segment, edges).1 {
            tally.add(ENDS[edge as usize], 1);
        }
    }
    None
}

const ENDS: [&str; 5] = [
    "ends not moved",
    "moved by x_min",
    "by x_max",
    "by y_min",
    "by y_max",
];

/// The corners, the fixed cases, then the random ones.
pub fn compare(seed: u64, count: usize, spoil: bool, tally: &mut Tally) -> Option<Difference> {
    for (segment, cut, moved) in CORNERS {
        if let Some(found) = corner(segment, cut, moved) {
            return Some(found);
        }
    }
    let corners = CORNERS.into_iter().map(|(segment, ..)| {
        let [x0, y0, x1, y1] = segment;
        [x0, y0, x1, y1, 0, 10, 0, 10]
    });
    let mut random = Random::new(seed);
    let random = (0..count).map(|_| cases::next_clip(&mut random));
    let made = cases::fixed_clips().into_iter().chain(random);
    corners
        .chain(made.map(|clip: Clip| clip.map(|n| n as i32)))
        .find_map(|case| one(case, spoil, tally))
}
