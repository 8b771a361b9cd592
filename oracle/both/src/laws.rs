//! Our compiled clip against its two laws (document 02, request (vi)): from the other end, and moved by one step. The Rust is not asked.

use crate::cases::{self, Clip, LIMIT};
use crate::jobs::other_edge;
use crate::judge;
use crate::random::Random;
use crate::report::{Difference, Tally};
use crate::shrink;

/// What is changed of ours, to show that it is found: an edge of the first end, from the other end or moved.
#[derive(Clone, Copy, PartialEq)]
pub enum Spoil {
    Nothing,
    Turned,
    Moved,
}

/// A segment, a box, and one step for both.
type Case = [i32; 10];

/// What a clip says: its refusal, the segment's four numbers, the edges.
type Said = (u32, [i32; 4], [u32; 2]);

fn parts(case: &Case) -> ([i32; 4], [i32; 4], [i32; 2]) {
    let [x0, y0, x1, y1, left, right, bottom, top, u, v] = *case;
    ([x0, y0, x1, y1], [left, right, bottom, top], [u, v])
}

fn said(segment: [i32; 4], edges: [i32; 4], spoil: bool) -> Said {
    let mut given = ours::clip(segment, edges);
    if spoil {
        other_edge(&mut given.edge0);
    }
    (
        given.refusal,
        [given.x0, given.y0, given.x1, given.y1],
        [given.edge0, given.edge1],
    )
}

fn reversed([x0, y0, x1, y1]: [i32; 4]) -> [i32; 4] {
    [x1, y1, x0, y0]
}

fn taken(segment: [i32; 4], edges: [i32; 4]) -> bool {
    judge::good_box(edges) && segment.into_iter().all(judge::within)
}

/// Segment and box moved by the step; nothing where a number would not fit.
fn moved(case: &Case) -> Option<([i32; 4], [i32; 4])> {
    let ([x0, y0, x1, y1], [left, right, bottom, top], [u, v]) = parts(case);
    let in_x = |n: i32| n.checked_add(u);
    let in_y = |n: i32| n.checked_add(v);
    Some((
        [in_x(x0)?, in_y(y0)?, in_x(x1)?, in_y(y1)?],
        [in_x(left)?, in_x(right)?, in_y(bottom)?, in_y(top)?],
    ))
}

/// Where both are taken, before and after the step, the second law asks.
fn asked(case: &Case) -> Option<([i32; 4], [i32; 4])> {
    let (segment, edges, _) = parts(case);
    moved(case).filter(|(s, b)| taken(segment, edges) && taken(*s, *b))
}

/// Which law fails, and how.
fn fails(case: &Case, spoil: Spoil) -> Option<String> {
    let (segment, edges, [u, v]) = parts(case);
    let (refusal, cut, [first, second]) = said(segment, edges, false);
    let turned = (refusal, reversed(cut), [second, first]);
    let from_other_end = said(reversed(segment), edges, spoil == Spoil::Turned);
    if from_other_end != turned {
        return Some(format!(
            "from the other end {from_other_end:?}, expected {turned:?}"
        ));
    }
    let (segment, edges) = asked(case)?;
    let [x0, y0, x1, y1] = cut;
    let expected = (0, [x0 + u, y0 + v, x1 + u, y1 + v], [first, second]);
    let by_one_step = said(segment, edges, spoil == Spoil::Moved);
    (by_one_step != expected).then(|| format!("moved {by_one_step:?}, expected {expected:?}"))
}

/// A step that leaves these numbers within the limit: to either end of it, by little, or anywhere between.
fn step(random: &mut Random, numbers: [i64; 4]) -> i64 {
    let least = -LIMIT - numbers.into_iter().min().unwrap_or(0);
    let most = LIMIT - numbers.into_iter().max().unwrap_or(0);
    if most < least {
        return 0;
    }
    let any = random.between(least, most);
    let little = random.between(-9, 9);
    random.pick(&[least, most, little, any]).clamp(least, most)
}

/// A clip with a step; now and then one of its numbers is any at all.
fn with_step(random: &mut Random, mut clip: Clip) -> Case {
    if random.chance(16) {
        let at = random.below(8);
        clip[at] = i64::from(random.next() as i32);
    }
    let [x0, y0, x1, y1, left, right, bottom, top] = clip;
    let u = step(random, [x0, x1, left, right]);
    let v = step(random, [y0, y1, bottom, top]);
    [x0, y0, x1, y1, left, right, bottom, top, u, v].map(|n| n as i32)
}

fn simpler(case: &Case) -> Vec<Case> {
    let mut found = Vec::new();
    for at in 0..10 {
        for n in shrink::nearer(case[at]) {
            let mut next = *case;
            next[at] = n;
            found.push(next);
        }
    }
    found
}

fn one(case: Case, spoil: Spoil, tally: &mut Tally) -> Option<Difference> {
    if fails(&case, spoil).is_some() {
        let (case, what) = shrink::smallest(case, &|case| fails(case, spoil), &simpler);
        return Some(Difference {
            what,
            input: format!("x0 y0 x1 y1 x_min x_max y_min y_max, step u v: {case:?}"),
        });
    }
    let (segment, edges, [u, v]) = parts(&case);
    tally.add("from the other end", 1);
    let (refusal, _, ends) = said(segment, edges, false);
    tally.add("of these refused", usize::from(refusal != 0));
    tally.add("with an end moved", usize::from(ends != [0, 0]));
    if let Some((_, edges)) = asked(&case) {
        let at_limit = |n: i32| i64::from(n).abs() == LIMIT;
        tally.add("by one step", 1);
        tally.add("of these by none", usize::from([u, v] == [0, 0]));
        tally.add(
            "with an edge at the limit after it",
            usize::from(edges.into_iter().any(at_limit)),
        );
    }
    None
}

/// The fixed clips, then random ones, each with its step.
pub fn compare(seed: u64, count: usize, spoil: Spoil, tally: &mut Tally) -> Option<Difference> {
    let mut random = Random::new(seed);
    let fixed = cases::fixed_clips();
    (0..fixed.len() + count).find_map(|at| {
        let clip = match fixed.get(at) {
            Some(clip) => *clip,
            None => cases::next_clip(&mut random),
        };
        one(with_step(&mut random, clip), spoil, tally)
    })
}
