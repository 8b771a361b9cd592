//! Jobs with the counts of request (ix): call by call, from a fresh state and from one that has counts already, and the state after the whole job.

use crate::calls::{self, Spoil};
use crate::cases::{self, FILE_LIMIT};
use crate::drawing::{Counts, MOST};
use crate::jobs;
use crate::judge::{self, Job, LIMIT};
use crate::lent::Lent;
use crate::random::Random;
use crate::recount::Recount;
use crate::report::{Difference, Tally};
use crate::shrink;
use ours::Encoder;
use std::panic::{catch_unwind, AssertUnwindSafe};

/// Jobs in the box 0..10 with their counts written out by hand: kind, ends, points; taken, boundary, skipped, taken out; the vertices in the words.
type Written = (u32, &'static [u32], &'static [i32], [u64; 4], usize);

const WRITTEN: [Written; 12] = [
    (2, &[2], &[-5, 3, 15, 8], [2, 2, 0, 0], 4),
    // There is no last point at the start: the first one is written, at (0, 0) too.
    (2, &[1], &[0, 0], [1, 0, 0, 0], 1),
    (1, &[2], &[1, 2, 1, 2], [2, 0, 1, 0], 1),
    // Points are not cut.
    (1, &[2], &[-5, 3, 15, 8], [2, 0, 0, 0], 2),
    // A part that starts on the last point: its first point gives no words.
    (2, &[1, 2, 4], &[1, 2, 1, 2, 1, 2, 3, 4], [4, 0, 2, 0], 2),
    (
        3,
        &[3, 6],
        &[0, 0, 4, 0, 4, 4, 4, 4, 8, 4, 8, 8],
        [6, 0, 1, 0],
        5,
    ),
    // Ends that moved to where the last point is.
    (2, &[3], &[10, 10, 11, 11, 10, 10], [3, 2, 4, 0], 1),
    (2, &[4], &[-1, 0, 0, 0, -1, 0, 0, 0], [4, 3, 6, 0], 1),
    (3, &[3], &[0, 0, 11, 0, 11, 11], [3, 1, 1, 0], 3),
    // Taken out by a point, by an end that moved, and not in a line.
    (3, &[4], &[0, 0, 4, 0, 9, 0, 9, 9], [4, 0, 0, 1], 3),
    (3, &[3], &[5, 5, 5, 7, 5, 15], [3, 1, 1, 1], 2),
    (2, &[4], &[0, 0, 4, 0, 9, 0, 9, 9], [4, 0, 0, 0], 4),
];

/// A job, and the counts of the state that its first call is given.
#[derive(Clone, Debug)]
struct Case {
    job: Job,
    start: Counts,
}

/// The whole job with its state: answer and words are those of the job without it, the state is the one after the last call, all 0 where refused.
fn finished(job: &Job, spoil: Spoil) -> Option<String> {
    let expected = jobs::expected(job, usize::MAX);
    let mut list = Lent::new(job.room);
    let mut given =
        ours::encode_job_state(job.kind, job.edges, &job.points, &job.ends, list.words());
    if spoil == Spoil::Finished {
        std::mem::swap(&mut given.state.skipped, &mut given.state.taken_out);
    }
    let answer = ours::Job {
        refusal: given.refusal,
        points: given.points,
        words: given.state.used,
    };
    if let Some(what) = expected.differs(answer, &list) {
        return Some(format!("with the state: {what}"));
    }
    let mut plain = Lent::new(job.room);
    let without = ours::encode_job(job.kind, job.edges, &job.points, &job.ends, plain.words());
    if (without, plain) != (answer, list) {
        return Some("other words or another answer with the state than without".into());
    }
    let state = match expected.refusal {
        0 => Recount::after(job).state(),
        _ => Encoder::default(),
    };
    (given.state != state).then(|| {
        format!(
            "the state after the job: ours {:?}, expected {state:?}",
            given.state
        )
    })
}

fn differs(case: &Case, by_calls: bool, spoil: Spoil, tally: &mut Tally) -> Option<String> {
    let Case { job, start } = case;
    let tried = catch_unwind(AssertUnwindSafe(|| {
        let found = finished(job, spoil);
        if found.is_some() || !by_calls {
            return found;
        }
        calls::differs(job, *start, spoil, tally)
    }));
    tried.unwrap_or_else(|panic| Some(judge::panicked(panic)))
}

/// The job with its box at zero in x or y, and the points as far from it as they were.
fn at_zero(job: &Job, axis: usize) -> Option<Job> {
    let by = job.edges[2 * axis];
    let mut next = job.clone();
    let points = next.points.iter_mut().skip(axis).step_by(2);
    for n in points.chain(&mut next.edges[2 * axis..2 * axis + 2]) {
        *n = n.checked_sub(by)?;
    }
    (by != 0).then_some(next)
}

fn simpler(case: &Case) -> Vec<Case> {
    let Case { job, start } = case;
    let moved = [0, 1].into_iter().filter_map(|axis| at_zero(job, axis));
    let mut found: Vec<Case> = moved
        .chain(jobs::simpler(job))
        .map(|job| Case { job, start: *start })
        .collect();
    // By steps of every size: one at a time there would be no end of it.
    for at in 0..4 {
        for power in (0..32).rev() {
            let mut counts = start.all();
            if let Some(less) = counts[at].checked_sub(1 << power) {
                counts[at] = less;
                let start = Counts::from(counts);
                let job = job.clone();
                found.push(Case { job, start });
            }
        }
    }
    found
}

/// A part in and around a small box: points anywhere there, or a walk along its axes that mostly goes on as it went.
fn tight_part(random: &mut Random, size: [i32; 2], points: &mut Vec<[i32; 2]>) {
    let walks = random.chance(2);
    let anywhere = |random: &mut Random| size.map(|n| random.between(-2, i64::from(n) + 2) as i32);
    let mut at = anywhere(random);
    let (mut axis, mut step) = (0, 1);
    for _ in 0..random.below(11) {
        points.push(at);
        if random.chance(3) {
            (axis, step) = (random.below(2), random.pick(&[-2, -1, 0, 1, 2]));
        }
        if walks {
            at[axis] = (at[axis] + step).clamp(-2, size[axis] + 2);
        } else {
            at = anywhere(random);
        }
    }
}

/// Points of which most are skipped, taken out or cut, in a box anywhere. One job in eight has a number beyond the limit.
fn tight_job(random: &mut Random) -> Job {
    let corner = [0; 2].map(|_| random.pick(&[0, 0, -7, 2 - LIMIT, LIMIT - 8]));
    let size = [0; 2].map(|_| random.between(1, 6) as i32);
    let mut points = Vec::new();
    let mut ends = Vec::new();
    for _ in 0..random.between(1, 4) {
        tight_part(random, size, &mut points);
        ends.push(points.len() as u32);
    }
    let [x, y] = corner;
    let mut points: Vec<i32> = points
        .into_iter()
        .flat_map(|point| [x + point[0], y + point[1]])
        .collect();
    if random.chance(8) && !points.is_empty() {
        let at = random.below(points.len());
        points[at] = random.pick(&[LIMIT + 1, -LIMIT - 1, i32::MAX, i32::MIN]);
    }
    Job {
        kind: random.pick(&[1, 2, 2, 3, 3, 3]),
        edges: [x, x + size[0], y, y + size[1]],
        ends,
        points,
        room: 0,
    }
}

/// Every line and every ring of three points around the box 0..1.
fn tiny_jobs() -> impl Iterator<Item = Job> {
    (0..2 * 4096).map(|n| Job {
        kind: 2 + n / 4096,
        edges: [0, 1, 0, 1],
        ends: vec![3],
        points: (0..6).map(|at| (n >> (2 * at) & 3) as i32 - 1).collect(),
        room: 0,
    })
}

/// Two counts with that sum, or with the most that two have.
fn split(random: &mut Random, sum: u64) -> [u64; 2] {
    let sum = sum.min(2 * MOST);
    let (least, most) = (sum.saturating_sub(MOST), sum.min(MOST));
    let any = least + random.next() % (most - least + 1);
    let first = random.pick(&[least, most, any]);
    [first, sum - first]
}

/// Counts of which some are near the most, the others small or any or below the most by more than a job has; half of them around the rule of STATE, that no more was thrown
/// away than there was.
pub fn random_counts(random: &mut Random) -> Counts {
    let near = random.below(16);
    let [taken, boundary, skipped, taken_out] = [0, 1, 2, 3].map(|at| {
        if near >> at & 1 == 1 {
            return MOST - random.below(9) as u64;
        }
        let little = random.below(6) as u64;
        let any = u64::from(random.next() as u32);
        random.pick(&[little, any, MOST - 1000 - little])
    });
    let around = random.below(5) as u64;
    let ([taken, boundary], [skipped, taken_out]) = match random.below(4) {
        0 => {
            let away = (taken + boundary + around).saturating_sub(2);
            ([taken, boundary], split(random, away))
        }
        1 => {
            let there = (skipped + taken_out + around).saturating_sub(2);
            (split(random, there), [skipped, taken_out])
        }
        _ => ([taken, boundary], [skipped, taken_out]),
    };
    Counts {
        taken,
        boundary,
        skipped,
        taken_out,
    }
}

/// The same, but only one in eight of those that break the rule, since every call refuses them: the others have what there was exchanged with what was thrown away.
fn first_counts(random: &mut Random) -> Counts {
    let counts = random_counts(random);
    if counts.good() || random.chance(8) {
        return counts;
    }
    let [taken, boundary, skipped, taken_out] = counts.all();
    Counts::from([skipped, taken_out, taken, boundary])
}

/// One case; a large one is not looked at call by call, which is quadratic.
fn one(case: Case, large: bool, spoil: Spoil, tally: &mut Tally) -> Option<Difference> {
    if differs(&case, !large, spoil, tally).is_some() {
        let again = |case: &Case| differs(case, !large, spoil, &mut Tally::default());
        let (case, what) = shrink::smallest(case, &again, &simpler);
        return Some(Difference {
            what,
            input: format!("{case:?}"),
        });
    }
    tally.add("jobs with their state", 1);
    tally.add(
        "from counts that are not 0",
        usize::from(!large && case.start != Counts::default()),
    );
    None
}

/// The recount and our counts against those that are written out.
fn written() -> Option<Difference> {
    WRITTEN
        .into_iter()
        .find_map(|(kind, ends, points, counts, vertices)| {
            let job = Job {
                kind,
                edges: [0, 10, 0, 10],
                ends: ends.to_vec(),
                points: points.to_vec(),
                room: 6 * points.len(),
            };
            let said = Recount::after(&job);
            let what = if (said.counts().all(), said.vertices()) == (counts, vertices) {
                finished(&job, Spoil::Nothing)?
            } else {
                format!(
                    "recounted {:?} and {} vertices, written out {counts:?} and {vertices}",
                    said.counts(),
                    said.vertices()
                )
            };
            Some(Difference {
                what,
                input: format!("{job:?}"),
            })
        })
}

/// The counts that are written out; the fixed jobs and the tiny ones; the large ones; then random ones, by turns those of `jobs` and tight ones. Every other one begins with
/// counts.
pub fn compare(seed: u64, count: usize, spoil: Spoil, tally: &mut Tally) -> Option<Difference> {
    if let Some(found) = written() {
        return Some(found);
    }
    let mut rooms = Random::new(seed ^ 0x5EED);
    let mut starts = Random::new(seed ^ 0xC0);
    let mut run = |job: Job, at: usize, large: bool, tally: &mut Tally| {
        let (job, _) = jobs::with_room(job, &mut rooms, at);
        let start = match at / 2 % 2 {
            0 => Counts::default(),
            _ => first_counts(&mut starts),
        };
        one(Case { job, start }, large, spoil, tally)
    };
    let of_file = |file: Vec<u8>, limit| Job::of_file(&file, limit);
    let fixed = cases::fixed_jobs();
    let fixed = fixed.into_iter().filter_map(|f| of_file(f, FILE_LIMIT));
    for (at, job) in fixed.chain(tiny_jobs()).enumerate() {
        for at in [at, at + 2, at + 4] {
            if let Some(found) = run(job.clone(), at, false, tally) {
                return Some(found);
            }
        }
    }
    let large = cases::large_jobs(&mut Random::new(seed), 8);
    let large = large.into_iter().chain(cases::widest_jobs());
    for job in large.filter_map(|f| of_file(f, usize::MAX)) {
        for at in 0..3 {
            if let Some(found) = run(job.clone(), at, true, tally) {
                return Some(found);
            }
        }
    }
    let mut random = Random::new(seed);
    for at in 0..count {
        let job = match at % 2 {
            0 => of_file(cases::next_job(&mut random, at / 2), FILE_LIMIT),
            _ => Some(tight_job(&mut random)),
        };
        let found = job.and_then(|job| run(job, at, false, tally));
        if found.is_some() {
            return found;
        }
    }
    None
}
