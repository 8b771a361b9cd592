//! Jobs with a list that takes the edges, two entries for each raw point: lists that are long enough, too short by a pair, by an entry, by more, and a point
//! beyond the limit just behind the end of the list.

use crate::jobs::{self, other_edge};
use crate::judge::{Job, COORD, LIMIT, ROOM};
use crate::lent::Lent;
use crate::report::{Difference, Tally};

/// Jobs in the box 0..10 with their edges written out by hand: kind, ends, points, edges.
type Written = (u32, &'static [u32], &'static [i32], &'static [u32]);

const WRITTEN: [Written; 7] = [
    (2, &[2], &[-5, 3, 15, 8], &[0, 0, 1, 2]),
    (2, &[2], &[-1, -1, 11, 11], &[0, 0, 1, 2]),
    (3, &[3], &[5, 5, 15, 5, 5, 15], &[0, 0, 0, 2, 2, 4]),
    // Points are not cut, and a part's first point ends no segment.
    (1, &[2], &[-5, 3, 15, 8], &[0, 0, 0, 0]),
    (
        2,
        &[2, 4],
        &[5, 5, 15, 5, 15, 5, 5, 5],
        &[0, 0, 0, 2, 0, 0, 2, 0],
    ),
    // The end that moved is the last point already and gives no words; it is named all the same.
    (2, &[3], &[10, 10, 11, 11, 10, 10], &[0, 0, 0, 2, 2, 0]),
    // A segment that misses the box.
    (2, &[2], &[-1, -1, -1, 11], &[0, 0, 0, 0]),
];

const FAR: [i32; 4] = [LIMIT + 1, -LIMIT - 1, i32::MAX, i32::MIN];

/// The job with a list of so many entries: the answer, every word, every entry and both lists' guards.
fn run(
    job: &Job,
    entries: usize,
    spoil: bool,
    tally: &mut Tally,
) -> Result<(ours::Job, Lent), String> {
    let expected = jobs::expected(job, entries);
    let mut words = Lent::new(job.room);
    let mut moved = Lent::new(entries);
    let given = ours::encode_job_edges(
        job.kind,
        job.edges,
        &job.points,
        &job.ends,
        words.words(),
        moved.words(),
    );
    if spoil {
        moved.words()[..expected.moved.len()]
            .iter_mut()
            .for_each(other_edge);
    }
    if let Some(what) = expected.differs(given, &words) {
        return Err(format!("with {entries} entries for edges: {what}"));
    }
    if let Some(what) = moved.differs(expected.moved.iter().copied()) {
        return Err(format!("edges, with {entries} entries: {what}"));
    }
    let short = entries < 2 * (expected.points + 1);
    let ends = expected.moved.iter().filter(|edge| **edge != 0);
    tally.add("lists of edges", 1);
    match expected.refusal {
        ROOM if short => tally.add("too short, with ROOM", 1),
        COORD if short => tally.add("too short, with COORD", 1),
        _ => (),
    }
    tally.add("edges compared", expected.moved.len());
    tally.add("of them not 0", ends.count());
    Ok((given, words))
}

/// The Rust's edges and ours against those that are written out.
pub fn written() -> Option<Difference> {
    WRITTEN.into_iter().find_map(|(kind, ends, points, edges)| {
        let job = Job {
            kind,
            edges: [0, 10, 0, 10],
            ends: ends.to_vec(),
            points: points.to_vec(),
            room: 6 * points.len(),
        };
        let said = jobs::expected(&job, usize::MAX).moved;
        let what = if said == edges {
            run(&job, edges.len(), false, &mut Tally::default()).err()?
        } else {
            format!("the Rust's edges {said:?}, written out {edges:?}")
        };
        Some(Difference {
            what,
            input: format!("{job:?}"),
        })
    })
}

/// What differs; where the list is long enough, also from the job without edges.
pub fn differs(
    job: &Job,
    plain: (ours::Job, Lent),
    turn: usize,
    spoil: bool,
    tally: &mut Tally,
) -> Option<String> {
    let points = job.points.len() / 2;
    let enough = 2 * points + [0, 1, 2, 9][turn % 4];
    let mut tried = || {
        if run(job, enough, spoil, tally)? != plain {
            return Err("other words or another answer with edges than without".into());
        }
        if turn / 4 % 4 == 0 || points == 0 {
            run(job, 0, spoil, tally)?;
        }
        if points == 0 {
            return Ok(());
        }
        run(job, 2 * points - 1, spoil, tally)?;
        run(job, 2 * points - 2, spoil, tally)?;
        // A point beyond the limit, and lists that end just before it, between its two entries, and by turns behind it or a point earlier.
        let at = turn / 16 % points;
        let mut far = job.clone();
        far.points[2 * at + turn % 2] = FAR[turn / 2 % 4];
        let other = match turn / 8 % 2 {
            0 => 2 * at + 2,
            _ => (2 * at).saturating_sub(1),
        };
        for entries in [2 * at, 2 * at + 1, other] {
            run(&far, entries, spoil, tally)
                .map_err(|what| format!("point {at} beyond the limit: {what}"))?;
        }
        Ok(())
    };
    tried().err()
}
