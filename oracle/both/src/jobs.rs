//! Jobs through both: the whole job, without and with its edges, and call by call.

use crate::calls;
use crate::cases::{self, FILE_LIMIT};
use crate::drawing::Counts;
use crate::edges;
use crate::judge::{self, Call, Job, Judge, Verdict, EMPTY};
use crate::lent::Lent;
use crate::random::Random;
use crate::readings;
use crate::report::{Difference, Tally};
use crate::shrink;
use std::panic::{catch_unwind, AssertUnwindSafe};

/// What is changed of ours before it is compared, to show that it is found.
#[derive(Clone, Copy, PartialEq)]
pub enum Spoil {
    Nothing,
    /// A word of a whole job.
    Word,
    /// An edge in a job's list.
    Edge,
    /// An edge that adding a point answers.
    Call,
}

/// Another edge in the place of one that moved an end.
pub fn other_edge(edge: &mut u32) {
    if *edge != 0 {
        *edge = *edge % 4 + 1;
    }
}

/// What document 01 and the Rust say of a whole job: the words and the edges as the accepted calls left them.
pub struct Expected {
    pub refusal: u32,
    pub points: usize,
    pub words: Vec<u32>,
    pub moved: Vec<u32>,
}

impl Expected {
    /// What differs in our answer and our list of words.
    pub fn differs(&self, given: ours::Job, list: &Lent) -> Option<String> {
        let words = if self.refusal == 0 {
            self.words.len()
        } else {
            0
        };
        if (given.refusal, given.points, given.words) != (self.refusal, self.points, words) {
            return Some(format!(
                "refusal, points, words: ours {} {} {}, expected {} {} {words}",
                given.refusal, given.points, given.words, self.refusal, self.points
            ));
        }
        list.differs(self.words.iter().copied())
    }
}

/// Of a job whose list of edges has so many entries. The call for a point that lacks one of its two is ROOM, unless its coordinates are refused.
pub fn expected(job: &Job, entries: usize) -> Expected {
    let mut said = Expected {
        refusal: job.refused_at_once(),
        points: 0,
        words: Vec::new(),
        moved: Vec::new(),
    };
    if said.refusal != 0 {
        return said;
    }
    let mut judge = Judge::new(job.kind, job.edges, job.room);
    for call in job.calls() {
        let moved = judge.moved(call);
        let verdict = match call {
            Call::Add(x, y) if entries - said.moved.len() < 2 => {
                let far = !judge::within(x) || !judge::within(y);
                let refusal = if far { judge::COORD } else { judge::ROOM };
                Verdict::Refused(refusal, judge.state().words.to_vec())
            }
            _ => judge.call(call),
        };
        if let Verdict::Refused(refusal, words) = verdict {
            (said.refusal, said.words) = (refusal, words);
            return said;
        }
        if let Call::Add(..) = call {
            said.points += 1;
            said.moved.extend(moved);
        }
    }
    said.words = judge.state().words.to_vec();
    said
}

/// The whole job through our library; its answer and its words.
fn whole(job: &Job, spoil: Spoil) -> Result<(ours::Job, Lent), String> {
    let expected = expected(job, usize::MAX);
    let mut list = Lent::new(job.room);
    let given = ours::encode_job(job.kind, job.edges, &job.points, &job.ends, list.words());
    if spoil == Spoil::Word && given.words > 2 {
        list.words()[2] ^= 1;
    }
    if let Some(what) = expected.differs(given, &list) {
        return Err(what);
    }
    if expected.refusal == 0 && judge::words_unchanged(job) != expected.words {
        return Err("the two copies of the Rust differ".into());
    }
    match read_back(&expected) {
        Some(what) => Err(what),
        None => Ok((given, list)),
    }
}

/// The words of an accepted job, read by our decoder and by an independent reading.
fn read_back(expected: &Expected) -> Option<String> {
    if expected.refusal != 0 {
        return None;
    }
    let numbers = readings::vertices(&expected.words, usize::MAX).map_or(0, |found| found.len());
    readings::differs(&expected.words, numbers, readings::Spoil::Nothing)
        .map(|what| format!("reading the words: {what}"))
}

/// How a job is looked at: call by call too or not, and which lists of edges it is lent.
#[derive(Clone, Copy)]
struct Look {
    calls: bool,
    turn: usize,
    spoil: Spoil,
}

fn differs(job: &Job, look: Look, tally: &mut Tally) -> Option<String> {
    let Look { calls, turn, spoil } = look;
    let by_calls = match spoil {
        Spoil::Call => calls::Spoil::Edge,
        _ => calls::Spoil::Nothing,
    };
    let tried = catch_unwind(AssertUnwindSafe(|| {
        let found = match whole(job, spoil) {
            Err(what) => Some(what),
            Ok(plain) => edges::differs(job, plain, turn, spoil == Spoil::Edge, tally),
        };
        if found.is_some() || !calls {
            return found;
        }
        calls::differs(job, Counts::default(), by_calls, &mut Tally::default())
    }));
    tried.unwrap_or_else(|panic| Some(judge::panicked(panic)))
}

/// The same job with less of something.
pub fn simpler(job: &Job) -> Vec<Job> {
    let mut found = Vec::new();
    let mut push = |change: &dyn Fn(&mut Job)| {
        let mut next = job.clone();
        change(&mut next);
        found.push(next);
    };
    for at in 0..job.ends.len() {
        push(&|next| {
            next.ends.remove(at);
        });
    }
    for at in 0..job.points.len() / 2 {
        push(&|next| {
            next.points.drain(2 * at..2 * at + 2);
            for end in &mut next.ends {
                *end -= u32::from(*end as usize > at);
            }
        });
    }
    for at in 0..job.points.len() {
        for n in shrink::nearer(job.points[at]) {
            push(&|next| next.points[at] = n);
        }
    }
    for at in 0..4 {
        for n in shrink::nearer(job.edges[at]) {
            push(&|next| next.edges[at] = n);
        }
    }
    for room in [job.room / 2, job.room.saturating_sub(1)] {
        if room < job.room {
            push(&|next| next.room = room);
        }
    }
    found
}

/// How a job's room is chosen, by turns: more than enough, just enough, less.
pub fn with_room(mut job: Job, random: &mut Random, at: usize) -> (Job, bool) {
    job.room = usize::MAX;
    let needed = match job.refused_at_once() {
        0 => {
            let mut judge = Judge::new(job.kind, job.edges, usize::MAX);
            for call in job.calls() {
                if let Verdict::Refused(..) = judge.call(call) {
                    break;
                }
            }
            judge.state().words.len()
        }
        _ => 4,
    };
    let little = at % 3 == 2 && needed > 0;
    job.room = match at % 3 {
        0 => needed + 9,
        1 => needed,
        _ => random.below(needed.max(1)),
    };
    (job, little)
}

/// One case: every fourth is looked at call by call too.
fn one(
    file: &[u8],
    limit: usize,
    rooms: &mut Random,
    at: usize,
    spoil: Spoil,
    tally: &mut Tally,
) -> Option<Difference> {
    let Some(job) = Job::of_file(file, limit) else {
        tally.add("files without lists", 1);
        return None;
    };
    let (job, little) = with_room(job, rooms, at);
    let calls = at % 4 == 0;
    let turn = Random::new(at as u64).next() as usize;
    let look = Look { calls, turn, spoil };
    let mut edges = Tally::default();
    if differs(&job, look, &mut edges).is_some() {
        let again = |job: &Job| differs(job, look, &mut Tally::default());
        let (job, what) = shrink::smallest(job, &again, &simpler);
        return Some(Difference {
            what,
            input: format!("{job:?}"),
        });
    }
    let expected = expected(&job, usize::MAX);
    tally.add("jobs", 1);
    tally.add(
        if little {
            "with little room"
        } else {
            "with enough room"
        },
        1,
    );
    tally.add(
        [
            "accepted", "JOB", "KIND", "BOX", "STATE", "COORD", "EMPTY", "ROOM",
        ][expected.refusal as usize],
        1,
    );
    tally.add("words compared", expected.words.len());
    if calls && job.refused_at_once() == 0 {
        tally.add("jobs call by call", 1);
        tally.add("calls", job.calls().len());
    }
    if expected.refusal == EMPTY {
        tally.add("panics of the Rust", 1);
    }
    tally.add_all(edges);
    None
}

/// The edges that are written out; the fixed cases in each of the three rooms, with and without a look at every call; the large ones; then the random ones.
pub fn compare(seed: u64, count: usize, spoil: Spoil, tally: &mut Tally) -> Option<Difference> {
    if let Some(found) = edges::written() {
        return Some(found);
    }
    let mut rooms = Random::new(seed ^ 0x5EED);
    for file in cases::fixed_jobs() {
        for at in 0..12 {
            if let Some(found) = one(&file, FILE_LIMIT, &mut rooms, at, spoil, tally) {
                return Some(found);
            }
        }
    }
    let large = cases::large_jobs(&mut Random::new(seed), 8);
    for (at, file) in large.into_iter().chain(cases::widest_jobs()).enumerate() {
        // Not at a place that is looked at call by call: that is quadratic.
        for at in [12 * at + 1, 12 * at + 3, 12 * at + 5] {
            if let Some(found) = one(&file, usize::MAX, &mut rooms, at, spoil, tally) {
                return Some(found);
            }
        }
    }
    let mut random = Random::new(seed);
    for at in 0..count {
        let file = cases::next_job(&mut random, at);
        if let Some(found) = one(&file, FILE_LIMIT, &mut rooms, at, spoil, tally) {
            return Some(found);
        }
    }
    None
}
