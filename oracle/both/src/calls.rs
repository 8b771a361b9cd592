//! The calls of a job one by one, through both: after each one the answer with the state and its counts, the edges and every word, and the equation of the counts. A refused
//! call gives its state back, and the calls behind it go on from there.

use crate::drawing::{self, Counts, MOST};
use crate::held::STATE;
use crate::jobs::other_edge;
use crate::judge::{self, Call, Job, ROOM};
use crate::lent::Lent;
use crate::readings;
use crate::recount::Recount;
use crate::report::Tally;
use ours::{Drawn, Encoder};

/// What is changed before it is compared, to show that it is found.
#[derive(Clone, Copy, PartialEq)]
pub enum Spoil {
    Nothing,
    /// An edge that adding a point answers.
    Edge,
    /// A count that the call has raised is as it was: taken, boundary, skipped, taken out.
    Taken,
    Boundary,
    Skipped,
    TakenOut,
    /// A refused point is counted.
    Refused,
    /// A point that brings a count to the most is refused as ROOM.
    Most,
    /// ClosePath is counted among the vertices.
    Vertices,
    /// Skipped and taken out exchanged in the state after a whole job.
    Finished,
}

fn spoiled(drawn: &mut Drawn, given: Encoder, call: Call, spoil: Spoil) {
    let state = &mut drawn.state;
    match spoil {
        Spoil::Edge => other_edge(&mut drawn.edge1),
        Spoil::Taken => state.taken = given.taken,
        Spoil::Boundary => state.boundary = given.boundary,
        Spoil::Skipped => state.skipped = given.skipped,
        Spoil::TakenOut => state.taken_out = given.taken_out,
        Spoil::Refused if drawn.refusal != 0 && matches!(call, Call::Add(..)) => {
            state.taken = state.taken.wrapping_add(1);
        }
        Spoil::Most => {
            let (before, after) = (Counts::of(&given).all(), Counts::of(state).all());
            if (0..4).any(|at| before[at] < MOST && after[at] == MOST) {
                *drawn = Drawn {
                    refusal: ROOM,
                    state: given,
                    ..Drawn::default()
                };
            }
        }
        _ => (),
    }
}

/// Taken and boundary are the vertices in the words with the skipped and the taken out; the counts that the first state had are none of it.
fn unequal(start: Counts, now: Counts, vertices: usize) -> bool {
    now.taken + now.boundary + start.skipped + start.taken_out
        != start.taken + start.boundary + vertices as u64 + now.skipped + now.taken_out
}

/// What the vertices of a geometry are by the counts of its commands, ClosePath among them or not.
fn read(words: &[u32], closed: bool) -> usize {
    let numbers = readings::vertices(words, usize::MAX).expect("the Rust's words read");
    let ids = numbers.chunks(3).map(|vertex| vertex[0]);
    ids.filter(|id| closed || *id != 7).count()
}

const FULL: [&str; 4] = [
    "ROOM for taken",
    "ROOM for boundary",
    "ROOM for skipped",
    "ROOM for taken out",
];
const AT_THE_MOST: [&str; 4] = [
    "taken to the most",
    "boundary to the most",
    "skipped to the most",
    "taken out to the most",
];

/// What a call did, for the report; `free` is its answer where the counts are none yet.
fn report(given: Encoder, wanted: &Drawn, free: &Drawn, tally: &mut Tally) {
    let before = Counts::of(&given).all();
    let after = Counts::of(&wanted.state).all();
    let more = Counts::of(&free.state).all();
    tally.add("calls", 1);
    match wanted.refusal {
        0 => {
            tally.add("with several emissions", usize::from(more[1] > 0));
            tally.add("points skipped", more[2] as usize);
            tally.add("points taken out", more[3] as usize);
        }
        ROOM if free.refusal == 0 => tally.add("ROOM for a count", 1),
        STATE => tally.add("STATE for the counts", 1),
        _ => tally.add("refused otherwise", 1),
    }
    for at in 0..4 {
        let passes = wanted.refusal == ROOM && free.refusal == 0 && before[at] + more[at] > MOST;
        tally.add(FULL[at], usize::from(passes));
        let reached = before[at] < MOST && after[at] == MOST;
        tally.add(AT_THE_MOST[at], usize::from(reached));
    }
}

/// What differs where the first state has these counts.
pub fn differs(job: &Job, start: Counts, spoil: Spoil, tally: &mut Tally) -> Option<String> {
    let started = ours::encoder(job.kind, job.edges);
    let refusal = match job.refused_at_once() {
        judge::JOB => return None,
        refusal => refusal,
    };
    if started.refusal != refusal {
        return Some(format!(
            "new: refusal {}, expected {refusal}",
            started.refusal
        ));
    }
    if refusal != 0 {
        return (started.state != Encoder::default()).then(|| "a refused new gives a state".into());
    }
    let fresh = Recount::new(job, Counts::default()).state();
    if started.state != fresh {
        return Some(format!("new: ours {:?}, expected {fresh:?}", started.state));
    }
    let mut recount = Recount::new(job, start);
    let mut list = Lent::new(job.room);
    let mut state = start.put(started.state);
    for (number, call) in job.calls().into_iter().enumerate() {
        let place = format!("call {} {call:?}", number + 1);
        let by_rules = drawing::drawn(state, call, list.words());
        let (free, _) = drawing::drawn(Counts::default().put(state), call, list.words());
        let mut drawn = match call {
            Call::Add(x, y) => state.add_point(x, y, list.words()),
            Call::Complete => state.complete_geom(list.words()),
        };
        spoiled(&mut drawn, state, call, spoil);
        let wanted = recount.call(call);
        if by_rules != (wanted, recount.words().to_vec()) {
            return Some(format!(
                "{place}: the rules {by_rules:?}, the Rust {wanted:?} {:?}",
                recount.words()
            ));
        }
        if drawn != wanted {
            return Some(format!("{place}: ours {drawn:?}, expected {wanted:?}"));
        }
        if let Some(what) = list.differs(recount.words().iter().copied()) {
            return Some(format!("after {place}: {what}"));
        }
        report(state, &wanted, &free, tally);
        state = drawn.state;
        if (state.count(), state.len()) != (wanted.state.count, wanted.state.used) {
            return Some(format!("count or len after {place}"));
        }
        let mut vertices = recount.vertices();
        if call == Call::Complete && wanted.refusal == 0 {
            let closed = spoil == Spoil::Vertices;
            let by_counts = read(recount.words(), closed);
            if !closed && by_counts != vertices {
                return Some(format!("after {place}: {vertices} pairs of steps, the words' own counts say {by_counts}"));
            }
            vertices = by_counts;
        }
        if unequal(start, Counts::of(&state), vertices) {
            return Some(format!(
                "after {place}: {vertices} vertices in the words, and the counts of {state:?} since {start:?}"
            ));
        }
    }
    None
}
