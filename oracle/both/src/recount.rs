//! The four counts of request (ix), which the Rust does not have, recounted from what it does: the ends that its clip moves, and its words and its last point before and
//! after each emission. The emissions of a call are made one at a time on a second encoder of the Rust, which has to stand afterwards where the first one stands.

use crate::drawing::{Counts, MOST};
use crate::held::STATE;
use crate::judge::{Call, Job, Judge, Verdict, ROOM};
use mvt_open::State;
use ours::{Drawn, Encoder, Point};

/// The Rust's encoder, and the counts since its first call on top of those that it was given.
pub struct Recount {
    kind: u32,
    edges: [i32; 4],
    whole: Judge,
    apart: Judge,
    counts: Counts,
}

fn point(at: Option<(i32, i32)>) -> Point {
    at.map_or(Point::default(), |(x, y)| Point { is_set: 1, x, y })
}

/// The pairs of steps among the words. Behind the commands before the last one there are as many as they say; behind the last one, whose count is only set when the part
/// is completed, there is nothing else.
fn pairs(state: &State) -> usize {
    let (mut at, mut found) = (0, 0);
    while at < state.command_place {
        let said = match state.words[at] & 7 {
            7 => 0,
            _ => (state.words[at] >> 3) as usize,
        };
        found += said;
        at += 1 + 2 * said;
    }
    assert_eq!(at, state.command_place, "the last command's place");
    let steps = state.words.len().saturating_sub(at + 1);
    assert_eq!(steps % 2, 0, "the steps come in pairs");
    found + steps / 2
}

impl Recount {
    /// Of a job that is not refused at once.
    pub fn new(job: &Job, counts: Counts) -> Self {
        let judge = || Judge::new(job.kind, job.edges, job.room);
        Recount {
            kind: job.kind,
            edges: job.edges,
            whole: judge(),
            apart: judge(),
            counts,
        }
    }

    /// After all calls of a job that is accepted.
    pub fn after(job: &Job) -> Self {
        let mut recount = Recount::new(job, Counts::default());
        for call in job.calls() {
            assert_eq!(recount.call(call).refusal, 0, "a call of an accepted job");
        }
        recount
    }

    pub fn counts(&self) -> Counts {
        self.counts
    }

    pub fn words(&self) -> &[u32] {
        self.whole.state().words
    }

    /// The vertices now in the words, in the middle of a part too.
    pub fn vertices(&self) -> usize {
        pairs(&self.whole.state())
    }

    /// The Rust's state as our library carries it.
    pub fn state(&self) -> Encoder {
        let state = self.whole.state();
        let [x_min, x_max, y_min, y_max] = self.edges;
        self.counts.put(Encoder {
            kind: self.kind,
            count: state.count,
            used: state.words.len(),
            cmd_offset: state.command_place,
            x_min,
            x_max,
            y_min,
            y_max,
            xy_end: point(state.raw_end),
            pt0: point(state.before_last),
            pt1: point(state.last),
            ..Encoder::default()
        })
    }

    /// One emission, and what it was: skipped where the last point stays, taken out where that changes and the words are as many as before.
    fn emission(&mut self, point: (i32, i32)) -> Counts {
        let before = self.apart.state();
        let (last, words) = (before.last, before.words.len());
        self.apart.emit(point);
        let after = self.apart.state();
        let (stays, more) = (after.last == last, after.words.len() - words);
        assert!(
            if stays {
                more == 0
            } else {
                [0, 2, 3].contains(&more)
            },
            "an emission that neither skips nor takes out nor writes"
        );
        Counts {
            skipped: u64::from(stays),
            taken_out: u64::from(!stays && more == 0),
            ..Counts::default()
        }
    }

    /// Whether both encoders stand at the same place. The emissions alone leave the raw end, and no call but completing changes a word before the last few.
    fn agree(&self, call: Call) -> bool {
        let (whole, apart) = (self.whole.state(), self.apart.state());
        let from = match call {
            Call::Add(..) => whole.words.len().saturating_sub(12),
            Call::Complete => 0,
        };
        whole.count == apart.count
            && whole.command_place == apart.command_place
            && whole.before_last == apart.before_last
            && whole.last == apart.last
            && whole.words.len() == apart.words.len()
            && whole.words[from..] == apart.words[from..]
    }

    /// What the call is to answer; a refused one leaves everything as it was.
    pub fn call(&mut self, call: Call) -> Drawn {
        let given = self.state();
        let refused = |refusal| Drawn {
            refusal,
            state: given,
            ..Drawn::default()
        };
        if !self.counts.good() {
            return refused(STATE);
        }
        let full = self.counts.all().into_iter().any(|n| n + 3 > MOST);
        let kept =
            (full || self.whole.near_the_end()).then(|| (self.whole.copy(), self.apart.copy()));
        let [edge0, edge1] = self.whole.moved(call);
        let points = self.whole.emissions(call);
        if let Verdict::Refused(refusal, _) = self.whole.call(call) {
            if let Some((whole, _)) = kept {
                self.whole = whole;
            }
            return refused(refusal);
        }
        let mut counts = self.counts;
        match call {
            Call::Add(..) => {
                counts.taken += 1;
                counts.boundary += u64::from(edge0 != 0) + u64::from(edge1 != 0);
                for point in points {
                    counts = counts.plus(self.emission(point));
                }
            }
            Call::Complete => {
                let accepted = matches!(self.apart.call(call), Verdict::Accepted);
                assert!(accepted, "one encoder completes and the other does not");
            }
        }
        assert!(self.agree(call), "the emissions alone are not the call");
        if !counts.fit() {
            (self.whole, self.apart) = kept.expect("a count near the most");
            return refused(ROOM);
        }
        self.counts = counts;
        let state = self.state();
        Drawn {
            refusal: 0,
            words: state.used,
            state,
            edge0,
            edge1,
        }
    }
}
