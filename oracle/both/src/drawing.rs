//! A call on any state, written out: document 01's rules of STATE, of adding a point and of completing, with the four counts of request (ix). Only the cut is asked of
//! the Rust. Arbitrary states are judged by it; where the Rust has the state too, the two are held against each other.

use crate::held::STATE;
use crate::judge::{self, Call, COORD, EMPTY, MAX_WORDS, ROOM};
use ours::{Drawn, Encoder, Point};

/// The most that a count can be.
pub const MOST: u64 = 4_294_967_295;

const POINTS: u32 = 1;
const POLYGON: u32 = 3;
const MOVE_TO: u32 = 1;
const LINE_TO: u32 = 2;
const CLOSE_PATH: u32 = 15;

/// What was taken and what was thrown away since the fresh state, not limited.
#[derive(Clone, Copy, Debug, Default, PartialEq)]
pub struct Counts {
    /// Points that were added.
    pub taken: u64,
    /// Ends that the clip moved, also those that were skipped then.
    pub boundary: u64,
    /// Emissions that are equal to the last emitted point.
    pub skipped: u64,
    /// Points that were taken out again.
    pub taken_out: u64,
}

impl From<[u64; 4]> for Counts {
    fn from([taken, boundary, skipped, taken_out]: [u64; 4]) -> Self {
        Counts {
            taken,
            boundary,
            skipped,
            taken_out,
        }
    }
}

impl Counts {
    pub fn of(state: &Encoder) -> Self {
        let counts = [state.taken, state.boundary, state.skipped, state.taken_out];
        Counts::from(counts.map(u64::from))
    }

    pub fn all(self) -> [u64; 4] {
        [self.taken, self.boundary, self.skipped, self.taken_out]
    }

    /// The state with these counts, which fit.
    pub fn put(self, state: Encoder) -> Encoder {
        let [taken, boundary, skipped, taken_out] = self.all().map(|n| n as u32);
        Encoder {
            taken,
            boundary,
            skipped,
            taken_out,
            ..state
        }
    }

    pub fn plus(self, more: Counts) -> Counts {
        Counts {
            taken: self.taken + more.taken,
            boundary: self.boundary + more.boundary,
            skipped: self.skipped + more.skipped,
            taken_out: self.taken_out + more.taken_out,
        }
    }

    /// The rule of STATE: no more was thrown away than there was.
    pub fn good(self) -> bool {
        self.skipped + self.taken_out <= self.taken + self.boundary
    }

    /// Whether none passes the most, which is ROOM.
    pub fn fit(self) -> bool {
        self.all().into_iter().all(|n| n <= MOST)
    }
}

fn edges(state: &Encoder) -> [i32; 4] {
    [state.x_min, state.x_max, state.y_min, state.y_max]
}

/// Document 01's rules of STATE, and that of the counts.
pub fn good_state(state: &Encoder, room: usize) -> bool {
    let stored = |point: Point| match point.is_set {
        0 => true,
        1 => judge::within(point.x) && judge::within(point.y),
        _ => false,
    };
    state.used <= room.min(MAX_WORDS)
        && state.count as usize <= state.used / 2 + 1
        && (state.count == 0 || state.cmd_offset < state.used)
        && (1..=3).contains(&state.kind)
        && judge::good_box(edges(state))
        && [state.xy_end, state.pt0, state.pt1].into_iter().all(stored)
        && Counts::of(state).good()
}

fn parameter(n: i64) -> u32 {
    (if n >= 0 { 2 * n } else { -2 * n - 1 }) as u32
}

/// Whether the middle number lies strictly between the others.
fn between(a: i32, middle: i32, b: i32) -> bool {
    (a < middle && middle < b) || (a > middle && middle > b)
}

/// In the middle of a call: words and counts as if there were no limit.
struct Drawing {
    state: Encoder,
    words: Vec<u32>,
    counts: Counts,
}

impl Drawing {
    fn command(&mut self, word: u32) {
        self.state.cmd_offset = self.words.len();
        self.words.push(word);
    }

    /// Whether the last emitted point is to be taken out before this one.
    fn takes_out(&self, x: i32, y: i32) -> bool {
        let Encoder {
            kind,
            count,
            pt0,
            pt1,
            ..
        } = self.state;
        let upright = pt0.x == pt1.x && pt1.x == x && between(pt0.y, pt1.y, y);
        let level = pt0.y == pt1.y && pt1.y == y && between(pt0.x, pt1.x, x);
        kind == POLYGON && count >= 2 && pt0.is_set == 1 && pt1.is_set == 1 && (upright || level)
    }

    fn emit(&mut self, x: i32, y: i32) {
        let [x_min, x_max, y_min, y_max] = edges(&self.state);
        let (x, y) = (x.max(x_min).min(x_max), y.max(y_min).min(y_max));
        let point = Point { is_set: 1, x, y };
        if self.state.pt1 == point {
            self.counts.skipped += 1;
            self.state.count = self.state.count.max(1);
            return;
        }
        match (self.state.count, self.state.kind) {
            (0, _) => self.command(MOVE_TO + 8),
            (1, kind) if kind != POINTS => self.command(LINE_TO + 8),
            _ => (),
        }
        let from = if self.takes_out(x, y) {
            self.counts.taken_out += 1;
            self.words.truncate(self.words.len() - 2);
            self.state.pt0
        } else {
            self.state.count += 1;
            self.state.pt1
        };
        let (from_x, from_y) = if from.is_set == 1 {
            (from.x, from.y)
        } else {
            (0, 0)
        };
        self.words.push(parameter(i64::from(x) - i64::from(from_x)));
        self.words.push(parameter(i64::from(y) - i64::from(from_y)));
        (self.state.pt0, self.state.pt1) = (from, point);
    }

    /// The point with the ends that the clip moved before it; their edges.
    fn add(&mut self, x: i32, y: i32) -> [u32; 2] {
        let mut moved = [0; 2];
        if self.state.kind != POINTS {
            let from = self.state.xy_end;
            if from.is_set == 1 {
                let segment = [from.x, from.y, x, y];
                let (cut, named) = judge::named_clip(segment, edges(&self.state));
                for (end, edge) in cut.chunks(2).zip(named) {
                    if edge != 0 {
                        self.counts.boundary += 1;
                        self.emit(end[0], end[1]);
                    }
                }
                moved = named;
            }
            self.state.xy_end = Point { is_set: 1, x, y };
        }
        self.counts.taken += 1;
        self.emit(x, y);
        moved
    }

    /// Kind and count tell the command.
    fn complete(&mut self) {
        let Encoder {
            kind,
            count,
            cmd_offset,
            ..
        } = self.state;
        if kind == POINTS {
            self.words[cmd_offset] = MOVE_TO + 8 * count;
            return;
        }
        if count > 1 {
            self.words[cmd_offset] = LINE_TO + 8 * (count - 1);
            if kind == POLYGON {
                self.command(CLOSE_PATH);
            }
        }
        self.state.count = 0;
        self.state.xy_end = Point::default();
        self.state.pt0 = Point::default();
    }
}

/// What the call answers, and the words that stand at the front of the list after it; `list` is all that is lent. A refused call leaves its used words.
pub fn drawn(given: Encoder, call: Call, list: &[u32]) -> (Drawn, Vec<u32>) {
    let words = list[..given.used.min(list.len())].to_vec();
    let refused = |refusal| {
        let answer = Drawn {
            refusal,
            state: given,
            ..Drawn::default()
        };
        (answer, words.clone())
    };
    if !good_state(&given, list.len()) {
        return refused(STATE);
    }
    let mut drawing = Drawing {
        state: given,
        words: words.clone(),
        counts: Counts::of(&given),
    };
    let [edge0, edge1] = match call {
        Call::Add(x, y) => {
            if !judge::within(x) || !judge::within(y) {
                return refused(COORD);
            }
            drawing.add(x, y)
        }
        Call::Complete => {
            if given.kind == POINTS && given.count == 0 {
                return refused(EMPTY);
            }
            drawing.complete();
            [0; 2]
        }
    };
    let used = drawing.words.len();
    if used > list.len().min(MAX_WORDS) || !drawing.counts.fit() {
        return refused(ROOM);
    }
    let answer = Drawn {
        refusal: 0,
        words: used,
        state: Encoder {
            used,
            ..drawing.counts.put(drawing.state)
        },
        edge0,
        edge1,
    };
    (answer, drawing.words)
}
