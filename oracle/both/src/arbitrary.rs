//! Arbitrary states, lists and job files through our library: no crash, only answers of the table, every guard unharmed. Clips, readings and the calls on a state are held to
//! their exact answers, those on a state by the rules written out in `drawing`; so are doubles of any bits, mapped, added to a state or as the points of a survey, by the
//! Rust's doubles and those rules.

use crate::cases;
use crate::clips;
use crate::counts::random_counts;
use crate::doubles::{self, Sight};
use crate::drawing::{self, Counts, MOST};
use crate::grid::{self, Way};
use crate::held::STATE;
use crate::judge::{Call, Job, COORD, LIMIT, ROOM};
use crate::lent::Lent;
use crate::random::Random;
use crate::readings;
use crate::report::{Difference, Tally};
use ours::{Encoder, Point};

/// What is changed before it is compared, to show that it is found.
#[derive(Clone, Copy, PartialEq)]
pub enum Spoil {
    Nothing,
    /// Taken out is one more in an accepted call on a state.
    Count,
    /// Halves on the grid are expected at the even number.
    Grid,
}

/// What each call may refuse, by document 01's table.
const CLIP: &[u32] = &[0, 3, 5];
const NEW: &[u32] = &[0, 2, 3];
const MAP: &[u32] = &[0, 5];
const ADD: &[u32] = &[0, 4, 5, 7];
const COMPLETE: &[u32] = &[0, 4, 6, 7];
const WHOLE: &[u32] = &[0, 1, 2, 3, 5, 6, 7];
const READ: &[u32] = &[0, 7, 8, 10, 16, 17, 18];

/// A number: any bits, a small one, or one at a boundary.
fn number(random: &mut Random) -> u32 {
    match random.below(4) {
        0 => random.next() as u32,
        1 => random.below(12) as u32,
        2 => (random.between(-12, 12)) as u32,
        _ => {
            let edge = random.pick(&[
                0,
                i64::from(LIMIT),
                -i64::from(LIMIT),
                i64::from(i32::MAX),
                i64::from(i32::MIN),
            ]);
            (edge + random.between(-2, 2)) as u32
        }
    }
}

fn signed(random: &mut Random) -> i32 {
    number(random) as i32
}

/// A figure of a state: around a list's length, or anything.
fn figure(random: &mut Random, near: usize) -> usize {
    match random.below(6) {
        0 => random.next() as usize,
        1 => 1 << random.below(64),
        2 => random.below(4),
        _ => (near + 3).saturating_sub(random.below(7)),
    }
}

fn edges(random: &mut Random) -> [i32; 4] {
    if random.chance(3) {
        return [0; 4].map(|_| signed(random));
    }
    let (x, y) = (
        random.between(-20, 20) as i32,
        random.between(-20, 20) as i32,
    );
    [
        x,
        x + random.between(0, 20) as i32,
        y,
        y + random.between(0, 20) as i32,
    ]
}

fn point(random: &mut Random) -> Point {
    let is_set = if random.chance(8) {
        number(random)
    } else {
        random.below(2) as u32
    };
    let tame = !random.chance(6);
    let mut coordinate = || {
        if tame {
            random.between(-25, 25) as i32
        } else {
            signed(random)
        }
    };
    Point {
        is_set,
        x: coordinate(),
        y: coordinate(),
    }
}

/// A state whose every figure is arbitrary.
fn any_state(random: &mut Random, room: usize) -> Encoder {
    let near = random.below(room + 1);
    let used = figure(random, near);
    let last = used.min(1 << 20).saturating_sub(random.below(5));
    let [x_min, x_max, y_min, y_max] = edges(random);
    Encoder {
        kind: if random.chance(8) {
            number(random)
        } else {
            random.between(1, 3) as u32
        },
        count: figure(random, (used / 2).min(1 << 20)) as u32,
        used,
        cmd_offset: figure(random, last),
        x_min,
        x_max,
        y_min,
        y_max,
        xy_end: point(random),
        pt0: point(random),
        pt1: point(random),
        ..Encoder::default()
    }
}

/// A state that breaks no rule but, it may be, that of the counts: a small box, the points in it and around it.
fn tame_state(random: &mut Random, room: usize) -> Encoder {
    let used = random.below(room + 1);
    let count = random.below(used / 2 + 2) as u32 * u32::from(used > 0);
    let x_max = random.between(1, 4) as i32;
    let y_max = random.between(1, 4) as i32;
    let mut point = |around: i64| Point {
        is_set: u32::from(!random.chance(5)),
        x: random.between(-around, i64::from(x_max) + around) as i32,
        y: random.between(-around, i64::from(y_max) + around) as i32,
    };
    let (xy_end, mut pt0, mut pt1) = (point(3), point(0), point(0));
    // Now and then both on an edge, where the next point may take out the last.
    if random.chance(3) {
        (pt0.y, pt1.y) = (y_max, y_max);
    }
    Encoder {
        xy_end,
        pt0,
        pt1,
        kind: random.between(1, 3) as u32,
        count,
        used,
        cmd_offset: random.below(used.max(1)),
        x_max,
        y_max,
        ..Encoder::default()
    }
}

/// A state of either sort, most with counts.
pub fn state(random: &mut Random, room: usize) -> Encoder {
    let state = if random.chance(2) {
        any_state(random, room)
    } else {
        tame_state(random, room)
    };
    if random.chance(8) {
        state
    } else {
        random_counts(random).put(state)
    }
}

fn list(random: &mut Random, most: usize) -> Vec<u32> {
    let length = random.below(most + 1);
    (0..length).map(|_| number(random)).collect()
}

/// Words that read well for a while: commands with counts about as large as what follows, and those of most ClosePaths 1.
fn geometry(random: &mut Random) -> Vec<u32> {
    let mut words = Vec::new();
    for _ in 0..random.below(5) {
        let id = random.pick(&[1, 1, 1, 2, 2, 2, 7, 7, 7, 0, 3]);
        let count = match random.below(8) {
            0 => random.below(4) as u32,
            _ if id == 7 => 1,
            _ => 1 + random.below(3) as u32,
        };
        words.push(id + 8 * count);
        if id != 7 {
            for _ in 0..2 * count {
                words.push(number(random));
            }
        }
    }
    words.truncate(words.len().saturating_sub(usize::from(random.chance(4))));
    words
}

struct Said {
    call: &'static str,
    refusal: u32,
    allowed: &'static [u32],
    /// The counts are within their lists, and zero where refused; the state is given back.
    sound: bool,
    guarded: bool,
}

fn clip(random: &mut Random) -> Said {
    let [x0, y0, x1, y1] = [0; 4].map(|_| signed(random));
    let [left, right, bottom, top] = edges(random);
    let given = ours::clip([x0, y0, x1, y1], [left, right, bottom, top]);
    let sound = clips::differs(&[x0, y0, x1, y1, left, right, bottom, top], false).is_none();
    Said {
        call: "clips",
        refusal: given.refusal,
        allowed: CLIP,
        sound,
        guarded: true,
    }
}

fn start(random: &mut Random) -> Said {
    let given = ours::encoder(number(random), edges(random));
    let sound = given.refusal == 0 || given.state == Encoder::default();
    Said {
        call: "fresh states",
        refusal: given.refusal,
        allowed: NEW,
        sound,
        guarded: true,
    }
}

/// The state without what means nothing: where a point that is not set would be.
fn meant(state: Encoder) -> Encoder {
    let point = |point: Point| match point.is_set {
        0 => Point::default(),
        _ => point,
    };
    Encoder {
        xy_end: point(state.xy_end),
        pt0: point(state.pt0),
        pt1: point(state.pt1),
        ..state
    }
}

/// A call on a state: by the rules written out, its answer and every word. A refused one gives the state back in every field.
fn draw(random: &mut Random, spoil: Spoil, tally: &mut Tally) -> Said {
    let room = random.below(24);
    let mut words = Lent::new(room);
    let state = state(random, room);
    let coordinate = |random: &mut Random| match random.below(3) {
        0 => signed(random),
        _ => random.between(-4, 8) as i32,
    };
    let (call, name, allowed) = if random.chance(4) {
        (Call::Complete, "states completed", COMPLETE)
    } else {
        let (x, y) = (coordinate(random), coordinate(random));
        (Call::Add(x, y), "points added to states", ADD)
    };
    let (wanted, front) = drawing::drawn(state, call, words.words());
    let (free, _) = drawing::drawn(Counts::default().put(state), call, words.words());
    let mut given = match call {
        Call::Add(x, y) => state.add_point(x, y, words.words()),
        Call::Complete => state.complete_geom(words.words()),
    };
    if spoil == Spoil::Count && given.refusal == 0 {
        given.state.taken_out = given.state.taken_out.wrapping_add(1);
    }
    let same = if wanted.refusal == 0 {
        meant(given.state) == meant(wanted.state)
    } else {
        given.state == state
    };
    let answer = (given.refusal, given.words, given.edge0, given.edge1);
    let expected = (wanted.refusal, wanted.words, wanted.edge0, wanted.edge1);
    let sound = same && answer == expected && words.differs(front.into_iter()).is_none();
    match wanted.refusal {
        STATE if free.refusal != STATE => tally.add("refused as STATE for the counts alone", 1),
        ROOM if free.refusal == 0 => tally.add("refused as ROOM for a count alone", 1),
        0 if Counts::of(&wanted.state).all().contains(&MOST) => {
            tally.add("accepted with a count at the most", 1)
        }
        _ => (),
    }
    let Counts {
        taken,
        boundary,
        skipped,
        taken_out,
    } = Counts::of(&state);
    if wanted.refusal != STATE && skipped + taken_out == taken + boundary {
        tally.add("good states with all thrown away", 1);
    }
    Said {
        call: name,
        refusal: given.refusal,
        allowed,
        sound,
        guarded: words.guarded(),
    }
}

/// Arbitrary lists, or those of a job file: a good one, one with bytes changed, or arbitrary numbers.
fn whole(random: &mut Random) -> Said {
    let job = match random.below(3) {
        0 => None,
        _ => {
            let mut file = cases::random_job(random, &[1, 2, 3]);
            for _ in 0..random.below(4) {
                let at = random.below(file.len());
                file[at] = random.next() as u8;
            }
            file.truncate(file.len() - random.pick(&[0, 0, 0, 1, 4, 8]));
            Job::of_file(&file, usize::MAX)
        }
    };
    let job = job.unwrap_or_else(|| Job {
        kind: number(random),
        edges: edges(random),
        ends: list(random, 4),
        points: list(random, 12).into_iter().map(|n| n as i32).collect(),
        room: 0,
    });
    let room = random.below(40);
    let mut words = Lent::new(room);
    let way = random.below(3);
    let named = way == 0;
    let entries = random.below(16);
    let mut moved = Lent::new(entries);
    let mut state_sound = true;
    let (call, given) = if named {
        let (words, moved) = (words.words(), moved.words());
        let given =
            ours::encode_job_edges(job.kind, job.edges, &job.points, &job.ends, words, moved);
        ("whole jobs with edges", given)
    } else if way == 1 {
        let given =
            ours::encode_job_state(job.kind, job.edges, &job.points, &job.ends, words.words());
        let counts = Counts::of(&given.state);
        state_sound = match given.refusal {
            0 => counts.good() && counts.taken == given.points as u64,
            _ => given.state == Encoder::default(),
        };
        let given = ours::Job {
            refusal: given.refusal,
            points: given.points,
            words: given.state.used,
        };
        ("whole jobs with their state", given)
    } else {
        let given = ours::encode_job(job.kind, job.edges, &job.points, &job.ends, words.words());
        ("whole jobs", given)
    };
    let written = if named { 2 * given.points } else { 0 };
    let sound = state_sound
        && given.words <= room
        && given.points <= job.points.len() / 2
        && (given.refusal == 0 || given.words == 0)
        && written <= entries
        && moved.kept_from(written)
        && moved.words()[..written].iter().all(|edge| *edge <= 4);
    Said {
        call,
        refusal: given.refusal,
        allowed: WHOLE,
        sound,
        guarded: words.guarded() && moved.guarded(),
    }
}

/// Doubles of any bits, or such as the comparison has; half of them by a map that brings them into a small box or near it.
fn sight(random: &mut Random) -> Sight {
    match random.below(4) {
        0 => doubles::of_numbers([0; 8].map(|_| doubles::any(random))),
        1 => doubles::sight(random),
        _ => {
            let map = doubles::survey_map(random);
            let to = [0; 2].map(|_| random.between(-4, 8) as i32);
            let [x, y] = doubles::back(random, map, to);
            Sight { map, x, y }
        }
    }
}

fn way(spoil: Spoil) -> Way {
    match spoil {
        Spoil::Grid => Way::Even,
        _ => Way::Right,
    }
}

/// A surveyed point on the grid.
fn map(random: &mut Random, spoil: Spoil) -> Said {
    let Sight { map, x, y } = sight(random);
    let given = map.point(x, y);
    let wanted = match grid::grid(way(spoil), map, x, y) {
        [Some(x), Some(y)] => (0, x, y),
        _ => (COORD, 0, 0),
    };
    Said {
        call: "points mapped",
        refusal: given.refusal,
        allowed: MAP,
        sound: (given.refusal, given.x, given.y) == wanted,
        guarded: true,
    }
}

/// A surveyed point added to a state: by the rules written out for its grid point, the answer and every word.
fn draw_surveyed(random: &mut Random, spoil: Spoil) -> Said {
    let room = random.below(24);
    let mut words = Lent::new(room);
    let state = state(random, room);
    let Sight { map, x, y } = sight(random);
    let [to_x, to_y] = grid::place(way(spoil), map, x, y);
    let (wanted, front) = drawing::drawn(state, Call::Add(to_x, to_y), words.words());
    let given = state.add_surveyed(map, x, y, words.words());
    let same = if wanted.refusal == 0 {
        meant(given.state) == meant(wanted.state)
    } else {
        given.state == state
    };
    let answer = (given.refusal, given.words, given.edge0, given.edge1);
    let expected = (wanted.refusal, wanted.words, wanted.edge0, wanted.edge1);
    Said {
        call: "surveyed points added to states",
        refusal: given.refusal,
        allowed: ADD,
        sound: same && answer == expected && words.differs(front.into_iter()).is_none(),
        guarded: words.guarded(),
    }
}

/// A whole survey of arbitrary lists: answer and words are those of our job of the grid points.
fn survey(random: &mut Random, spoil: Spoil) -> Said {
    let Sight { map, .. } = sight(random);
    let any = random.chance(2);
    let mut points = Vec::new();
    for _ in 0..random.below(6) {
        let Sight { x, y, .. } = sight(random);
        let to = [0; 2].map(|_| random.between(-4, 14) as i32);
        let near = doubles::back(random, map, to);
        points.extend(if any { [x, y] } else { near });
    }
    if random.chance(6) {
        points.push(doubles::any(random));
    }
    let count = (points.len() / 2) as u32;
    let ends = match random.below(3) {
        0 => list(random, 4),
        _ => vec![random.below(count as usize + 1) as u32, count],
    };
    let kind = match random.below(6) {
        0 => number(random),
        _ => random.between(1, 3) as u32,
    };
    let edges = edges(random);
    let room = random.below(40);
    let (mut words, mut others) = (Lent::new(room), Lent::new(room));
    let given = ours::encode_survey(kind, edges, map, &points, &ends, words.words());
    let mut places = Vec::new();
    for pair in points.chunks(2) {
        let y = pair.get(1).copied().unwrap_or(0.0);
        places.extend(&grid::place(way(spoil), map, pair[0], y)[..pair.len()]);
    }
    let wanted = ours::encode_job(kind, edges, &places, &ends, others.words());
    Said {
        call: "whole surveys",
        refusal: given.refusal,
        allowed: WHOLE,
        sound: (given.refusal, given.points, given.words)
            == (wanted.refusal, wanted.points, wanted.words)
            && words == others,
        guarded: words.guarded(),
    }
}

/// A reading: by the independent one its answer, the place in it, and every number.
fn read(random: &mut Random) -> Said {
    let words = if random.chance(2) {
        geometry(random)
    } else {
        list(random, 12)
    };
    let room = random.below(40);
    let mut out = Lent::new(room);
    let given = ours::decode(&words, out.signed());
    Said {
        call: "words read",
        refusal: given.refusal,
        allowed: READ,
        sound: readings::differs(&words, room, readings::Spoil::Nothing).is_none(),
        guarded: out.guarded(),
    }
}

pub fn run(seed: u64, count: usize, spoil: Spoil, tally: &mut Tally) -> Option<Difference> {
    for at in 0..count {
        let mut random = Random::new(
            seed.wrapping_add(at as u64)
                .wrapping_mul(0xD134_2543_DE82_EF95),
        );
        let turn = at % 11;
        let said = match turn {
            0 => clip(&mut random),
            1 => start(&mut random),
            2..=4 => draw(&mut random, spoil, tally),
            5 | 6 => whole(&mut random),
            7 => read(&mut random),
            8 => map(&mut random, spoil),
            9 => draw_surveyed(&mut random, spoil),
            _ => survey(&mut random, spoil),
        };
        if !said.allowed.contains(&said.refusal) || !said.sound || !said.guarded {
            let what = format!(
                "{}: refusal {}, counts and state sound: {}, guards whole: {}",
                said.call, said.refusal, said.sound, said.guarded
            );
            return Some(Difference {
                what,
                input: format!("case {at} of seed {seed}"),
            });
        }
        tally.add(said.call, 1);
        if said.refusal == 0 {
            tally.add("accepted", 1);
        }
        if turn == 7 {
            tally.add(readings::answer(said.refusal), 1);
        }
        if turn == 0 {
            tally.add(
                [
                    "clips accepted",
                    "",
                    "",
                    "clips refused as BOX",
                    "",
                    "clips refused as COORD",
                ][said.refusal as usize],
                1,
            );
        }
    }
    None
}
