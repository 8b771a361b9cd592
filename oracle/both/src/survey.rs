//! Surveyed points (document 02, request (x)): each on the grid by the Rust's own doubles; added to a state as its grid point is; whole surveys as the jobs of their grid
//! points, by our library and by the Rust. The Rust maps nothing onto whole numbers before it cuts: its `f64` alone is asked, and its encoder with the grid points.

use crate::arbitrary;
use crate::cases;
use crate::doubles::{self, Sight, BELOW_HALF, EDGE, IDENTITY};
use crate::grid::{self, Way, WRONG};
use crate::held::STATE;
use crate::jobs;
use crate::judge::{self, Call, Job, COORD, LIMIT, ROOM};
use crate::lent::Lent;
use crate::random::Random;
use crate::report::{Difference, Tally};
use crate::shrink;
use ours::{Affine, Drawn, Encoder, Mapped};
use std::panic::{catch_unwind, AssertUnwindSafe};

/// What is changed before it is compared, to show that it is found.
#[derive(Clone, Copy, PartialEq)]
pub enum Spoil {
    Nothing,
    /// The grid is expected by a way that is wrong somewhere.
    Grid(Way),
    /// COORD is expected before STATE.
    State,
    /// ROOM is expected before COORD.
    Room,
    /// A word of a whole survey of ours.
    Word,
    /// An odd list is expected to be taken without its last double.
    Odd,
    /// From the 257th point on, a point is expected where the one before it is.
    Block,
}

impl Spoil {
    fn way(self) -> Way {
        match self {
            Spoil::Grid(way) => way,
            _ => Way::Right,
        }
    }
}

// ---- points

/// Sights with their grid points written out: a to f, x, y; x and y on the grid, where it has both.
type Written = ([f64; 8], Option<[i32; 2]>);

const MOST: f64 = f64::MAX;
const INF: f64 = f64::INFINITY;
const NAN: f64 = f64::NAN;

const fn at(x: f64, y: f64) -> [f64; 8] {
    [1.0, 0.0, 0.0, 0.0, 1.0, 0.0, x, y]
}

const WRITTEN: [Written; 31] = [
    (at(0.0, -0.0), Some([0, 0])),
    (at(BELOW_HALF, 0.5), Some([0, 1])),
    (at(-0.5, -BELOW_HALF), Some([-1, 0])),
    (at(1.5, 2.5), Some([2, 3])),
    (at(-1.5, -2.5), Some([-2, -3])),
    (at(5e-324, -5e-324), Some([0, 0])),
    (at(1073741823.0, -1073741823.0), Some([LIMIT, -LIMIT])),
    // The neighbours of the limit's end.
    (
        at(1073741823.4999999, -1073741823.4999999),
        Some([LIMIT, -LIMIT]),
    ),
    (at(EDGE, 0.0), None),
    (at(-EDGE, 0.0), None),
    (at(0.0, EDGE), None),
    (at(0.0, -EDGE), None),
    (at(1073741823.5000001, 0.0), None),
    (at(1073741824.0, 0.0), None),
    (at(4294967296.0, 0.0), None),
    (at(18446744073709551616.0, 0.0), None),
    (at(MOST, 0.0), None),
    // Not finite, whatever they are multiplied by.
    (at(NAN, 0.0), None),
    (at(0.0, NAN), None),
    (at(INF, 0.0), None),
    (at(0.0, -INF), None),
    ([0.0, 0.0, 0.0, 0.0, 0.0, 0.0, INF, 0.0], None),
    ([2.0, 0.0, 0.0, 0.0, 1.0, 0.0, MOST, 0.0], None),
    ([2.0, -2.0, 0.0, 0.0, 0.0, 0.0, MOST, MOST], None),
    // The six by their places.
    (
        [2.0, 3.0, 5.0, 7.0, 11.0, 13.0, 17.0, 19.0],
        Some([96, 341]),
    ),
    (
        [2.0, 3.0, 5.0, 7.0, 11.0, 13.0, -17.0, 19.0],
        Some([28, 103]),
    ),
    // The products are rounded each, then the sums from the left.
    (
        [
            134217729.0,
            -1.0,
            0.0,
            0.0,
            0.0,
            0.0,
            134217729.0,
            18014398777917440.0,
        ],
        Some([0, 0]),
    ),
    ([1.0, 1.0, 1.0, 1.0, 1.0, -1.0, 1e16, -1e16], Some([1, -1])),
    (
        [1.0 / 6.0, 0.0, 0.0, 0.0, -1.0 / 6.0, 0.0, 3.0, 3.0],
        Some([1, -1]),
    ),
    // A shift alone; one that is lost.
    (
        [0.0, 0.0, -7.5, 0.0, 0.0, 7.5, 1e300, -1e300],
        Some([-8, 8]),
    ),
    (
        [1.0, 1.0, 0.49, 0.0, 0.0, 0.0, 1e9, 1e-9],
        Some([1_000_000_000, 0]),
    ),
];

fn bits(sight: &Sight) -> [u64; 8] {
    doubles::numbers(sight).map(f64::to_bits)
}

fn told(sight: &Sight) -> String {
    format!("{sight:?}, bits {:x?}", bits(sight))
}

/// What the map's call is to answer.
fn expected(way: Way, sight: &Sight) -> Mapped {
    match grid::grid(way, sight.map, sight.x, sight.y) {
        [Some(x), Some(y)] => Mapped { refusal: 0, x, y },
        _ => Mapped {
            refusal: COORD,
            x: 0,
            y: 0,
        },
    }
}

fn point_differs(sight: &Sight, spoil: Spoil) -> Option<String> {
    let given = sight.map.point(sight.x, sight.y);
    let wanted = expected(spoil.way(), sight);
    (given != wanted).then(|| format!("the grid point: ours {given:?}, expected {wanted:?}"))
}

/// Doubles with less in them: none of the bits behind the last are new, so that there is an end of it.
fn simpler_doubles(number: f64) -> Vec<f64> {
    let weight = |number: f64| 64 - number.to_bits().trailing_zeros().min(64);
    let halves = (2.0 * number).round() / 2.0;
    let mut found = vec![0.0, 2.0, 1.0, number.trunc(), halves, -number];
    found.extend([20, 30, 40].map(|low| f64::from_bits(number.to_bits() >> low << low)));
    found.retain(|next| {
        weight(*next) < weight(number) || number.is_sign_negative() && *next == -number
    });
    found
}

fn simpler_sights(sight: &Sight) -> Vec<Sight> {
    let eight = doubles::numbers(sight);
    let mut found = Vec::new();
    let Affine { b, c, d, f, .. } = sight.map;
    // What the map makes of it as the point itself; of a map that only scales no other comes of it.
    if [b, c, d, f] != [0.0; 4] {
        let [x, y] = grid::rows(Way::Right, sight.map)
            .map(|row| grid::along(Way::Right, row, sight.x, sight.y));
        let map = IDENTITY;
        found.push(Sight { map, x, y });
    }
    for at in 0..8 {
        for number in simpler_doubles(eight[at]) {
            let mut next = eight;
            next[at] = number;
            found.push(doubles::of_numbers(next));
        }
    }
    found
}

const ANSWERS: [&str; 6] = [
    "points accepted",
    "points refused for a NaN",
    "points refused for an infinity",
    "points refused beyond the limit",
    "points with a half",
    "points at the limit's ends",
];

/// Of calls and of surveys.
const SEEN: [&str; 14] = [
    "calls accepted",
    "calls with STATE",
    "calls with COORD",
    "calls with ROOM",
    "surveys accepted",
    "surveys with JOB",
    "with KIND",
    "with BOX",
    "with COORD",
    "with EMPTY",
    "with ROOM",
    "with an odd list",
    "of more than 1,000 points",
    "with COORD behind 256 points",
];

/// What a sight shows, for the report: each must be seen often enough.
fn report(sight: &Sight, tally: &mut Tally) {
    let values =
        grid::rows(Way::Right, sight.map).map(|row| grid::along(Way::Right, row, sight.x, sight.y));
    let right = grid::grid(Way::Right, sight.map, sight.x, sight.y);
    tally.add("points", 1);
    tally.add(
        match right {
            [Some(_), Some(_)] => ANSWERS[0],
            _ if values.iter().any(|n| n.is_nan()) => ANSWERS[1],
            _ if values.iter().any(|n| n.is_infinite()) => ANSWERS[2],
            _ => ANSWERS[3],
        },
        1,
    );
    let has = |test: &dyn Fn(f64) -> bool| usize::from(values.iter().any(|n| test(*n)));
    tally.add(
        ANSWERS[4],
        has(&|n| n.abs() < EDGE && n.fract().abs() == 0.5),
    );
    tally.add(
        ANSWERS[5],
        has(&|n| n.abs() == EDGE || n.abs() == EDGE.next_down()),
    );
    for (way, name) in WRONG {
        let other = expected(way, sight) != expected(Way::Right, sight);
        tally.add(name, usize::from(other));
    }
}

fn point(sight: Sight, spoil: Spoil, tally: &mut Tally) -> Option<Difference> {
    if point_differs(&sight, spoil).is_some() {
        let again = |sight: &Sight| point_differs(sight, spoil);
        let (sight, what) = shrink::smallest(sight, &again, &simpler_sights);
        return Some(Difference {
            what,
            input: told(&sight),
        });
    }
    report(&sight, tally);
    None
}

/// Those that are written out, by the Rust's doubles and by ours.
fn written(tally: &mut Tally) -> Option<Difference> {
    for (numbers, wanted) in WRITTEN {
        let sight = doubles::of_numbers(numbers);
        let said = expected(Way::Right, &sight);
        let by_hand = match wanted {
            Some([x, y]) => Mapped { refusal: 0, x, y },
            None => Mapped {
                refusal: COORD,
                x: 0,
                y: 0,
            },
        };
        if said != by_hand {
            return Some(Difference {
                what: format!("the Rust's doubles say {said:?}, written out {by_hand:?}"),
                input: told(&sight),
            });
        }
        if let Some(found) = point(sight, Spoil::Nothing, tally) {
            return Some(found);
        }
    }
    None
}

/// Which of the answers and of the wrong ways was seen too rarely to say that it was tried: not more than once in a thousand points, calls or surveys.
fn unseen(count: usize, tally: &Tally) -> Option<Difference> {
    let of_points = ANSWERS.into_iter().chain(WRONG.map(|(_, name)| name));
    let rare = of_points.filter(|name| tally.count(name) <= count / 1000);
    let others = SEEN.into_iter();
    let found: Vec<&str> = rare
        .chain(others.filter(|name| tally.count(name) <= count / 10_000))
        .collect();
    (!found.is_empty()).then(|| Difference {
        what: format!("seen too rarely: {}", found.join(", ")),
        input: "the whole run".into(),
    })
}

// ---- calls on a state

/// What adding the surveyed point is to answer and to leave in the list: what our library gives for its grid point, for which it is held against the Rust elsewhere.
fn by_place(state: Encoder, sight: &Sight, list: &mut Lent, spoil: Spoil) -> Drawn {
    let [x, y] = grid::place(spoil.way(), sight.map, sight.x, sight.y);
    let far = !judge::within(x) || !judge::within(y);
    let refused = |refusal| Drawn {
        refusal,
        state,
        ..Drawn::default()
    };
    if far && spoil == Spoil::State {
        return refused(COORD);
    }
    if far && spoil == Spoil::Room && state.used == list.words().len() {
        let drawn = state.add_point(LIMIT, LIMIT, list.words());
        return if drawn.refusal == ROOM {
            drawn
        } else {
            refused(COORD)
        };
    }
    state.add_point(x, y, list.words())
}

/// The call on both lists, which are alike before it; they must be alike after it too.
fn call_differs(
    state: Encoder,
    sight: &Sight,
    [ours, other]: [&mut Lent; 2],
    spoil: Spoil,
) -> Result<Drawn, String> {
    let given = state.add_surveyed(sight.map, sight.x, sight.y, ours.words());
    let wanted = by_place(state, sight, other, spoil);
    if given != wanted {
        return Err(format!("ours {given:?}, expected {wanted:?}"));
    }
    if *ours != *other {
        return Err("other words than those of the grid point".into());
    }
    Ok(given)
}

/// A call on any state, good or bad, in a list that is often too short.
#[derive(Clone, Debug)]
struct Carried {
    state: Encoder,
    sight: Sight,
    room: usize,
}

fn carried_differs(case: &Carried, spoil: Spoil) -> Result<Drawn, String> {
    let mut lists = [Lent::new(case.room), Lent::new(case.room)];
    let [ours, other] = &mut lists;
    call_differs(case.state, &case.sight, [ours, other], spoil)
}

fn carried(random: &mut Random) -> Carried {
    let room = random.below(24);
    let state = arbitrary::state(random, room);
    // Half of the points in and around a small box, where the state's points are.
    let sight = if random.chance(2) {
        doubles::sight(random)
    } else {
        let map = doubles::survey_map(random);
        let to = [0; 2].map(|_| random.between(-4, 8) as i32);
        let [x, y] = doubles::back(random, map, to);
        Sight { map, x, y }
    };
    Carried { state, sight, room }
}

fn carried_one(case: Carried, spoil: Spoil, tally: &mut Tally) -> Option<Difference> {
    let drawn = match carried_differs(&case, spoil) {
        Ok(drawn) => drawn,
        Err(_) => {
            let again = |case: &Carried| carried_differs(case, spoil).err();
            let simpler = |case: &Carried| {
                let sights = simpler_sights(&case.sight).into_iter();
                sights.map(|sight| Carried { sight, ..*case }).collect()
            };
            let (case, what) = shrink::smallest(case, &again, &simpler);
            return Some(Difference {
                what: format!("a point added to a state: {what}"),
                input: format!("{case:?}"),
            });
        }
    };
    tally.add("points added to any state", 1);
    match drawn.refusal {
        0 => tally.add("calls accepted", 1),
        STATE => tally.add("calls with STATE", 1),
        COORD => tally.add("calls with COORD", 1),
        _ => tally.add("calls with ROOM", 1),
    }
    None
}

// ---- whole surveys

/// A job whose points are doubles, with their map.
#[derive(Clone, Debug)]
struct Survey {
    kind: u32,
    edges: [i32; 4],
    map: Affine,
    ends: Vec<u32>,
    points: Vec<f64>,
    room: usize,
}

/// What a lone last double is on the grid does not matter: the list is odd.
fn places(survey: &Survey, spoil: Spoil) -> Vec<i32> {
    let mut found = Vec::new();
    for pair in survey.points.chunks(2) {
        match *pair {
            [x, y] => found.extend(grid::place(spoil.way(), survey.map, x, y)),
            _ if spoil == Spoil::Odd => (),
            _ => found.push(0),
        }
    }
    if spoil == Spoil::Block && found.len() > 514 {
        found.copy_within(510..512, 512);
    }
    found
}

impl Survey {
    /// The job of the grid points.
    fn job(&self, spoil: Spoil) -> Job {
        Job {
            kind: self.kind,
            edges: self.edges,
            ends: self.ends.clone(),
            points: places(self, spoil),
            room: self.room,
        }
    }

    /// The job as a survey by any map; now and then with numbers that are not finite or far away, or with a double less.
    fn of_job(job: Job, random: &mut Random) -> Survey {
        let map = doubles::survey_map(random);
        let mut points: Vec<f64> = Vec::new();
        for pair in job.points.chunks(2) {
            let to = [pair[0], pair.get(1).copied().unwrap_or(0)];
            let numbers = doubles::back(random, map, to);
            points.extend(&numbers[..pair.len()]);
        }
        let mut survey = Survey {
            kind: job.kind,
            edges: job.edges,
            map,
            ends: job.ends,
            points,
            room: job.room,
        };
        survey.damage(random);
        survey
    }

    /// Another number in the place of one, at the ends of blocks too.
    fn strike(&mut self, random: &mut Random, number: f64) {
        let length = self.points.len();
        let any = random.below(length);
        let block = 512 * random.below(length / 512 + 1) + random.below(2);
        let at = random.pick(&[
            any,
            block.min(length - 1),
            block.saturating_sub(2),
            length - 1,
        ]);
        self.points[at] = number;
    }

    fn damage(&mut self, random: &mut Random) {
        if self.points.is_empty() {
            return;
        }
        if random.chance(8) {
            let number = match random.below(3) {
                0 => doubles::any(random),
                1 => doubles::target(random),
                _ => doubles::special(random),
            };
            self.strike(random, number);
        }
        if random.chance(24) {
            self.points.pop();
        }
        if random.chance(32) {
            let mut six = doubles::numbers(&Sight {
                map: self.map,
                x: 0.0,
                y: 0.0,
            });
            six[random.below(6)] = doubles::special(random);
            self.map = doubles::of_numbers(six).map;
        }
    }
}

/// More than a thousand points in several parts, so that there are blocks within a part, parts that end where a block does or beside it, and a refusal in any of them.
fn long(random: &mut Random) -> Survey {
    let size = random.pick(&[4i64, 40, 4096]);
    let around = size / 2 + 2;
    let mut count = 0;
    let mut ends = Vec::new();
    for _ in 0..random.between(2, 5) {
        count += match random.below(3) {
            0 => random.between(0, 300),
            1 => 256 * random.between(1, 3) + random.between(-1, 2),
            _ => random.between(200, 900),
        };
        ends.push(count as u32);
    }
    if count <= 1000 {
        count = 1001 + random.between(0, 600);
        ends.push(count as u32);
    }
    let mut any = || random.between(-around, size + around) as i32;
    let job = Job {
        points: (0..2 * count).map(|_| any()).collect(),
        kind: random.pick(&[1, 2, 2, 3, 3]),
        edges: [0, size as i32, 0, size as i32],
        ends,
        room: 0,
    };
    let mut survey = Survey::of_job(job, random);
    if random.chance(2) {
        let number = random.pick(&[NAN, INF, -INF, EDGE, -EDGE, 1e300]);
        survey.strike(random, number);
    }
    survey
}

/// The points one by one, by both calls: after each the same answer and the same words. Parts are completed between them.
fn calls_differ(survey: &Survey, spoil: Spoil) -> Option<String> {
    let job = survey.job(Spoil::Nothing);
    if job.refused_at_once() != 0 {
        return None;
    }
    let mut lists = [Lent::new(survey.room), Lent::new(survey.room)];
    let mut state = ours::encoder(job.kind, job.edges).state;
    let mut points = survey.points.chunks_exact(2);
    for (number, call) in job.calls().into_iter().enumerate() {
        let [ours, other] = &mut lists;
        let drawn = match call {
            Call::Complete => {
                state.complete_geom(other.words());
                Ok(state.complete_geom(ours.words()))
            }
            Call::Add(..) => {
                let pair = points.next().expect("as many points as calls for them");
                let sight = Sight {
                    map: survey.map,
                    x: pair[0],
                    y: pair[1],
                };
                call_differs(state, &sight, [ours, other], spoil)
            }
        };
        match drawn {
            Ok(drawn) => state = drawn.state,
            Err(what) => return Some(format!("call {}: {what}", number + 1)),
        }
    }
    None
}

/// The survey through our library: its answer and every word are those that the Rust gives for the grid points, and those of our own job of them.
fn whole_differs(survey: &Survey, spoil: Spoil) -> Option<String> {
    let job = survey.job(spoil);
    let expected = jobs::expected(&job, usize::MAX);
    let mut list = Lent::new(survey.room);
    let given = ours::encode_survey(
        survey.kind,
        survey.edges,
        survey.map,
        &survey.points,
        &survey.ends,
        list.words(),
    );
    if spoil == Spoil::Word && given.words > 2 {
        list.words()[2] ^= 1;
    }
    if let Some(what) = expected.differs(given, &list) {
        return Some(what);
    }
    let mut plain = Lent::new(job.room);
    let without = ours::encode_job(job.kind, job.edges, &job.points, &job.ends, plain.words());
    if (without, plain) != (given, list) {
        return Some("other words or another answer than the job of the grid points".into());
    }
    if expected.refusal == 0 && judge::words_unchanged(&job) != expected.words {
        return Some("the two copies of the Rust differ".into());
    }
    None
}

fn differs(survey: &Survey, by_calls: bool, spoil: Spoil) -> Option<String> {
    let tried = catch_unwind(AssertUnwindSafe(|| {
        let found = whole_differs(survey, spoil);
        if found.is_some() || !by_calls {
            return found;
        }
        calls_differ(survey, spoil)
    }));
    tried.unwrap_or_else(|panic| Some(judge::panicked(panic)))
}

/// The same survey with less of something: first many points at once.
fn simpler(survey: &Survey) -> Vec<Survey> {
    let mut found = Vec::new();
    let mut push = |change: &dyn Fn(&mut Survey)| {
        let mut next = survey.clone();
        change(&mut next);
        found.push(next);
    };
    let points = survey.points.len() / 2;
    let mut size = points.next_power_of_two();
    while size > 0 {
        for from in (0..points).step_by(size) {
            let to = points.min(from + size);
            push(&|next| {
                next.points.drain(2 * from..2 * to);
                for end in &mut next.ends {
                    let at = *end as usize;
                    *end -= (at.clamp(from, to) - from) as u32;
                }
            });
        }
        size /= 2;
    }
    for at in 0..survey.ends.len() {
        push(&|next| {
            next.ends.remove(at);
        });
    }
    if points > 8 {
        return found;
    }
    for at in 0..survey.points.len() {
        for number in simpler_doubles(survey.points[at]) {
            push(&|next| next.points[at] = number);
        }
    }
    let sight = Sight {
        map: survey.map,
        x: 0.0,
        y: 0.0,
    };
    for sight in simpler_sights(&sight) {
        push(&|next| next.map = sight.map);
    }
    for at in 0..4 {
        for n in shrink::nearer(survey.edges[at]) {
            push(&|next| next.edges[at] = n);
        }
    }
    for room in [survey.room / 2, survey.room.saturating_sub(1)] {
        if room < survey.room {
            push(&|next| next.room = room);
        }
    }
    found
}

/// One survey in a room that is chosen by turns, as that of a job is.
fn one(
    mut survey: Survey,
    rooms: &mut Random,
    at: usize,
    by_calls: bool,
    spoil: Spoil,
    tally: &mut Tally,
) -> Option<Difference> {
    let (job, little) = jobs::with_room(survey.job(Spoil::Nothing), rooms, at);
    survey.room = job.room;
    if differs(&survey, by_calls, spoil).is_some() {
        let again = |survey: &Survey| differs(survey, by_calls, spoil);
        let (survey, what) = shrink::smallest(survey, &again, &simpler);
        return Some(Difference {
            what,
            input: format!("{survey:?}"),
        });
    }
    let expected = jobs::expected(&job, usize::MAX);
    tally.add("surveys", 1);
    tally.add("with little room", usize::from(little));
    tally.add(
        "of more than 1,000 points",
        usize::from(job.points.len() > 2000),
    );
    tally.add("with an odd list", job.points.len() % 2);
    tally.add(
        [
            "surveys accepted",
            "surveys with JOB",
            "with KIND",
            "with BOX",
            "",
            "with COORD",
            "with EMPTY",
            "with ROOM",
        ][expected.refusal as usize],
        1,
    );
    let behind = expected.refusal == COORD && expected.points >= 256;
    tally.add("with COORD behind 256 points", usize::from(behind));
    tally.add("words compared", expected.words.len());
    None
}

/// Without points any map will do, and a geometry of points is EMPTY; one double more is JOB.
fn bare() -> Option<Difference> {
    let mut survey = Survey {
        kind: 2,
        edges: [0, 10, 0, 10],
        map: doubles::of_numbers([NAN; 8]).map,
        ends: vec![0, 0],
        points: Vec::new(),
        room: 0,
    };
    for (kind, points, refusal) in [
        (1, 0, 6),
        (2, 0, 0),
        (3, 0, 0),
        (2, 1, 1),
        (4, 1, 1),
        (4, 0, 2),
    ] {
        survey.kind = kind;
        survey.points = vec![NAN; points];
        let job = survey.job(Spoil::Nothing);
        let said = jobs::expected(&job, usize::MAX).refusal;
        let what = match differs(&survey, true, Spoil::Nothing) {
            None if said == refusal => continue,
            None => format!("refusal {said}, written out {refusal}"),
            Some(what) => what,
        };
        return Some(Difference {
            what,
            input: format!("{survey:?}"),
        });
    }
    None
}

/// The survey of that place in the run: every hundredth is a long one. A file without lists is left out, and a good one comes in its place.
fn next(random: &mut Random, at: usize) -> Survey {
    if at % 100 == 17 {
        return long(random);
    }
    let mut job = Job::of_file(&cases::next_job(random, at), usize::MAX);
    while job.is_none() {
        job = Job::of_file(&cases::random_job(random, &[1, 2, 3]), usize::MAX);
    }
    Survey::of_job(job.expect("there is one"), random)
}

/// The fixed jobs of `both jobs`, each by any map in three rooms; the large ones and the widest as they are; then random ones. Every fourth is looked at call by call too.
fn surveys(seed: u64, count: usize, spoil: Spoil, tally: &mut Tally) -> Option<Difference> {
    let mut rooms = Random::new(seed ^ 0x5EED);
    let mut random = Random::new(seed ^ 0x5A7);
    let of_file = |file: Vec<u8>| Job::of_file(&file, usize::MAX);
    for job in cases::fixed_jobs().into_iter().filter_map(of_file) {
        for at in 0..3 {
            let survey = Survey::of_job(job.clone(), &mut random);
            let found = one(survey, &mut rooms, at, true, spoil, tally);
            if found.is_some() {
                return found;
            }
        }
    }
    let large = cases::large_jobs(&mut Random::new(seed), 8);
    let large = large.into_iter().chain(cases::widest_jobs());
    for (at, job) in large.filter_map(of_file).enumerate() {
        let survey = Survey {
            kind: job.kind,
            edges: job.edges,
            map: IDENTITY,
            ends: job.ends,
            points: job.points.into_iter().map(f64::from).collect(),
            room: 0,
        };
        let found = one(survey, &mut rooms, at, false, spoil, tally);
        if found.is_some() {
            return found;
        }
    }
    for at in 0..count {
        let survey = next(&mut random, at);
        let by_calls = at % 4 == 0;
        let found = one(survey, &mut rooms, at, by_calls, spoil, tally);
        if found.is_some() {
            return found;
        }
    }
    None
}

/// COUNT points; a tenth as many calls on any state, and a tenth as many surveys.
pub fn compare(seed: u64, count: usize, spoil: Spoil, tally: &mut Tally) -> Option<Difference> {
    if let Some(found) = written(tally).or_else(bare) {
        return Some(found);
    }
    let mut random = Random::new(seed);
    for _ in 0..count {
        let found = point(doubles::sight(&mut random), spoil, tally);
        if found.is_some() {
            return found;
        }
    }
    for _ in 0..count / 10 {
        let found = carried_one(carried(&mut random), spoil, tally);
        if found.is_some() {
            return found;
        }
    }
    let found = surveys(seed, count / 10, spoil, tally);
    if found.is_some() || spoil != Spoil::Nothing {
        return found;
    }
    unseen(count, tally)
}

/// Sights by their bits, with the grid's numbers by the Rust's doubles: mapping.py holds its own against them.
pub fn print(seed: u64, count: usize) {
    let line = |sight: Sight| {
        let case = bits(&sight).map(|n| format!("{n:x}")).join(" ");
        let place = grid::grid(Way::Right, sight.map, sight.x, sight.y);
        let place = place.map(|n| n.map_or("none".into(), |n| n.to_string()));
        println!("{case}\t{}", place.join(" "));
    };
    let written = WRITTEN.into_iter();
    written.for_each(|(numbers, _)| line(doubles::of_numbers(numbers)));
    let mut random = Random::new(seed);
    (0..count).for_each(|_| line(doubles::sight(&mut random)));
}
