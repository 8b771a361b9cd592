//! Lists of words to be read: some with their reading written out, good ones, and what damage makes of good ones.

use crate::cases::{self, FILE_LIMIT};
use crate::jobs;
use crate::judge::Job;
use crate::random::Random;
use crate::readings::{Fault, COMMAND, COUNT, CUT_PARAMS, NO_PARAMS, ROOM, STEP};

pub const MOST_WORDS: usize = 1_048_576;
/// The largest count that a command's word has.
const MOST: u32 = 536_870_911;
/// The longest good list, since everything that damage makes of it is read.
const LONGEST: usize = 40;
/// Counts of a command put in the place of another: none, few, as many as no list here has; two of these are 1 in fewer bits.
const COUNTS: [u32; 8] = [0, 1, 2, 3, 65_537, MOST_WORDS as u32, 268_435_457, MOST];
/// The parameters of the least and the greatest i32.
const LEAST: u32 = u32::MAX;
const GREATEST: u32 = u32::MAX - 1;

type Written = (&'static [u32], usize, Result<Vec<i32>, Fault>);

/// Words, the lent list's length, and the reading.
pub fn written() -> Vec<Written> {
    let read: [(&[u32], &[i32]); 9] = [
        (&[], &[]),
        (&[9, 2, 1], &[1, 1, -1]),
        (&[15], &[7, 0, 0]),
        (&[15, 15], &[7, 0, 0, 7, 0, 0]),
        (&[10, 4, 6, 15, 9, 1, 1], &[2, 2, 3, 7, 2, 3, 1, 1, 2]),
        (&[17, 10, 14, 3, 9], &[1, 5, 7, 1, 3, 2]),
        (&[9, GREATEST, LEAST], &[1, i32::MAX, i32::MIN]),
        // A parameter may look like any command.
        (&[9, 0, 7], &[1, 0, -4]),
        (&[18, 23, 1, 15, 7], &[2, -12, -1, 2, -20, -5]),
    ];
    let refused: [(&[u32], u32, usize); 55] = [
        // No command, whatever its count.
        (&[0], COMMAND, 0),
        (&[3], COMMAND, 0),
        (&[4], COMMAND, 0),
        (&[5], COMMAND, 0),
        (&[6], COMMAND, 0),
        (&[8], COMMAND, 0),
        (&[11, 2, 2], COMMAND, 0),
        (&[8 * MOST], COMMAND, 0),
        (&[8 * MOST + 6], COMMAND, 0),
        (&[9, 2, 2, 0], COMMAND, 0),
        (&[15, 14], COMMAND, 0),
        // A ClosePath of another count than 1, a MoveTo or LineTo of none.
        (&[7], COUNT, 0),
        (&[23], COUNT, 0),
        (&[31, 2, 2], COUNT, 0),
        (&[8 * MOST + 7], COUNT, 0),
        (&[8 * 65_537 + 7], COUNT, 0),
        (&[8 * 268_435_457 + 7], COUNT, 0),
        (&[1], COUNT, 0),
        (&[2], COUNT, 0),
        (&[1, 2], COUNT, 0),
        (&[1, 2, 2], COUNT, 0),
        (&[9, 2, 2, 7], COUNT, 0),
        (&[9, 2, 2, 23], COUNT, 0),
        (&[9, 2, 2, 2], COUNT, 0),
        (&[15, 15, 7], COUNT, 0),
        (&[15, 1, 9], COUNT, 0),
        // No word follows.
        (&[9], NO_PARAMS, 0),
        (&[10], NO_PARAMS, 0),
        (&[17], NO_PARAMS, 0),
        (&[8 * MOST + 1], NO_PARAMS, 0),
        (&[8 * MOST + 2], NO_PARAMS, 0),
        (&[15, 9], NO_PARAMS, 1),
        (&[9, 2, 2, 10], NO_PARAMS, 3),
        (&[9, 2, 2, 18, 0, 0, 0, 0, 15, 26], NO_PARAMS, 9),
        // Some words follow, and too few.
        (&[9, 2], CUT_PARAMS, 0),
        (&[10, 15], CUT_PARAMS, 0),
        (&[17, 2, 2], CUT_PARAMS, 0),
        (&[18, 2, 2, 2], CUT_PARAMS, 0),
        (&[8 * MOST + 1, 2, 2], CUT_PARAMS, 0),
        (&[8 * 65_537 + 1, 2, 2], CUT_PARAMS, 0),
        (&[8 * 268_435_457 + 2, 2, 2], CUT_PARAMS, 0),
        (&[15, 8 * MOST + 2, 2], CUT_PARAMS, 1),
        (&[9, 2, 2, 10, 9], CUT_PARAMS, 3),
        (&[9, 2, 2, 18, 0, 0, 0, 0, 15, 26, 2, 2], CUT_PARAMS, 9),
        // A step beyond 32 bits, which no later one makes good.
        (&[17, GREATEST, 0, 2, 0], STEP, 0),
        (&[17, 0, LEAST, 0, 1], STEP, 0),
        (&[9, GREATEST, 0, 10, 2, 0], STEP, 0),
        (&[25, GREATEST, 0, 2, 0, 1, 0], STEP, 0),
        // At one command a cut before its steps, and faults from left to right.
        (&[25, GREATEST, 0, 2, 0], CUT_PARAMS, 0),
        (&[17, GREATEST, 0, 2, 0, 3], STEP, 0),
        (&[17, GREATEST, 0, 2, 0, 7], STEP, 0),
        (&[17, GREATEST, 0, 2, 0, 9], STEP, 0),
        (&[0, 7, 9], COMMAND, 0),
        (&[7, 0, 9], COUNT, 0),
        (&[9, 0, 9, 10], NO_PARAMS, 3),
    ];
    let mut found: Vec<Written> = Vec::new();
    for (words, numbers) in read {
        let needed = numbers.len();
        found.push((words, needed, Ok(numbers.to_vec())));
        found.push((words, needed + 1, Ok(numbers.to_vec())));
        for room in 0..needed {
            found.push((words, room, Err(fault(ROOM, 0))));
        }
    }
    for (words, refusal, place) in refused {
        for room in [0, 99] {
            found.push((words, room, Err(fault(refusal, place))));
        }
    }
    found
}

fn fault(refusal: u32, place: usize) -> Fault {
    Fault { refusal, place }
}

/// ClosePath again and again, and then these words: so many words in all.
fn closed(length: usize, last: &[u32]) -> Vec<u32> {
    let mut words = vec![15; length - last.len()];
    words.extend(last);
    words
}

/// A MoveTo of so many points on one spot.
fn moves(points: usize) -> Vec<u32> {
    let mut words = vec![0; 1 + 2 * points];
    words[0] = 1 + 8 * points as u32;
    words
}

/// Lists around the most words that a geometry may have: the lent list's length, and how many vertices are read or what is refused. Too many words are ROOM
/// after every other fault.
pub fn longest() -> Vec<(Vec<u32>, usize, Result<usize, Fault>)> {
    let mut lists = Vec::new();
    for length in [MOST_WORDS - 1, MOST_WORDS, MOST_WORDS + 1] {
        let whole = match length {
            ..=MOST_WORDS => Ok(length),
            _ => Err(fault(ROOM, 0)),
        };
        lists.push((closed(length, &[]), 3 * length, whole));
        lists.push((closed(length, &[]), 3 * length + 1, whole));
        lists.push((closed(length, &[]), 3 * length - 1, Err(fault(ROOM, 0))));
        let ends: [(&[u32], u32, usize); 12] = [
            (&[8], COMMAND, 0),
            (&[0], COMMAND, 0),
            (&[7], COUNT, 0),
            (&[23], COUNT, 0),
            (&[8 * MOST + 7], COUNT, 0),
            (&[1], COUNT, 0),
            (&[9], NO_PARAMS, length - 1),
            (&[8 * MOST + 2], NO_PARAMS, length - 1),
            (&[10, 2], CUT_PARAMS, length - 2),
            (&[8 * MOST + 1, 2, 2], CUT_PARAMS, length - 3),
            (&[17, GREATEST, 0, 2, 0], STEP, 0),
            (&[10, 2, 2, 14], COMMAND, 0),
        ];
        for (last, refusal, place) in ends {
            for room in [0, 3 * length] {
                let words = closed(length, last);
                lists.push((words, room, Err(fault(refusal, place))));
            }
        }
    }
    // One command: 524,288 points need a word more than there may be.
    let points = MOST_WORDS / 2;
    lists.push((moves(points - 1), 3 * points, Ok(points - 1)));
    lists.push((moves(points), 3 * points, Err(fault(ROOM, 0))));
    let mut cut = moves(points);
    cut.pop();
    lists.push((cut, 3 * points, Err(fault(CUT_PARAMS, 0))));
    let mut far = moves(points);
    let end = far.len();
    far[end - 4] = GREATEST;
    far[end - 2] = 2;
    lists.push((far, 3 * points, Err(fault(STEP, 0))));
    lists
}

/// The words of an accepted job, the Rust's own.
pub fn encoded(random: &mut Random) -> Vec<u32> {
    loop {
        let file = cases::random_job(random, &[1, 2, 3]);
        let Some(mut job) = Job::of_file(&file, FILE_LIMIT) else {
            continue;
        };
        job.room = LONGEST;
        let said = jobs::expected(&job, usize::MAX);
        if said.refusal == 0 {
            return said.words;
        }
    }
}

/// A place to go to: near by, anywhere, or at the end of what 32 bits hold; halfway where a step does not lead there.
fn target(random: &mut Random, from: i32) -> i32 {
    let to = match random.below(6) {
        0 => random.next() as i32,
        1 => random.pick(&[i32::MIN, i32::MAX, i32::MIN + 1, i32::MAX - 1, 0]),
        _ => from.saturating_add(random.between(-40, 40) as i32),
    };
    match to.checked_sub(from) {
        Some(_) => to,
        None => ((i64::from(from) + i64::from(to)) >> 1) as i32,
    }
}

/// The parameter of a step.
fn parameter(from: i32, to: i32) -> u32 {
    let step = to - from;
    ((step << 1) ^ (step >> 31)) as u32
}

/// Commands in any order over vertices that are chosen first: the words, and the vertices, three numbers each.
pub fn drawn(random: &mut Random) -> (Vec<u32>, Vec<i32>) {
    let (mut words, mut numbers) = (Vec::new(), Vec::new());
    let (mut x, mut y) = (0, 0);
    for _ in 0..random.below(7) {
        let id = random.pick(&[1, 1, 2, 2, 2, 7, 7]);
        if id == 7 {
            words.push(15);
            numbers.extend([7, x, y]);
            continue;
        }
        let count = 1 + random.below(4);
        words.push(id + 8 * count as u32);
        for _ in 0..count {
            let to = (target(random, x), target(random, y));
            words.extend([parameter(x, to.0), parameter(y, to.1)]);
            (x, y) = to;
            numbers.extend([id as i32, x, y]);
        }
    }
    (words, numbers)
}

/// Every command word of the counts above, good or not, which as parameters are the longest steps too; and steps half as long and more.
fn strangers() -> Vec<u32> {
    let ids = 0..8;
    let mut found: Vec<u32> = ids
        .flat_map(|id| COUNTS.map(|count| id + 8 * count))
        .collect();
    found.extend([1 << 31, (1 << 31) - 1, 3 << 30, (3 << 30) - 1]);
    found
}

/// Everything that one damage makes of a list: cut at each place; each word taken out, or changed to each stranger; each stranger put in anywhere.
pub fn each_damage(good: &[u32]) -> Vec<Vec<u32>> {
    let strangers = strangers();
    let mut found: Vec<Vec<u32>> = (0..good.len()).map(|at| good[..at].to_vec()).collect();
    for at in 0..=good.len() {
        let (before, behind) = good.split_at(at);
        let rest = behind.get(1..);
        found.extend(rest.map(|rest| [before, rest].concat()));
        for stranger in &strangers {
            found.push([before, &[*stranger], behind].concat());
            found.extend(rest.map(|rest| [before, &[*stranger], rest].concat()));
        }
    }
    found
}

fn damage(words: &mut Vec<u32>, random: &mut Random) {
    let at = random.below(words.len() + 1);
    let stranger = match random.below(4) {
        0 => random.next() as u32,
        1 => random.below(8) as u32 + 8 * random.below(8) as u32,
        _ => random.pick(&strangers()),
    };
    match random.below(5) {
        0 => words.insert(at, stranger),
        1 => words.truncate(at),
        2 if at < words.len() => {
            words.remove(at);
        }
        _ if at < words.len() => words[at] = stranger,
        _ => words.push(stranger),
    }
}

/// The list damaged once to four times.
pub fn damaged(good: &[u32], random: &mut Random) -> Vec<u32> {
    let mut words = good.to_vec();
    for _ in 0..1 + random.below(4) {
        damage(&mut words, random);
    }
    words
}

/// Commands whose counts are about as large as what follows, with any step, now and then spoiled.
pub fn any(random: &mut Random) -> Vec<u32> {
    let mut words = Vec::new();
    let steady = random.chance(2);
    for _ in 0..random.below(8) {
        let id = match random.below(24) {
            0 => random.below(8) as u32,
            _ => random.pick(&[1, 1, 2, 2, 2, 7]),
        };
        let count = match random.below(24) {
            0 => random.next() as u32 >> 3,
            1 => random.below(3) as u32,
            _ if id == 7 => 1,
            _ => 1 + random.below(4) as u32,
        };
        words.push(id + 8 * count);
        if id != 7 {
            for _ in 0..2 * count.min(6) {
                words.push(if steady {
                    random.below(64) as u32
                } else {
                    random.pick(&[0, 1, 2, 1 << 31, (1 << 31) - 1, GREATEST, LEAST])
                });
            }
        }
    }
    if random.chance(4) {
        words.truncate(words.len().saturating_sub(1 + random.below(3)));
    }
    words
}
