//! Words read by our decoder and by an independent reading, faults among them: MVT 4.3, with the refusals of document 01's "Reading words" and their places as
//! request (iii) amends it. No answer of the Rust, which reads no words.

use crate::lent::Lent;
use crate::random::Random;
use crate::report::{Difference, Tally};
use crate::shrink::smallest;
use crate::word_lists::{self, MOST_WORDS};

pub const ROOM: u32 = 7;
pub const COMMAND: u32 = 8;
pub const STEP: u32 = 10;
pub const COUNT: u32 = 16;
pub const NO_PARAMS: u32 = 17;
pub const CUT_PARAMS: u32 = 18;

/// What a reading can answer.
const ANSWERS: [u32; 7] = [0, ROOM, COMMAND, STEP, COUNT, NO_PARAMS, CUT_PARAMS];

/// Cuts that are not at the first command.
const LATER: &str = "cut at a place above 0";

/// A refusal; of the two cuts, which command's words are missing: its place among all words.
#[derive(Clone, Copy, Debug, PartialEq)]
pub struct Fault {
    pub refusal: u32,
    pub place: usize,
}

fn fault<T>(refusal: u32) -> Result<T, Fault> {
    Err(Fault { refusal, place: 0 })
}

fn fault_at<T>(refusal: u32, place: usize) -> Result<T, Fault> {
    Err(Fault { refusal, place })
}

/// The next position in one direction, where it is a number of 32 bits.
fn moved(from: i32, parameter: u32) -> Option<i32> {
    let half = i64::from(parameter / 2);
    let step = if parameter % 2 == 0 { half } else { -1 - half };
    i32::try_from(i64::from(from) + step).ok()
}

/// The vertices of all commands, three numbers each, or the first fault.
fn commands(words: &[u32]) -> Result<Vec<i32>, Fault> {
    let mut found = Vec::new();
    let (mut x, mut y) = (0, 0);
    let mut place = 0;
    while let Some(word) = words.get(place) {
        let (id, count) = (word % 8, (word / 8) as usize);
        let follow = &words[place + 1..];
        let params = match (id, count) {
            (1 | 2, 0) => return fault(COUNT),
            (1 | 2, _) => 2 * count,
            (7, 1) => 0,
            (7, _) => return fault(COUNT),
            _ => return fault(COMMAND),
        };
        if params > 0 && follow.is_empty() {
            return fault_at(NO_PARAMS, place);
        }
        if follow.len() < params {
            return fault_at(CUT_PARAMS, place);
        }
        for pair in follow[..params].chunks(2) {
            let (Some(right), Some(down)) = (moved(x, pair[0]), moved(y, pair[1])) else {
                return fault(STEP);
            };
            (x, y) = (right, down);
            found.extend([id as i32, x, y]);
        }
        if id == 7 {
            found.extend([7, x, y]);
        }
        place += 1 + params;
    }
    Ok(found)
}

/// The vertices, three numbers each, in a list of so many numbers; or the refusal.
pub fn vertices(words: &[u32], room: usize) -> Result<Vec<i32>, Fault> {
    let found = commands(words)?;
    if words.len() > MOST_WORDS || found.len() > room {
        return fault(ROOM);
    }
    Ok(found)
}

/// What is changed of ours before it is compared, to show that it is found.
#[derive(Clone, Copy, PartialEq)]
pub enum Spoil {
    Nothing,
    /// Any fault is said to be COMMAND.
    Fault,
    /// The place of a cut is one more.
    Place,
    /// A list that ends inside parameters is said to have none.
    Cuts,
    /// COUNT is said to be COMMAND.
    Count,
    /// A ClosePath of 2 is read as one of 1.
    Close,
    /// A MoveTo or LineTo of 0 is read, as nothing.
    Nought,
    /// A refused call writes a number.
    Written,
    /// An accepted call writes a number behind its vertices.
    Behind,
}

/// Where the commands of a list stand, up to the first that is none or lacks words.
fn places(words: &[u32]) -> Vec<usize> {
    let mut found = Vec::new();
    let mut place = 0;
    while place < words.len() {
        found.push(place);
        let params = match words[place] % 8 {
            1 | 2 => 2 * (words[place] / 8) as usize,
            _ => 0,
        };
        place += 1 + params;
    }
    found
}

/// The list that a decoder sees which does not look at some counts.
fn unlooked(words: &[u32], spoil: Spoil) -> Vec<u32> {
    let mut seen = words.to_vec();
    for place in places(words).into_iter().rev() {
        match (spoil, seen[place]) {
            (Spoil::Close, 23) => seen[place] = 15,
            (Spoil::Nought, 1 | 2) => {
                seen.remove(place);
            }
            _ => (),
        }
    }
    seen
}

/// Our answer and what it left in the list.
fn asked(words: &[u32], room: usize, spoil: Spoil) -> (ours::Reading, Lent) {
    let mut out = Lent::new(room);
    if let Spoil::Close | Spoil::Nought = spoil {
        return (ours::decode(&unlooked(words, spoil), out.signed()), out);
    }
    let mut given = ours::decode(words, out.signed());
    let end = 3 * given.vertices;
    match (spoil, given.refusal) {
        (Spoil::Fault, COMMAND..) | (Spoil::Count, COUNT) => {
            (given.refusal, given.place) = (COMMAND, 0)
        }
        (Spoil::Place, NO_PARAMS | CUT_PARAMS) => given.place += 1,
        (Spoil::Cuts, CUT_PARAMS) => given.refusal = NO_PARAMS,
        (Spoil::Written, 1..) if room > 0 => out.words()[0] ^= 1,
        (Spoil::Behind, 0) if room > end => out.words()[end] ^= 1,
        _ => (),
    }
    (given, out)
}

/// What differs where these words are read into a list of so many numbers: the answer, and every number of the list.
pub fn differs(words: &[u32], room: usize, spoil: Spoil) -> Option<String> {
    let (given, out) = asked(words, room, spoil);
    let expected = vertices(words, room);
    let (refusal, count, place) = match &expected {
        Ok(numbers) => (0, numbers.len() / 3, 0),
        Err(fault) => (fault.refusal, 0, fault.place),
    };
    if (given.refusal, given.vertices, given.place) != (refusal, count, place) {
        return Some(format!(
            "refusal, vertices, place: ours {} {} {}, expected {refusal} {count} {place}",
            given.refusal, given.vertices, given.place
        ));
    }
    let numbers = expected.unwrap_or_default();
    out.differs(numbers.iter().map(|n| *n as u32))
}

/// The reading and our answer against lists whose reading is written out or known from how they were made.
fn known(words: &[u32], room: usize, said: Result<Vec<i32>, Fault>) -> Option<Difference> {
    let read = vertices(words, room);
    let what = if read == said {
        differs(words, room, Spoil::Nothing)?
    } else {
        format!("read independently as {read:?}, expected {said:?}")
    };
    Some(Difference {
        what,
        input: format!("words {words:?}, room {room}"),
    })
}

/// The same words without one of them, or with one nearer to zero.
fn shorter(words: &Vec<u32>) -> Vec<Vec<u32>> {
    let mut found = Vec::new();
    for at in 0..words.len() {
        let mut fewer = words.clone();
        fewer.remove(at);
        found.push(fewer);
        if words[at] > 0 {
            let mut less = words.clone();
            less[at] /= 2;
            found.push(less);
        }
    }
    found
}

/// The name of an answer.
pub fn answer(refusal: u32) -> &'static str {
    match refusal {
        0 => "words accepted",
        ROOM => "words refused as ROOM",
        COMMAND => "words refused as COMMAND",
        STEP => "words refused as STEP",
        COUNT => "words refused as COUNT",
        NO_PARAMS => "words refused as NOPARAMS",
        CUT_PARAMS => "words refused as CUTPARAMS",
        _ => "words refused as nothing that is known",
    }
}

fn one(words: &[u32], room: usize, spoil: Spoil, tally: &mut Tally) -> Option<Difference> {
    if differs(words, room, spoil).is_some() {
        let again = |words: &Vec<u32>| differs(words, room, spoil);
        let (words, what) = smallest(words.to_vec(), &again, &shorter);
        return Some(Difference {
            what,
            input: format!("words {words:?}, room {room}"),
        });
    }
    tally.add("lists of words", 1);
    match vertices(words, room) {
        Ok(_) => tally.add(answer(0), 1),
        Err(fault) => {
            tally.add(answer(fault.refusal), 1);
            tally.add(LATER, usize::from(fault.place > 0));
        }
    }
    None
}

/// Around what the vertices take, or any.
fn some_room(words: &[u32], random: &mut Random) -> usize {
    let needed = commands(words).map_or(0, |found| found.len());
    match random.below(8) {
        0 => needed.saturating_sub(1),
        1 => needed + 1,
        2 => random.below(60),
        3 => random.below(needed + 1),
        _ => needed,
    }
}

/// A list that reads, with each room around what it needs.
fn good(random: &mut Random, spoil: Spoil, tally: &mut Tally) -> Result<Vec<u32>, Difference> {
    let (words, numbers) = if random.chance(2) {
        let (words, numbers) = word_lists::drawn(random);
        tally.add("good lists of any commands", 1);
        (words, numbers)
    } else {
        let words = word_lists::encoded(random);
        tally.add("good lists of the encoder", 1);
        let Ok(numbers) = commands(&words) else {
            let what = "words of the encoder do not read".into();
            let input = format!("words {words:?}");
            return Err(Difference { what, input });
        };
        (words, numbers)
    };
    let needed = numbers.len();
    if let Some(found) = known(&words, needed, Ok(numbers)) {
        return Err(found);
    }
    for room in [needed, needed + 1, needed.saturating_sub(1), needed / 2, 0] {
        if let Some(found) = one(&words, room, spoil, tally) {
            return Err(found);
        }
    }
    Ok(words)
}

/// A good list, everything that one damage makes of it, as much that several make, and lists of any kind.
fn round(random: &mut Random, spoil: Spoil, tally: &mut Tally) -> Option<Difference> {
    let good = match good(random, spoil, tally) {
        Ok(words) => words,
        Err(found) => return Some(found),
    };
    let each = word_lists::each_damage(&good);
    let count = each.len();
    let mut some = |words: Vec<u32>, random: &mut Random| {
        let room = some_room(&words, random);
        one(&words, room, spoil, tally)
    };
    for words in each {
        if let Some(found) = some(words, random) {
            return Some(found);
        }
    }
    for _ in 0..count / 2 {
        let damaged = word_lists::damaged(&good, random);
        let any = word_lists::any(random);
        if let Some(found) = some(damaged, random).or_else(|| some(any, random)) {
            return Some(found);
        }
    }
    None
}

/// Those of the answers that were seen too seldom: not more than once in a thousand lists.
fn unseen(tally: &Tally) -> Option<Difference> {
    let lists = tally.count("lists of words");
    let names = ANSWERS.map(answer).into_iter();
    let mut names = names.chain([LATER]);
    let name = names.find(|name| tally.count(name) * 1000 <= lists)?;
    Some(Difference {
        what: format!("{name} was seen {} times", tally.count(name)),
        input: format!("{lists} lists of words"),
    })
}

/// The lists whose reading is written out, and the longest ones.
fn fixed(tally: &mut Tally) -> Option<Difference> {
    for (words, room, said) in word_lists::written() {
        if let Some(found) = known(words, room, said) {
            return Some(found);
        }
        tally.add("readings written out", 1);
    }
    for (words, room, said) in word_lists::longest() {
        let read = vertices(&words, room).map(|found| found.len() / 3);
        let what = if read == said {
            differs(&words, room, Spoil::Nothing)
        } else {
            Some(format!("read independently as {read:?}, expected {said:?}"))
        };
        if let Some(what) = what {
            let input = format!("{} words, room {room}", words.len());
            return Some(Difference { what, input });
        }
        tally.add("of 1,048,575 to 1,048,577 words", 1);
    }
    None
}

/// The fixed lists; then good and damaged ones, until there are so many. Spoiled, only these.
pub fn compare(seed: u64, count: usize, spoil: Spoil, tally: &mut Tally) -> Option<Difference> {
    if spoil == Spoil::Nothing {
        if let Some(found) = fixed(tally) {
            return Some(found);
        }
    }
    let mut at = 0;
    while tally.count("lists of words") < count {
        let mut random = Random::new(seed.wrapping_add(at).wrapping_mul(0xD134_2543_DE82_EF95));
        if let Some(found) = round(&mut random, spoil, tally) {
            return Some(found);
        }
        at += 1;
    }
    match spoil {
        Spoil::Nothing => unseen(tally),
        _ => None,
    }
}

/// Lists with their readings, a line each, for reading.py: the lent list's length and the words, a tab, then the vertices' numbers or the refusal and
/// its place.
pub fn print(seed: u64, count: usize) {
    let told = |words: &[u32], room: usize| {
        let given: Vec<String> = words.iter().map(u32::to_string).collect();
        let answer = match vertices(words, room) {
            Ok(numbers) => format!("read {numbers:?}"),
            Err(fault) => format!("refused {} at {}", fault.refusal, fault.place),
        };
        println!("{room} {}\t{answer}", given.join(" "));
    };
    for (words, room, _) in word_lists::written() {
        told(words, room);
    }
    let mut random = Random::new(seed);
    for _ in 0..count / 4 {
        let (good, _) = word_lists::drawn(&mut random);
        let damaged = word_lists::damaged(&good, &mut random);
        for words in [
            word_lists::encoded(&mut random),
            word_lists::any(&mut random),
            good,
            damaged,
        ] {
            told(&words, some_room(&words, &mut random));
        }
    }
}
