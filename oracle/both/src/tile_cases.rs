//! A tile script with the lengths of the lists that it is run with: how long they are, how its operations are disordered, and how it is made simpler.

use crate::random::Random;
use crate::scripts::{self, Operation, Value};
use crate::tile_judge::{is_text, Memory, Rooms, TileJudge};

#[derive(Clone, Debug)]
pub struct Script {
    pub extent: u32,
    pub operations: Vec<Operation>,
    /// Keys, values, texts, features, names, bytes.
    pub rooms: Rooms,
    /// Features that are opened and closed go through the call that takes a whole one.
    pub whole: bool,
    /// By which call they go, and which indexes are lent, starts with this turn.
    pub turn: usize,
}

/// More than a script can use of each list.
pub fn bounds(operations: &[Operation]) -> Rooms {
    let (mut tags, mut texts, mut words, mut adds) = (0, 0, 0, 0);
    for operation in operations {
        match operation {
            Operation::Create(_, name) => texts += name.len(),
            Operation::Open(_, given) => words += 6 + given.len(),
            Operation::Tag(key, value) => {
                tags += 1;
                texts += key.len() + value.text().len();
            }
            Operation::Add => adds += 1,
            _ => {}
        }
    }
    let layer = 5 * (words + 2 * tags) + texts + 40 * operations.len() + 64;
    [
        2 * tags,
        3 * tags,
        texts,
        words + 2 * tags,
        2 * adds,
        adds * layer,
    ]
}

/// What a script uses of each list where there is room.
pub fn peaks(extent: u32, operations: &[Operation]) -> Rooms {
    let mut judge = TileJudge::new(extent);
    let mut memory = Memory::new(bounds(operations));
    for operation in operations {
        if judge.has_layer() || matches!(operation, Operation::Create(..)) {
            judge.perform(operation, &mut memory);
        }
    }
    judge.peaks
}

/// By turns more than enough room, just enough, and less in one list or two.
pub fn rooms(peaks: Rooms, random: &mut Random, at: usize) -> Rooms {
    match at % 3 {
        0 => peaks.map(|peak| peak + 9),
        1 => peaks,
        _ => {
            let mut rooms = peaks;
            for _ in 0..1 + random.below(2) {
                let list = random.below(6);
                rooms[list] = random.below(peaks[list].max(1));
            }
            rooms
        }
    }
}

pub fn simpler(script: &Script) -> Vec<Script> {
    let mut found = Vec::new();
    let mut push = |change: &dyn Fn(&mut Script)| {
        let mut next = script.clone();
        change(&mut next);
        found.push(next);
    };
    for at in 0..script.operations.len() {
        push(&|next| {
            next.operations.remove(at);
        });
    }
    for (at, operation) in script.operations.iter().enumerate() {
        for smaller in smaller(operation) {
            push(&|next| next.operations[at] = smaller.clone());
        }
    }
    if script.whole {
        push(&|next| next.whole = false);
    }
    for list in 0..6 {
        for room in [script.rooms[list] / 2, script.rooms[list].saturating_sub(1)] {
            if room < script.rooms[list] {
                push(&|next| next.rooms[list] = room);
            }
        }
    }
    found
}

fn smaller(operation: &Operation) -> Vec<Operation> {
    let shorter = |text: &[u8]| -> Vec<Vec<u8>> {
        // A text is cut where what is left is one.
        let good = is_text(text);
        [0, text.len() / 2, text.len().saturating_sub(1)]
            .into_iter()
            .filter(|cut| *cut < text.len() && (!good || is_text(&text[..*cut])))
            .map(|cut| text[..cut].to_vec())
            .collect()
    };
    match operation {
        Operation::Create(extent, name) => shorter(name)
            .into_iter()
            .map(|name| Operation::Create(*extent, name))
            .collect(),
        Operation::Open(kind, words) => {
            let mut found = Vec::new();
            for cut in [0, words.len() / 2, words.len().saturating_sub(1)] {
                if cut < words.len() {
                    found.push(Operation::Open(*kind, words[..cut].to_vec()));
                }
            }
            for at in 0..words.len().min(16) {
                if words[at] > 0 {
                    let mut next = words.clone();
                    next[at] = 0;
                    found.push(Operation::Open(*kind, next));
                }
            }
            found
        }
        Operation::SetId(id) if *id > 0 => vec![Operation::SetId(id / 2)],
        Operation::Tag(key, value) => {
            let mut found: Vec<Operation> = shorter(key)
                .into_iter()
                .map(|key| Operation::Tag(key, value.clone()))
                .collect();
            match value {
                Value::Text(text) => found.extend(
                    shorter(text)
                        .into_iter()
                        .map(|text| Operation::Tag(key.clone(), Value::Text(text))),
                ),
                Value::Bits(kind, bits) if *bits > 0 => {
                    found.push(Operation::Tag(key.clone(), Value::Bits(*kind, bits / 2)))
                }
                _ => {}
            }
            found
        }
        _ => Vec::new(),
    }
}

/// A script with operations doubled, moved, left out or spoiled: more turns, kinds and texts that are refused, and accepted calls after them.
pub fn disordered(random: &mut Random, mut operations: Vec<Operation>) -> Vec<Operation> {
    for _ in 0..1 + random.below(4) {
        let count = operations.len();
        if count == 0 {
            break;
        }
        let (at, to) = (random.below(count), random.below(count));
        match random.below(5) {
            0 => operations.insert(to, operations[at].clone()),
            1 => operations.swap(at, to),
            2 => {
                operations.remove(at);
            }
            3 => {
                let extent = random.pick(&[0, 4096]);
                operations.insert(to, Operation::Create(extent, b"a".to_vec()));
            }
            _ => spoil(random, &mut operations[at]),
        }
    }
    operations
}

/// A kind that is none, or a text that is not UTF-8, about as long as the limit, or both.
fn spoil(random: &mut Random, operation: &mut Operation) {
    let mut text = vec![b't'; random.between(1023, 1026) as usize];
    match random.below(4) {
        0 => text[0] = 0xe9,
        1 => text = random.pick(&scripts::ILL_FORMED).to_vec(),
        _ => {}
    }
    match operation {
        Operation::Create(_, name) => *name = text,
        Operation::Open(kind, _) => *kind = random.pick(&[0, 4, 7, u32::MAX]),
        Operation::Tag(_, Value::Text(content)) if random.chance(2) => *content = text,
        Operation::Tag(key, _) => *key = text,
        _ => {}
    }
}
