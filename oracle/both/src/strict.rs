//! Strict layers (request (xiv)) beside ordinary ones, both by our library, each with lists of its own. The same calls are made on both; one that the rule
//! refuses as AGAIN is made on the strict layer alone. So after every call the strict run has to be the ordinary run from which these calls are left out: in the
//! answer, the layer but for its mark, the tile, and every element of every list. The rule is kept here, from the calls that were accepted: the keys
//! of the open feature's tags, by their bytes. The Rust has no strict layers; it is asked about the ordinary ones, by `tiles`.

use crate::again_cases;
use crate::caps;
use crate::features::Feature;
use crate::judge::{KIND, ROOM};
use crate::lent::Watched;
use crate::many;
use crate::near;
use crate::random::Random;
use crate::report::{Difference, Tally};
use crate::scripts::{self, Operation, Value};
use crate::shrink::{caught, smallest};
use crate::side::{Said, Side};
use crate::tile_cases::{bounds, disordered, rooms, simpler, Script};
use crate::tile_judge::{refuses_texts, Rooms, AGAIN, EXTENT, NAME, TEXT, TURN, UTF8};
use ours::tiles::Layer;

/// What is changed of the strict layer's answers before they are compared, to show that it is found.
#[derive(Clone, Copy, PartialEq)]
pub enum Spoil {
    Nothing,
    /// AGAIN is not said.
    Unsaid,
    /// AGAIN is said of a key that another feature has.
    Elsewhere,
    /// The mark is lost at abandoning.
    Mark,
    /// ROOM is said for AGAIN.
    Room,
}

/// What a call can answer.
const ANSWERS: [(u32, &str); 9] = [
    (0, "accepted"),
    (KIND, "KIND"),
    (TEXT, "TEXT"),
    (UTF8, "UTF8"),
    (TURN, "TURN"),
    (AGAIN, "AGAIN"),
    (ROOM, "ROOM"),
    (EXTENT, "EXTENT"),
    (NAME, "NAME"),
];

const SCRIPTS: &str = "scripts";
const CLEAN: &str = "scripts without AGAIN";
const BY_TAG: &str = "AGAIN by a tag";
const SAME_VALUE: &str = "of them with the value that the key has";
const BY_WHOLE: &str = "AGAIN by a whole feature";
const BY_SEVERAL: &str = "AGAIN by several features at once";
const BEHIND: &str = "of them behind accepted features";
const INDEXED: &str = "of them with an index that is used";
const SCANNED: &str = "of them without";
const FULL: &str = "AGAIN where an ordinary layer says ROOM";
const OTHERS: &str = "accepted keys that another feature has";
const ABANDONED: &str = "accepted keys that an abandoned feature had";

/// What else has to be seen.
const SEEN: [&str; 11] = [
    CLEAN, BY_TAG, SAME_VALUE, BY_WHOLE, BY_SEVERAL, BEHIND, INDEXED, SCANNED, FULL, OTHERS,
    ABANDONED,
];

/// What the rule has to know of the layer at hand: its tags that were accepted.
#[derive(Default)]
struct Rule {
    /// Those of the open feature; nothing where none is open.
    open: Option<Vec<(Vec<u8>, Value)>>,
    /// The keys of its features that were closed, and of those that were abandoned.
    closed: Vec<Vec<u8>>,
    abandoned: Vec<Vec<u8>>,
}

/// Whether a tag has the key of an earlier one.
fn repeats(tags: &[(&[u8], &Value)]) -> bool {
    (1..tags.len()).any(|at| tags[..at].iter().any(|(key, _)| *key == tags[at].0))
}

impl Rule {
    /// Whether a tag is AGAIN: behind TEXT, UTF8 and TURN, before ROOM.
    fn refuses(&self, key: &[u8], value: &Value) -> bool {
        refuses_texts(&[key, value.text()]) == 0 && self.has(key)
    }

    /// Whether the open feature has that key.
    fn has(&self, key: &[u8]) -> bool {
        self.open.iter().flatten().any(|(known, _)| known == key)
    }

    /// Whether it has it with that value.
    fn has_tag(&self, key: &[u8], value: &Value) -> bool {
        let mut tags = self.open.iter().flatten();
        tags.any(|(known, its)| known == key && its == value)
    }

    /// Whether a whole feature is AGAIN: behind KIND, TEXT, UTF8 and TURN, before ROOM.
    fn refuses_whole(&self, feature: &Feature) -> bool {
        (1..=3).contains(&feature.kind)
            && refuses_texts(&feature.texts()) == 0
            && self.open.is_none()
            && repeats(&feature.tags)
    }

    /// An accepted call.
    fn accept(&mut self, operation: &Operation) {
        match operation {
            Operation::Create(..) => *self = Rule::default(),
            Operation::Open(..) => self.open = Some(Vec::new()),
            Operation::Tag(key, value) => {
                let tags = self.open.get_or_insert_default();
                tags.push((key.clone(), value.clone()));
            }
            Operation::Close => {
                let tags = self.open.take().unwrap_or_default();
                self.closed.extend(tags.into_iter().map(|(key, _)| key));
            }
            Operation::Abandon => {
                let tags = self.open.take().unwrap_or_default();
                self.abandoned.extend(tags.into_iter().map(|(key, _)| key));
            }
            Operation::SetId(_) | Operation::Add => {}
        }
    }
}

/// A run of both.
struct Run {
    strict: Side,
    ordinary: Side,
    rule: Rule,
    tally: Tally,
    calls: usize,
    /// The most that the strict layer and its tile have used of each list.
    peaks: Rooms,
    /// The turn at the first call.
    turn: usize,
    spoil: Spoil,
}

impl Run {
    fn new(script: &Script, spoil: Spoil) -> Self {
        Run {
            strict: Side::new(script.extent, script.rooms, true),
            ordinary: Side::new(script.extent, script.rooms, false),
            rule: Rule::default(),
            tally: Tally::default(),
            calls: 0,
            peaks: [0; 6],
            turn: script.turn,
            spoil,
        }
    }

    fn turn(&self) -> usize {
        self.turn + self.calls
    }

    /// A call that is AGAIN, and what an ordinary layer says to it on a copy: it does not look, so it takes it or has no room.
    fn met(&mut self, by: &'static str, ordinary: u32) -> Result<(), String> {
        if ![0, ROOM].contains(&ordinary) {
            return Err(format!("the ordinary layer says {ordinary}"));
        }
        self.tally.add(FULL, usize::from(ordinary == ROOM));
        self.tally.add(by, 1);
        Ok(())
    }

    /// What is wanted where a call is left out of the ordinary run.
    fn left_out(&self) -> Said {
        (AGAIN, self.ordinary.layer, self.ordinary.tile)
    }

    /// A call that is no whole feature.
    fn single(&mut self, operation: &Operation) -> Result<(), String> {
        let turn = self.turn();
        let said = self.strict.called(operation, turn);
        let said = self.changed(operation, said);
        let wanted = match operation {
            Operation::Tag(key, value) if self.rule.refuses(key, value) => {
                self.met(BY_TAG, self.ordinary.clone().called(operation, turn).0)?;
                let is_same = self.rule.has_tag(key, value);
                self.tally.add(SAME_VALUE, usize::from(is_same));
                self.left_out()
            }
            _ => self.ordinary.called(operation, turn),
        };
        if wanted.0 == 0 {
            self.accepted(operation);
        }
        self.compared(said, wanted)
    }

    fn accepted(&mut self, operation: &Operation) {
        if let Operation::Tag(key, _) = operation {
            let there = |keys: &[Vec<u8>]| usize::from(keys.contains(key));
            self.tally.add(OTHERS, there(&self.rule.closed));
            self.tally.add(ABANDONED, there(&self.rule.abandoned));
        }
        self.rule.accept(operation);
    }

    /// What was said of an accepted call, changed where that is wanted.
    fn changed(&self, operation: &Operation, said: Said) -> Said {
        let (refusal, mut layer, tile) = said;
        match (self.spoil, operation) {
            _ if refusal != 0 => said,
            (Spoil::Elsewhere, Operation::Tag(key, _)) if self.rule.closed.contains(key) => {
                (AGAIN, layer, tile)
            }
            (Spoil::Mark, Operation::Abandon) => {
                layer.is_strict = 0;
                (0, layer, tile)
            }
            _ => said,
        }
    }

    /// A whole feature by its own call.
    fn whole(&mut self, feature: &Feature) -> Result<(), String> {
        let said = self.strict.whole(feature);
        let wanted = if self.rule.refuses_whole(feature) {
            self.met(BY_WHOLE, self.ordinary.clone().whole(feature).0)?;
            self.left_out()
        } else {
            self.ordinary.whole(feature)
        };
        if wanted.0 == 0 {
            self.accepted_whole(feature);
        }
        self.compared(said, wanted)
    }

    fn accepted_whole(&mut self, feature: &Feature) {
        for operation in feature.calls() {
            self.accepted(&operation);
        }
    }

    /// Features by one call; the ordinary one is given those before the first that is AGAIN. How many operations they are, with the refused one.
    fn several(&mut self, features: &[Feature]) -> Result<usize, String> {
        let mut all = features.iter();
        let again = all.position(|feature| self.rule.refuses_whole(feature));
        let before = &features[..again.unwrap_or(features.len())];
        // Which indexes are lent changes from call to call and from script to script.
        let turn = self.turn() + self.strict.memory.features.room();
        let mut strict = self.strict.indexes(turn);
        let mut ordinary = strict.clone();
        let said = self.strict.several(features, &mut strict);
        let mut copy = self.ordinary.clone();
        let mut wanted = self.ordinary.several(before, &mut ordinary);
        if let (0, Some(at)) = (wanted.refusal, again) {
            let all = copy.several(&features[..=at], &mut ordinary.clone());
            self.met(BY_SEVERAL, all.refusal)?;
            self.met_several(wanted.count, &ordinary);
            wanted.refusal = AGAIN;
        }
        if said.count != wanted.count {
            let (strict, ordinary) = (said.count, wanted.count);
            return Err(format!("{strict} features accepted, expected {ordinary}"));
        }
        for (strict, ordinary) in strict.iter_mut().zip(&ordinary) {
            strict.expect_like(ordinary);
            strict.differs("an index").map_or(Ok(()), Err)?;
        }
        for feature in &features[..wanted.count] {
            self.accepted_whole(feature);
        }
        let (strict, ordinary) = (self.strict.tile, self.ordinary.tile);
        self.compared(
            (said.refusal, said.layer, strict),
            (wanted.refusal, wanted.layer, ordinary),
        )?;
        let passed = features.iter().take(wanted.count + 1);
        Ok(passed.map(|feature| feature.operations).sum())
    }

    /// AGAIN behind so many features of one call, with these indexes.
    fn met_several(&mut self, accepted: usize, [keys, values]: &[Watched<u32>; 2]) {
        let memory = &self.ordinary.memory;
        let is_indexed = many::serves(keys.room(), memory.keys.room() / 2)
            || many::serves(values.room(), memory.values.room() / 3);
        self.tally.add(BEHIND, usize::from(accepted > 0));
        let how = if is_indexed { INDEXED } else { SCANNED };
        self.tally.add(how, 1);
    }

    /// The strict run's answer, layer, tile and lists are the ordinary run's, but for the mark.
    fn compared(&mut self, mut said: Said, wanted: Said) -> Result<(), String> {
        match (self.spoil, said.0) {
            (Spoil::Unsaid, AGAIN) => said.0 = 0,
            (Spoil::Room, AGAIN) => said.0 = ROOM,
            _ => {}
        }
        let (refusal, layer, tile) = wanted;
        let marked = Layer {
            is_strict: 1,
            ..layer
        };
        if layer.is_strict != 0 || said != (refusal, marked, tile) {
            return Err(format!("strict {said:?}, ordinary {wanted:?}"));
        }
        self.strict.carry(said);
        self.ordinary.carry(wanted);
        self.alike()?;
        self.asked()?;
        self.counted(refusal);
        Ok(())
    }

    /// Every element of every list, and the guards.
    fn alike(&mut self) -> Result<(), String> {
        if !self.ordinary.memory.is_guarded() {
            return Err("an ordinary layer's guard is harmed".to_string());
        }
        self.strict.memory.expect_like(&self.ordinary.memory);
        self.strict.memory.differs().map_or(Ok(()), Err)
    }

    /// Every question to the layer and the tile.
    fn asked(&mut self) -> Result<(), String> {
        let (strict, ordinary) = (self.strict.asked(), self.ordinary.asked());
        if strict != ordinary {
            return Err(format!("asked: strict {strict:?}, ordinary {ordinary:?}"));
        }
        self.alike()
    }

    fn counted(&mut self, refusal: u32) {
        self.calls += 1;
        let answer = ANSWERS.iter().find(|(number, _)| *number == refusal);
        let (_, name) = answer.expect("a refusal of these calls");
        self.tally.add("calls", 1);
        self.tally.add(name, 1);
        let used = self.strict.used();
        for (peak, used) in self.peaks.iter_mut().zip(used) {
            *peak = used.max(*peak);
        }
    }
}

/// What was compared, and what was used of the lists.
fn run(script: &Script, spoil: Spoil) -> Result<(Tally, Rooms), String> {
    let mut run = Run::new(script, spoil);
    let mut at = 0;
    while at < script.operations.len() {
        let rest = &script.operations[at..];
        let most = if script.whole { 1 + run.turn() % 4 } else { 0 };
        let features = Feature::several(rest, most);
        let passed = match &features[..] {
            [] => run.single(&rest[0]).map(|()| 1),
            [feature] if run.turn() % 2 == 0 => run.whole(feature).map(|()| feature.operations),
            several => run.several(several),
        };
        at += passed.map_err(|differs| format!("operation {}: {differs}", at + 1))?;
    }
    run.tally.add("tile bytes", run.strict.tile.used);
    Ok((run.tally, run.peaks))
}

/// A script run and counted: what it used of the lists, or the smallest that differs.
fn tallied(script: Script, spoil: Spoil, tally: &mut Tally) -> Result<Rooms, Difference> {
    let tried = |script: &Script| caught(|| run(script, spoil));
    match tried(&script) {
        Ok((counts, peaks)) => {
            tally.add(SCRIPTS, 1);
            tally.add(CLEAN, usize::from(counts.count("AGAIN") == 0));
            tally.add_all(counts);
            Ok(peaks)
        }
        Err(_) => {
            let differs = |script: &Script| tried(script).err();
            let (script, what) = smallest(script, &differs, &simpler);
            let input = format!("{script:?}");
            Err(Difference { what, input })
        }
    }
}

/// The operations with more room than they need, and then in each of these rooms, which follow from what the strict layer used.
fn in_rooms(
    mut script: Script,
    more: impl FnOnce(Rooms) -> Vec<Rooms>,
    spoil: Spoil,
    tally: &mut Tally,
) -> Result<(), Difference> {
    script.rooms = bounds(&script.operations);
    let needed = tallied(script.clone(), spoil, tally)?;
    for rooms in more(needed) {
        script.rooms = rooms;
        tallied(script.clone(), spoil, tally)?;
    }
    Ok(())
}

/// A script of cases.py's kind; one of five is disordered.
fn one(
    file: &[u8],
    random: &mut Random,
    at: usize,
    spoil: Spoil,
    tally: &mut Tally,
) -> Result<(), Difference> {
    let Some((extent, mut operations, _)) = scripts::taken_apart(file) else {
        return Ok(());
    };
    if at % 5 == 4 {
        operations = disordered(random, operations);
    }
    let script = Script {
        extent,
        operations,
        rooms: [0; 6],
        whole: at % 2 == 1,
        turn: random.below(16),
    };
    let just = |needed| vec![rooms(needed, random, at)];
    in_rooms(script, just, spoil, tally)
}

/// Whole features, most of them with a key twice, in lists just as long as they need and in shorter ones.
fn near_full(seed: u64, count: usize, spoil: Spoil, tally: &mut Tally) -> Result<(), Difference> {
    let mut random = Random::new(seed ^ 0xF011);
    for at in 0..count {
        let script = Script {
            extent: 4096,
            operations: near::script(&mut random),
            rooms: [0; 6],
            whole: at % 4 > 0,
            turn: random.below(16),
        };
        in_rooms(script, near::rooms, spoil, tally)?;
    }
    Ok(())
}

/// The fixed scripts by single calls and as whole features, whole features in lists that are nearly full, then the random scripts.
fn all(seed: u64, count: usize, spoil: Spoil, tally: &mut Tally) -> Result<(), Difference> {
    let mut lengths = Random::new(seed ^ 0x5EED);
    for file in scripts::fixed_tiles() {
        for at in 0..12 {
            one(&file, &mut lengths, at, spoil, tally)?;
        }
    }
    near_full(seed, count / 10, spoil, tally)?;
    let mut random = Random::new(seed);
    for at in 0..count {
        let file = scripts::next_tile(&mut random, at);
        one(&file, &mut lengths, at, spoil, tally)?;
    }
    Ok(())
}

/// Each answer, and whatever else shows the rule, has to be seen more than once in a thousand scripts.
fn unseen(tally: &Tally) -> Option<Difference> {
    let mut names = ANSWERS.iter().map(|(_, name)| name).chain(&SEEN);
    let scripts = tally.count(SCRIPTS);
    let name = names.find(|name| tally.count(name) * 1000 <= scripts)?;
    Some(Difference {
        what: format!("{name}: seen {} times", tally.count(name)),
        input: format!("{scripts} scripts"),
    })
}

/// The answers that are written out, the caps, then the scripts.
pub fn compare(seed: u64, count: usize, spoil: Spoil, tally: &mut Tally) -> Option<Difference> {
    if spoil != Spoil::Nothing {
        return all(seed, count, spoil, tally).err();
    }
    again_cases::compare(tally)
        .or_else(|| caps::compare(true, tally))
        .or_else(|| all(seed, count, spoil, tally).err())
        .or_else(|| unseen(tally))
}
