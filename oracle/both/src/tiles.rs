//! Tile scripts through both, call by call: after every call the answer, the carried layer and tile, and every element of the six lists.

use crate::caps;
use crate::features::Feature;
use crate::many;
use crate::near;
use crate::random::Random;
use crate::report::{Difference, Tally};
use crate::scripts::{self, Operation};
use crate::shrink;
use crate::side::{Said, Side};
use crate::tile_cases::{bounds, disordered, peaks, rooms, simpler, Script};
use crate::tile_judge::{is_text, TileJudge, TEXT, UTF8};

/// What is changed of ours before it is compared, to show that it is found.
#[derive(Clone, Copy, PartialEq)]
pub enum Spoil {
    Nothing,
    /// A byte of the tile.
    Byte,
    /// UTF8 is said to be TEXT.
    Text,
}

/// What was compared.
#[derive(Default)]
pub struct Counts {
    pub calls: usize,
    whole: usize,
    many: usize,
    /// By the refusal's number; 0 is accepted.
    pub refused: [usize; 23],
    no_layer: usize,
    tags: usize,
    bytes: usize,
}

/// A run of both sides.
struct Run {
    judge: TileJudge,
    ours: Side,
    counts: Counts,
    /// The turn at the first call.
    turn: usize,
    spoil: Spoil,
}

impl Run {
    fn turn(&self) -> usize {
        self.turn + self.counts.calls
    }

    /// One call of ours.
    fn called(&mut self, operation: &Operation) -> Said {
        let said = self.ours.called(operation, self.turn());
        let added = *operation == Operation::Add && said.0 == 0 && said.2.used > 12;
        if added && self.spoil == Spoil::Byte {
            self.ours.memory.bytes.lent()[12] ^= 1;
        }
        said
    }

    /// Features by one call, and what is expected of it: how many are accepted, the refusal, and what the indexes hold after it.
    fn several(&mut self, features: &[Feature]) -> Result<(usize, u32, Said), String> {
        // Which indexes are lent changes from call to call and from script to script.
        let turn = self.turn() + self.ours.memory.features.room();
        let (mut accepted, mut refusal) = (0, 0);
        for feature in features {
            refusal = self.judged_whole(feature);
            if refusal != 0 {
                break;
            }
            accepted += 1;
        }
        let mut indexes = self.ours.indexes(turn);
        let said = self.ours.several(features, &mut indexes);
        if said.count != accepted {
            return Err(format!(
                "{} features accepted, expected {accepted}",
                said.count
            ));
        }
        let [mut keys, mut values] = indexes;
        // Without an accepted feature they stay.
        if accepted > 0 {
            many::expect_keys(&mut keys, &self.ours.memory, self.judge.layer.used);
            many::expect_values(&mut values, &self.ours.memory, self.judge.layer.used);
        }
        if let Some(differs) = keys
            .differs("keys' index")
            .or(values.differs("values' index"))
        {
            return Err(differs);
        }
        self.counts.many += 1;
        let said = (said.refusal, said.layer, self.ours.tile);
        Ok((accepted, refusal, said))
    }

    /// What a whole feature is expected to answer. A refused one changes nothing; an accepted one is what its calls make, which are all accepted.
    fn judged_whole(&mut self, feature: &Feature) -> u32 {
        let (kind, words) = (feature.kind, feature.words.len());
        let refusal = self
            .judge
            .refuses_whole(kind, words, &feature.tags, &self.ours.memory);
        if refusal == 0 {
            for call in feature.calls() {
                let refused = self.judge.perform(&call, &mut self.ours.memory);
                assert_eq!(refused, 0, "{call:?} of a feature that is accepted");
            }
        }
        refusal
    }

    fn compared(&mut self, what: &str, mut said: Said, refusal: u32) -> Result<(), String> {
        if self.spoil == Spoil::Text && said.0 == UTF8 {
            said.0 = TEXT;
        }
        let wanted = (refusal, self.judge.layer, self.judge.tile);
        // A layer that there is not is not looked at.
        if said != wanted && (said.0 != wanted.0 || self.judge.has_layer() || said.2 != wanted.2) {
            return Err(format!("{what}: ours {said:?}, expected {wanted:?}"));
        }
        if let Some(differs) = self.ours.memory.differs() {
            return Err(format!("after {what}: {differs}"));
        }
        self.ours.carry(said);
        self.counts.calls += 1;
        self.counts.refused[refusal as usize] += 1;
        self.asked(what)
    }

    /// Every question to the tile, and to the layer if there is one.
    fn asked(&mut self, what: &str) -> Result<(), String> {
        let wanted_tile = self.judge.sizes();
        let has_layer = self.judge.has_layer();
        let (features, tags) = (self.judge.num_features(), self.judge.num_tags());
        let (layer, tile) = (self.ours.layer, self.ours.tile);
        let (mut lists, tile_lists) = self.ours.memory.lent();
        let told = [
            tile.num_layers(&tile_lists),
            tile.compute_size(&tile_lists),
            tile.to_bytes(&tile_lists),
        ]
        .map(|c| (c.refusal, c.count));
        if told != [(0, wanted_tile.0), (0, wanted_tile.1), (0, wanted_tile.1)] {
            return Err(format!(
                "num_layers, compute_size, to_bytes after {what}: ours {told:?}, expected {wanted_tile:?}"
            ));
        }
        if has_layer {
            let told = [layer.num_features(&mut lists), layer.num_tags(&mut lists)]
                .map(|c| (c.refusal, c.count));
            let wanted = [
                (0, features),
                tags.map_or_else(|refusal| (refusal, 0), |n| (0, n)),
            ];
            let name = layer.name(&mut lists);
            if told != wanted || (name.refusal, name.start, name.len) != (0, 0, layer.name) {
                return Err(format!(
                    "num_features, num_tags after {what}: ours {told:?}, expected {wanted:?}; name {name:?}"
                ));
            }
        }
        match self.ours.memory.differs() {
            Some(differs) => Err(format!("after asking: {differs}")),
            None => Ok(()),
        }
    }
}

fn run(script: &Script, spoil: Spoil) -> Result<Counts, String> {
    let mut run = Run {
        judge: TileJudge::new(script.extent),
        ours: Side::new(script.extent, script.rooms, false),
        counts: Counts::default(),
        turn: script.turn,
        spoil,
    };
    let mut at = 0;
    while at < script.operations.len() {
        let rest = &script.operations[at..];
        let most = if script.whole { 1 + run.turn() % 4 } else { 0 };
        let features = Feature::several(rest, most);
        let operation = &rest[0];
        let what = format!("operation {}", at + 1);
        if !run.judge.has_layer() && !matches!(operation, Operation::Create(..)) {
            run.counts.no_layer += 1;
            at += features.first().map_or(1, |feature| feature.operations);
            continue;
        }
        let (refusal, said) = match &features[..] {
            [] => {
                at += 1;
                (
                    run.judge.perform(operation, &mut run.ours.memory),
                    run.called(operation),
                )
            }
            [feature] if run.turn() % 2 == 0 => {
                run.counts.whole += 1;
                at += feature.operations;
                (run.judged_whole(feature), run.ours.whole(feature))
            }
            several => {
                let (accepted, refusal, said) = run
                    .several(several)
                    .map_err(|differs| format!("{what}: {differs}"))?;
                // The one that is refused is passed over too.
                let passed = several.iter().take(accepted + 1);
                at += passed.map(|feature| feature.operations).sum::<usize>();
                (refusal, said)
            }
        };
        run.compared(&what, said, refusal)?;
    }
    run.counts.tags = run.judge.tags;
    run.counts.bytes = run.judge.tile.used;
    Ok(run.counts)
}

fn tried(script: &Script, spoil: Spoil) -> Result<Counts, String> {
    shrink::caught(|| run(script, spoil))
}

/// A script with more room than it can use: what was compared, or what differs.
pub fn answers(
    operations: Vec<Operation>,
    whole: bool,
    turn: usize,
    spoil: Spoil,
) -> Result<Counts, String> {
    let script = Script {
        extent: 4096,
        rooms: bounds(&operations),
        operations,
        whole,
        turn,
    };
    tried(&script, spoil)
}

/// Whether all its texts are UTF-8.
fn has_texts(operation: &Operation) -> bool {
    match operation {
        Operation::Create(_, name) => is_text(name),
        Operation::Tag(key, value) => is_text(key) && is_text(value.text()),
        _ => true,
    }
}

const REFUSALS: [(usize, &str); 8] = [
    (0, "accepted"),
    (2, "KIND"),
    (7, "ROOM"),
    (11, "TEXT"),
    (22, "UTF8"),
    (12, "TURN"),
    (13, "EXTENT"),
    (14, "NAME"),
];

/// One script.
fn one(
    file: &[u8],
    random: &mut Random,
    at: usize,
    spoil: Spoil,
    tally: &mut Tally,
) -> Option<Difference> {
    let Some((extent, mut operations, read)) = scripts::taken_apart(file) else {
        tally.add("files without a script", 1);
        return None;
    };
    if !read {
        tally.add("scripts compared as far as they can be read", 1);
    }
    if at % 5 == 4 {
        operations = disordered(random, operations);
        tally.add("scripts with operations disordered", 1);
    }
    held_against(extent, operations, random, at, spoil, tally)
}

/// A script of operations that the Rust can be asked or document 01 refuses.
fn held_against(
    extent: u32,
    operations: Vec<Operation>,
    random: &mut Random,
    at: usize,
    spoil: Spoil,
    tally: &mut Tally,
) -> Option<Difference> {
    let rooms = rooms(peaks(extent, &operations), random, at);
    let script = Script {
        extent,
        operations,
        rooms,
        whole: at % 4 == 1,
        turn: 0,
    };
    let how = ["with enough room", "with just enough", "with little room"][at % 3];
    tallied(script, how, spoil, tally)
}

/// A script run and counted, or the smallest that differs.
fn tallied(
    script: Script,
    how: &'static str,
    spoil: Spoil,
    tally: &mut Tally,
) -> Option<Difference> {
    match tried(&script, spoil) {
        Ok(counts) => {
            tally.add("scripts", 1);
            tally.add(how, 1);
            if !script.operations.iter().all(has_texts) {
                tally.add("with a text that is not UTF-8", 1);
            }
            tally.add("calls", counts.calls);
            tally.add("of them whole features", counts.whole);
            tally.add("of them several features at once", counts.many);
            for (number, name) in REFUSALS {
                tally.add(name, counts.refused[number]);
            }
            tally.add(
                "operations without a layer at hand (no call)",
                counts.no_layer,
            );
            tally.add("tags", counts.tags);
            tally.add("tile bytes", counts.bytes);
            None
        }
        Err(_) => {
            let differs = |script: &Script| tried(script, spoil).err();
            let (script, what) = shrink::smallest(script, &differs, &simpler);
            Some(Difference {
                what,
                input: format!("{script:?}"),
            })
        }
    }
}

/// Scripts of whole features alone, in lists just as long as they need and in shorter ones.
fn near_full(seed: u64, count: usize, spoil: Spoil, tally: &mut Tally) -> Option<Difference> {
    let mut random = Random::new(seed ^ 0xF011);
    for _ in 0..count {
        let (mut operations, turn) = (near::script(&mut random), random.below(16));
        let needed = peaks(4096, &operations);
        if random.chance(4) {
            operations = near::disturbed(&mut random, operations);
        }
        for rooms in near::rooms(needed) {
            let script = Script {
                extent: 4096,
                operations: operations.clone(),
                rooms,
                whole: true,
                turn,
            };
            let how = "of whole features, with just enough or up to three elements less";
            if let Some(found) = tallied(script, how, spoil, tally) {
                return Some(found);
            }
        }
    }
    None
}

/// A geometry that is too wide though there is room for it, by its own call and as a whole feature.
fn too_wide(spoil: Spoil, tally: &mut Tally) -> Option<Difference> {
    for operations in scripts::widest_tiles() {
        for turn in 0..4 {
            let script = Script {
                extent: 4096,
                rooms: bounds(&operations),
                operations: operations.clone(),
                whole: turn > 0,
                turn,
            };
            if let Some(found) = tallied(script, "with enough room", spoil, tally) {
                return Some(found);
            }
        }
    }
    None
}

/// The fixed and the large scripts in each of the three rooms, with single calls and whole features; the widest ones and the caps; whole features in lists that are nearly full; then the random ones.
pub fn compare(seed: u64, count: usize, spoil: Spoil, tally: &mut Tally) -> Option<Difference> {
    let mut rooms = Random::new(seed ^ 0x5EED);
    for file in scripts::fixed_tiles()
        .into_iter()
        .chain(scripts::large_tiles())
    {
        for at in 0..12 {
            if let Some(found) = one(&file, &mut rooms, at, spoil, tally) {
                return Some(found);
            }
        }
    }
    for operations in scripts::widest_tiles() {
        for at in 0..3 {
            let operations = operations.clone();
            if let Some(found) = held_against(4096, operations, &mut rooms, at, spoil, tally) {
                return Some(found);
            }
        }
    }
    let found = too_wide(spoil, tally)
        .or_else(|| caps::compare(false, tally))
        .or_else(|| near_full(seed, count / 10, spoil, tally));
    if found.is_some() {
        return found;
    }
    let mut random = Random::new(seed);
    for at in 0..count {
        let file = scripts::next_tile(&mut random, at);
        if let Some(found) = one(&file, &mut rooms, at, spoil, tally) {
            return Some(found);
        }
    }
    None
}
