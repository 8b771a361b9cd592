//! The same seeded cases through the Rust and through our compiled library, in one process.
//! A kind of case is a module with a function `compare`, which ends at the first difference.

mod again_cases;
mod arbitrary;
mod arbitrary_tiles;
mod calls;
mod caps;
mod cases;
mod clips;
mod counts;
mod doubles;
mod drawing;
mod edges;
mod features;
mod grid;
mod held;
mod held_calls;
mod jobs;
mod judge;
mod laws;
mod lent;
mod many;
mod near;
mod open;
mod open_tiles;
mod random;
mod readings;
mod recount;
mod report;
mod scripts;
mod shrink;
mod side;
mod strict;
mod survey;
mod text_lists;
mod texts;
mod tile_cases;
mod tile_judge;
mod tiles;
mod varints;
mod whole;
mod word_lists;

use grid::Way;
use jobs::Spoil;
use report::{Difference, Tally};
use std::process::exit;

const USAGE: &str = "usage: both jobs|clips|counts|laws|open|readings|strict|survey|texts|tiles|varints|arbitrary|arbitrary-tiles|spoiled-jobs|spoiled-clips|spoiled-turned|spoiled-moved|spoiled-edges|spoiled-calls|spoiled-taken|spoiled-boundary|spoiled-skipped|spoiled-taken-out|spoiled-refused|spoiled-most|spoiled-vertices|spoiled-finished|spoiled-open-place|spoiled-open-early|spoiled-open-name|spoiled-open-extent|spoiled-open-truth|spoiled-open-word|spoiled-open-state|spoiled-open-room|spoiled-readings|spoiled-place|spoiled-cuts|spoiled-command-count|spoiled-close|spoiled-nought|spoiled-written|spoiled-behind|spoiled-texts|spoiled-text-calls|spoiled-text-order|spoiled-again|spoiled-elsewhere|spoiled-again-room|spoiled-mark|spoiled-half|spoiled-even|spoiled-fused|spoiled-behind-first|spoiled-limit|spoiled-nan|spoiled-exchanged|spoiled-surveyed-state|spoiled-surveyed-room|spoiled-survey|spoiled-odd|spoiled-block|spoiled-tiles|spoiled-varints|spoiled-arbitrary|spoiled-arbitrary-grid|spoiled-carried-room|spoiled-carried-second|spoiled-carried-lone|spoiled-carried-mark SEED COUNT, or both cases jobs|large_jobs|clips|tiles|large_tiles|readings|survey|texts SEED COUNT";

fn run(kind: &str, seed: u64, count: usize, tally: &mut Tally) -> Option<Difference> {
    match kind {
        "jobs" => jobs::compare(seed, count, Spoil::Nothing, tally),
        // Shows that a difference is found: a word of ours is changed before it is compared.
        "spoiled-jobs" => jobs::compare(seed, count, Spoil::Word, tally),
        // The same: another edge in a job's list, and in the answer to a point.
        "spoiled-edges" => jobs::compare(seed, count, Spoil::Edge, tally),
        "spoiled-calls" => jobs::compare(seed, count, Spoil::Call, tally),
        "clips" => clips::compare(seed, count, false, tally),
        // The same: another edge of a clip.
        "spoiled-clips" => clips::compare(seed, count, true, tally),
        "counts" => counts::compare(seed, count, calls::Spoil::Nothing, tally),
        // The same: a count that a call raised is as it was.
        "spoiled-taken" => counts::compare(seed, count, calls::Spoil::Taken, tally),
        "spoiled-boundary" => counts::compare(seed, count, calls::Spoil::Boundary, tally),
        "spoiled-skipped" => counts::compare(seed, count, calls::Spoil::Skipped, tally),
        "spoiled-taken-out" => counts::compare(seed, count, calls::Spoil::TakenOut, tally),
        // The same: a refused point is counted, and a count is refused that just fits.
        "spoiled-refused" => counts::compare(seed, count, calls::Spoil::Refused, tally),
        "spoiled-most" => counts::compare(seed, count, calls::Spoil::Most, tally),
        // The same: ClosePath among the vertices of the equation, and another count in the state after a whole job.
        "spoiled-vertices" => counts::compare(seed, count, calls::Spoil::Vertices, tally),
        "spoiled-finished" => counts::compare(seed, count, calls::Spoil::Finished, tally),
        "laws" => laws::compare(seed, count, laws::Spoil::Nothing, tally),
        // The same: another edge of a clip from the other end, and of a clip that is moved.
        "spoiled-turned" => laws::compare(seed, count, laws::Spoil::Turned, tally),
        "spoiled-moved" => laws::compare(seed, count, laws::Spoil::Moved, tally),
        "open" => open::compare(seed, count, open::Spoil::Nothing, tally),
        // The same: a fault's place is one more, a tile that ends too early is good, a name stands further, a missing extent is 0, a bool is by its low 32 bits, a word is
        // another, WIRE is said for STATE, a list that is too short is written into.
        "spoiled-open-place" => open::compare(seed, count, open::Spoil::Place, tally),
        "spoiled-open-early" => open::compare(seed, count, open::Spoil::Early, tally),
        "spoiled-open-name" => open::compare(seed, count, open::Spoil::Name, tally),
        "spoiled-open-extent" => open::compare(seed, count, open::Spoil::Extent, tally),
        "spoiled-open-truth" => open::compare(seed, count, open::Spoil::Truth, tally),
        "spoiled-open-word" => open::compare(seed, count, open::Spoil::Word, tally),
        "spoiled-open-state" => open::compare(seed, count, open::Spoil::State, tally),
        "spoiled-open-room" => open::compare(seed, count, open::Spoil::Room, tally),
        "readings" => readings::compare(seed, count, readings::Spoil::Nothing, tally),
        // The same: a fault of ours is said to be COMMAND, a cut's place is one more, one cut is said to be the other, COUNT to be COMMAND.
        "spoiled-readings" => readings::compare(seed, count, readings::Spoil::Fault, tally),
        "spoiled-place" => readings::compare(seed, count, readings::Spoil::Place, tally),
        "spoiled-cuts" => readings::compare(seed, count, readings::Spoil::Cuts, tally),
        "spoiled-command-count" => readings::compare(seed, count, readings::Spoil::Count, tally),
        // The same: a count that is COUNT is read, and a number is written that should stay.
        "spoiled-close" => readings::compare(seed, count, readings::Spoil::Close, tally),
        "spoiled-nought" => readings::compare(seed, count, readings::Spoil::Nought, tally),
        "spoiled-written" => readings::compare(seed, count, readings::Spoil::Written, tally),
        "spoiled-behind" => readings::compare(seed, count, readings::Spoil::Behind, tally),
        "texts" => texts::compare(seed, count, texts::Spoil::Nothing, tally),
        // The same: a surrogate is accepted, UTF8 is said to be TEXT by calls on a layer, and to be TURN where more than one check fails.
        "spoiled-texts" => texts::compare(seed, count, texts::Spoil::Surrogate, tally),
        "spoiled-text-calls" => texts::compare(seed, count, texts::Spoil::Call, tally),
        "spoiled-text-order" => texts::compare(seed, count, texts::Spoil::Order, tally),
        "tiles" => tiles::compare(seed, count, tiles::Spoil::Nothing, tally),
        // The same: a byte of ours is changed.
        "spoiled-tiles" => tiles::compare(seed, count, tiles::Spoil::Byte, tally),
        "strict" => strict::compare(seed, count, strict::Spoil::Nothing, tally),
        // The same: AGAIN is not said, it is said of a key that another feature has, ROOM is said for it; abandoning loses the mark.
        "spoiled-again" => strict::compare(seed, count, strict::Spoil::Unsaid, tally),
        "spoiled-elsewhere" => strict::compare(seed, count, strict::Spoil::Elsewhere, tally),
        "spoiled-again-room" => strict::compare(seed, count, strict::Spoil::Room, tally),
        "spoiled-mark" => strict::compare(seed, count, strict::Spoil::Mark, tally),
        "survey" => survey::compare(seed, count, survey::Spoil::Nothing, tally),
        // The same: the grid by a way that is wrong somewhere; COORD before STATE and ROOM before COORD in a call; a word of ours, an odd list that is taken, a point behind
        // the first block elsewhere.
        "spoiled-half" => survey::compare(seed, count, survey::Spoil::Grid(Way::Half), tally),
        "spoiled-even" => survey::compare(seed, count, survey::Spoil::Grid(Way::Even), tally),
        "spoiled-fused" => survey::compare(seed, count, survey::Spoil::Grid(Way::Fused), tally),
        "spoiled-behind-first" => {
            survey::compare(seed, count, survey::Spoil::Grid(Way::Behind), tally)
        }
        "spoiled-limit" => survey::compare(seed, count, survey::Spoil::Grid(Way::Limit), tally),
        "spoiled-nan" => survey::compare(seed, count, survey::Spoil::Grid(Way::Nan), tally),
        "spoiled-exchanged" => {
            survey::compare(seed, count, survey::Spoil::Grid(Way::Exchanged), tally)
        }
        "spoiled-surveyed-state" => survey::compare(seed, count, survey::Spoil::State, tally),
        "spoiled-surveyed-room" => survey::compare(seed, count, survey::Spoil::Room, tally),
        "spoiled-survey" => survey::compare(seed, count, survey::Spoil::Word, tally),
        "spoiled-odd" => survey::compare(seed, count, survey::Spoil::Odd, tally),
        "spoiled-block" => survey::compare(seed, count, survey::Spoil::Block, tally),
        "varints" => varints::compare(seed, count, false, tally),
        // The same: our size is one more.
        "spoiled-varints" => varints::compare(seed, count, true, tally),
        "arbitrary" => arbitrary::run(seed, count, arbitrary::Spoil::Nothing, tally),
        // The same: a count that a call on a state answers is one more; the grid has halves at the even number.
        "spoiled-arbitrary" => arbitrary::run(seed, count, arbitrary::Spoil::Count, tally),
        "spoiled-arbitrary-grid" => arbitrary::run(seed, count, arbitrary::Spoil::Grid, tally),
        "arbitrary-tiles" => {
            arbitrary_tiles::run(seed, count, arbitrary_tiles::Spoil::Nothing, tally)
        }
        // The same: of layers that are carried, ROOM is said for AGAIN, AGAIN is not said by a key's second entry, it is said of a lone word, any mark is taken.
        "spoiled-carried-room" => {
            arbitrary_tiles::run(seed, count, arbitrary_tiles::Spoil::Room, tally)
        }
        "spoiled-carried-second" => {
            arbitrary_tiles::run(seed, count, arbitrary_tiles::Spoil::Second, tally)
        }
        "spoiled-carried-lone" => {
            arbitrary_tiles::run(seed, count, arbitrary_tiles::Spoil::Lone, tally)
        }
        "spoiled-carried-mark" => {
            arbitrary_tiles::run(seed, count, arbitrary_tiles::Spoil::Mark, tally)
        }
        _ => {
            eprintln!("{USAGE}");
            exit(2)
        }
    }
}

fn main() {
    let words: Vec<String> = std::env::args().skip(1).collect();
    let number = |at: usize| -> usize {
        words
            .get(at)
            .and_then(|n| n.parse().ok())
            .unwrap_or_else(|| {
                eprintln!("{USAGE}");
                exit(2)
            })
    };
    // A panic of the Rust is an answer; nothing is printed about it. Where only ours is called one would be a fault of this program.
    let kind = words.first().map_or("", String::as_str);
    if !kind.starts_with("arbitrary") {
        std::panic::set_hook(Box::new(|_| {}));
    }
    if kind == "cases" {
        return cases::print(&words[1], number(2) as u64, number(3));
    }
    if ours::versions() != [ours::VERSION; 3] {
        eprintln!(
            "both: the archives are of the interfaces {:?}, not of {}",
            ours::versions(),
            ours::VERSION
        );
        exit(2);
    }
    let (seed, count) = (number(1) as u64, number(2));
    let mut tally = Tally::default();
    let found = run(kind, seed, count, &mut tally);
    println!(
        "{kind} (seed {seed}, {count} random cases): {}",
        tally.text()
    );
    if let Some(Difference { what, input }) = found {
        println!("DIFFERENCE in {kind}: {what}\nsmallest input: {input}");
        exit(1);
    }
    println!("{kind}: no difference");
}
