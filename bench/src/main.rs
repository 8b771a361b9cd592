//! One piece of work, so many times over, by our library or by the Rust: bench WORK ours|rust|same TIMES (same: the two tiles are compared, or a survey's words with those
//! of its grid points, or a tile is opened and its features counted). Tiles are opened by prost where it says `rust`, with the Rust's own messages.
//! Counting the instructions of two runs and subtracting gives those of the work alone (bench/run does it).

mod tiles;
mod walk;
mod works;

use std::hint::black_box;
use std::process::exit;
use works::Work;

fn ours(work: &Work, memory: &mut Memory) {
    match work {
        Work::Encode {
            kind,
            edges,
            points,
        } => {
            let ends = [(points.len() / 2) as u32];
            black_box(ours::encode_job(
                *kind,
                *edges,
                points,
                &ends,
                &mut memory.words,
            ));
        }
        Work::Survey { survey, .. } => {
            let ends = [(survey.points.len() / 2) as u32];
            black_box(ours::encode_survey(
                survey.kind,
                survey.edges,
                survey.map,
                &survey.points,
                &ends,
                &mut memory.words,
            ));
        }
        Work::Clip { edges, segments } => {
            for segment in segments {
                black_box(ours::clip(*segment, *edges));
            }
        }
        Work::Decode { words } => {
            black_box(ours::decode(words, &mut memory.numbers));
        }
        Work::Tile { given, manner } => {
            black_box(tiles::ours(given, *manner, &mut memory.tiles));
        }
        Work::Open {
            bytes, is_walked, ..
        } => {
            black_box(ours::reader::open(bytes));
            if *is_walked {
                black_box(walk::walked(bytes, &mut memory.words));
            }
        }
    }
}

/// The Rust's encoder, fresh.
#[inline]
fn encoder(kind: u32, [x_min, x_max, y_min, y_max]: [i32; 4]) -> mvt::GeomEncoder<i32> {
    use mvt::GeomType::{Linestring, Point, Polygon};
    let geometry = [Point, Linestring, Polygon][kind as usize - 1];
    mvt::GeomEncoder::new(geometry).bbox(pointy::BBox::new(x_min, x_max, y_min, y_max))
}

fn rust(work: &Work) {
    use mvt::CoordNum;
    use pointy::{BBox, Pt, Seg};
    match work {
        Work::Encode {
            kind,
            edges,
            points,
        } => {
            let mut encoder = encoder(*kind, *edges);
            for point in points.chunks_exact(2) {
                encoder
                    .add_point(point[0], point[1])
                    .expect("whole coordinates are accepted");
            }
            black_box(encoder.encode().expect("encoding has no refusal"));
        }
        Work::Survey { survey, .. } => {
            let mut encoder = encoder(survey.kind, survey.edges);
            let ours::Affine { a, b, c, d, e, f } = survey.map;
            for point in survey.points.chunks_exact(2) {
                let (x, y) = (point[0], point[1]);
                let (x, y) = ((a * x + b * y + c).round(), (d * x + e * y + f).round());
                encoder
                    .add_point(x as i32, y as i32)
                    .expect("whole coordinates are accepted");
            }
            black_box(encoder.encode().expect("encoding has no refusal"));
        }
        Work::Clip { edges, segments } => {
            let bbox = BBox::new(edges[0], edges[1], edges[2], edges[3]);
            for [x0, y0, x1, y1] in segments {
                let given = Seg::new(Pt::from((*x0, *y0)), Pt::from((*x1, *y1)));
                black_box(i32::clip(given, bbox));
            }
        }
        Work::Decode { .. } => {
            eprintln!("the Rust reads no words");
            exit(2)
        }
        Work::Tile { given, .. } => {
            black_box(tiles::rust(given));
        }
        // With what it takes to give the messages' memory back.
        Work::Open { bytes, .. } => {
            drop(black_box(opened::decoded(bytes)));
        }
    }
}

/// Our lists, lent to every call.
struct Memory {
    words: Vec<u32>,
    numbers: Vec<i32>,
    tiles: tiles::Memory,
}

/// The Rust's tables take their random keys from here, so that a count is the same at every run.
#[no_mangle]
extern "C" fn getrandom(to: *mut u8, length: usize, _flags: u32) -> isize {
    unsafe { to.write_bytes(0x5A, length) };
    length as isize
}

/// Whether the two tiles are the same, before their instructions are compared; of a survey, whether its words are those of the grid points that it was made of;
/// of a tile to be opened, whether all its features are read.
fn same(work: &Work, memory: &mut Memory) {
    if let Work::Survey { survey, grid } = work {
        let ends = [(grid.len() / 2) as u32];
        let mut words = vec![0; 1_048_576];
        let wanted = ours::encode_job(survey.kind, survey.edges, grid, &ends, &mut words);
        let given = ours::encode_survey(
            survey.kind,
            survey.edges,
            survey.map,
            &survey.points,
            &ends,
            &mut memory.words,
        );
        assert!(
            given.refusal == 0 && given == wanted && words == memory.words,
            "the words differ"
        );
        println!(
            "{} words, {} numbers not whole before rounding",
            given.words,
            survey.parts()
        );
    }
    if let Work::Open {
        bytes, features, ..
    } = work
    {
        let tile = opened::opened_by_prost(bytes).expect("prost reads the tile");
        let read: usize = tile.layers.iter().map(|layer| layer.features.len()).sum();
        assert!(read == *features, "{read} features instead of {features}");
        assert!(
            ours::reader::open(bytes).layers == tile.layers.len(),
            "our library does not open it"
        );
        let walked = walk::walked(bytes, &mut memory.words);
        assert!(walked == *features, "{walked} features are walked");
        println!("{} bytes, {read} features", bytes.len());
    }
    if let Work::Tile { given, manner } = work {
        let bytes = tiles::ours(given, *manner, &mut memory.tiles);
        assert!(bytes == tiles::rust(given), "the tiles differ");
        println!("{} bytes", bytes.len());
    }
}

fn main() {
    let words: Vec<String> = std::env::args().skip(1).collect();
    let known = match &words[..] {
        [name, side, times] => works::named(name)
            .zip(times.parse().ok())
            .map(|(work, times)| (work, side, times)),
        _ => None,
    };
    let Some((work, side, times)) = known else {
        eprintln!(
            "usage: bench WORK ours|rust|same TIMES\nworks: {}",
            works::NAMES.join(" ")
        );
        exit(2)
    };
    let lists = match &work {
        Work::Tile { given, manner } => {
            tiles::Memory::new(given.tags(), manner.way == tiles::Way::Many)
        }
        _ => tiles::Memory::new(0, false),
    };
    let mut memory = Memory {
        words: vec![0; 1_048_576],
        numbers: vec![0; 1_048_576],
        tiles: lists,
    };
    // Where a symbol of known place in the program was loaded, for bench/where.
    eprintln!("main at {:x}", main as fn() as usize);
    let times: usize = times;
    for _ in 0..times {
        match side.as_str() {
            "ours" => ours(black_box(&work), &mut memory),
            "same" => same(&work, &mut memory),
            _ => rust(black_box(&work)),
        }
    }
}
