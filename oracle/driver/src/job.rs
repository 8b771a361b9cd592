//! Job files: whole jobs, and the encoder's state after every call.

use crate::numbers;
use crate::words::{checked_box, geometry_words, within};
use mvt_open::State;
use pointy::BBox;
use std::panic::{self, AssertUnwindSafe};

/// The words the program's buffer holds, from document 01.
const WORD_ROOM: usize = 16_384;

/// A job file that document 01's own input tests accept.
struct Job {
    kind: u32,
    bbox: BBox<i32>,
    parts: Vec<Vec<(i32, i32)>>,
}

/// Reads a job file, or names the first refusal of document 01 that keeps the
/// Rust from being asked. Coordinates are tested here too, all at once.
fn read(bytes: &[u8]) -> Result<Job, &'static str> {
    let numbers = numbers(bytes).ok_or("JOB")?;
    let (head, rest) = numbers.split_first_chunk::<6>().ok_or("JOB")?;
    let part_count = head[5] as usize;
    if part_count == 0 || part_count > rest.len() {
        return Err("JOB");
    }
    let (ends, body) = rest.split_at(part_count);
    let points: Vec<(i32, i32)> = body
        .chunks_exact(2)
        .map(|p| (p[0] as i32, p[1] as i32))
        .collect();
    let ascending = ends.windows(2).all(|e| e[0] <= e[1]);
    if body.len() % 2 != 0 || !ascending || ends[part_count - 1] as usize != points.len() {
        return Err("JOB");
    }
    if !(1..=3).contains(&head[0]) {
        return Err("KIND");
    }
    let edges = [head[1], head[2], head[3], head[4]].map(|edge| edge as i32);
    let bbox = checked_box(edges).ok_or("BOX")?;
    if !points.iter().all(|&(x, y)| within(x) && within(y)) {
        return Err("COORD");
    }
    let mut start = 0;
    let mut parts = Vec::new();
    for &end in ends {
        parts.push(points[start..end as usize].to_vec());
        start = end as usize;
    }
    Ok(Job {
        kind: head[0],
        bbox,
        parts,
    })
}

/// The words as the unchanged copy gives them: the last part is completed by
/// `encode`, the others by `complete_geom`.
fn words_unchanged(job: &Job) -> Vec<u32> {
    use mvt::{GeomEncoder, GeomType};
    let kind = [GeomType::Point, GeomType::Linestring, GeomType::Polygon][job.kind as usize - 1];
    let mut encoder = GeomEncoder::new(kind).bbox(job.bbox);
    for (at, part) in job.parts.iter().enumerate() {
        for &(x, y) in part {
            encoder
                .add_point(x, y)
                .expect("whole coordinates are accepted");
        }
        if at + 1 < job.parts.len() {
            encoder.complete_geom().expect("completing has no refusal");
        }
    }
    geometry_words(encoder.encode().expect("encoding has no refusal"))
}

/// What the second copy did with a job.
struct Run {
    words: Vec<u32>,
    /// The points taken.
    points: usize,
    /// Whether completing a part after them panicked.
    panicked: bool,
    /// The points taken before the call that passed the program's room.
    full_at: Option<usize>,
}

/// Runs the second copy and shows its state after every call.
fn run(job: &Job, mut show: impl FnMut(&str, &State)) -> Run {
    use mvt_open::{GeomEncoder, GeomType};
    let kind = [GeomType::Point, GeomType::Linestring, GeomType::Polygon][job.kind as usize - 1];
    let mut encoder = GeomEncoder::new(kind).bbox(job.bbox);
    let mut run = Run {
        words: Vec::new(),
        points: 0,
        panicked: false,
        full_at: None,
    };
    show("new", &encoder.state());
    for part in &job.parts {
        for &(x, y) in part {
            encoder
                .add_point(x, y)
                .expect("whole coordinates are accepted");
            if encoder.state().words.len() > WORD_ROOM {
                run.full_at.get_or_insert(run.points);
            }
            run.points += 1;
            show("add", &encoder.state());
        }
        match unless_panic(|| encoder.complete_geom()) {
            Some(done) => done.expect("completing has no refusal"),
            None => {
                run.panicked = true;
                return run;
            }
        }
        if encoder.state().words.len() > WORD_ROOM {
            run.full_at.get_or_insert(run.points);
        }
        show("end", &encoder.state());
    }
    run.words = encoder.state().words.to_vec();
    run
}

/// What a call answers, or `None` where the Rust panics: that is an answer too,
/// so nothing is printed about it.
fn unless_panic<T>(call: impl FnOnce() -> T) -> Option<T> {
    let usual = panic::take_hook();
    panic::set_hook(Box::new(|_| {}));
    let answer = panic::catch_unwind(AssertUnwindSafe(call));
    panic::set_hook(usual);
    answer.ok()
}

/// The words, or why the job is outside the comparison. Both copies are asked
/// and must agree.
fn answer(bytes: &[u8], show: impl FnMut(&str, &State)) -> Result<Vec<u32>, String> {
    let job = read(bytes).map_err(|name| format!("outside {name}"))?;
    let run = run(&job, show);
    let unchanged = unless_panic(|| words_unchanged(&job));
    if run.panicked {
        assert_eq!(unchanged, None, "the two copies differ");
        assert_eq!((job.kind, run.points), (1, 0), "a panic not known so far");
        return Err(format!("outside EMPTY panic at {}", run.points));
    }
    assert_eq!(
        unchanged.as_ref(),
        Some(&run.words),
        "the two copies differ"
    );
    // The Rust's list grows without a limit, so it has no answer of its own here.
    match run.full_at {
        Some(points) => Err(format!("outside ROOM at {points}")),
        None => Ok(run.words),
    }
}

/// `words N` and the words, or `outside` and why.
pub fn answer_line(bytes: &[u8]) -> String {
    match answer(bytes, |_, _| ()) {
        Ok(words) => format!("words {}{}", words.len(), listed(' ', &words)),
        Err(outside) => outside,
    }
}

/// The same as our program prints it, each word on its own line.
pub fn program_output(bytes: &[u8]) -> String {
    match answer(bytes, |_, _| ()) {
        Ok(words) => format!("words {}{}\n", words.len(), listed('\n', &words)),
        Err(outside) => outside + "\n",
    }
}

/// Every call with the state after it.
pub fn states_line(bytes: &[u8]) -> String {
    let mut calls = Vec::new();
    let show = |call: &str, state: &State| calls.push(state_text(call, state));
    match answer(bytes, show) {
        Ok(_) => format!("states {}; {}", calls.len(), calls.join("; ")),
        Err(outside) => outside,
    }
}

fn state_text(call: &str, state: &State) -> String {
    let point = |p: Option<(i32, i32)>| p.map_or("-".into(), |(x, y)| format!("{x},{y}"));
    format!(
        "{call} {} {} {} {} {} {}{}",
        state.count,
        state.command_place,
        point(state.raw_end),
        point(state.before_last),
        point(state.last),
        state.words.len(),
        listed(' ', state.words)
    )
}

/// Each word with the separator before it.
fn listed(separator: char, words: &[u32]) -> String {
    words
        .iter()
        .map(|word| format!("{separator}{word}"))
        .collect()
}
