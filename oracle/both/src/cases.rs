//! The cases of cases.py, the fixed ones and random ones, made here for speed. `oracle/compare` holds the two against each other first.

use crate::random::Random;
use crate::readings;
use crate::scripts;
use crate::survey;
use crate::texts;

pub const LIMIT: i64 = 1_073_741_823;
/// Bytes of a job file.
pub const FILE_LIMIT: usize = 65_536;
const POINT: u32 = 1;
const LINE: u32 = 2;
const POLYGON: u32 = 3;

type Box = [i64; 4];
type At = (i64, i64);

const BOXES: [Box; 8] = [
    [0, 10, 0, 10],
    [0, 1, 0, 1],
    [0, 100, 0, 100],
    [-3, 4, 2, 9],
    [-64, 4160, -64, 4160],
    [-7, -2, -5, -1],
    [-LIMIT, LIMIT, -LIMIT, LIMIT],
    [LIMIT - 1, LIMIT, -LIMIT, 1 - LIMIT],
];

/// 32-bit little-endian bytes; signed numbers go out as two's complement.
fn le(numbers: &[i64]) -> Vec<u8> {
    numbers
        .iter()
        .flat_map(|n| (*n as u32).to_le_bytes())
        .collect()
}

/// A job file.
fn job(kind: u32, edges: Box, parts: &[Vec<At>]) -> Vec<u8> {
    let mut numbers = vec![i64::from(kind)];
    numbers.extend(edges);
    numbers.push(parts.len() as i64);
    let mut end = 0;
    for part in parts {
        end += part.len() as i64;
        numbers.push(end);
    }
    for (x, y) in parts.iter().flatten() {
        numbers.extend([x, y]);
    }
    le(&numbers)
}

fn limited(n: i64) -> i64 {
    n.clamp(-LIMIT, LIMIT)
}

/// A coordinate at or around the edges low and high, or anywhere.
fn near(random: &mut Random, low: i64, high: i64) -> i64 {
    let choice = random.below(12);
    limited(if choice < 6 {
        random.pick(&[low, high]) + random.between(-1, 1)
    } else if choice < 9 {
        random.between(low, high)
    } else if choice < 11 {
        random.between(low - 5, high + 5)
    } else {
        let any = random.between(-LIMIT, LIMIT);
        random.pick(&[0, -LIMIT, 1 - LIMIT, LIMIT - 1, LIMIT, any])
    })
}

fn near_point(random: &mut Random, edges: Box) -> At {
    let x = near(random, edges[0], edges[1]);
    (x, near(random, edges[2], edges[3]))
}

/// A part; last is the raw point before it, if there is one.
fn random_part(random: &mut Random, edges: Box, last: Option<At>) -> Vec<At> {
    let style = random.below(6);
    let size = random.pick(&[0, 1, 1, 2, 2, 3, 4, 5, 7]);
    let mut part: Vec<At> = (0..size).map(|_| near_point(random, edges)).collect();
    if style == 1 && size > 0 {
        // equal points
        let two = part[..size.min(2)].to_vec();
        part = (0..size).map(|_| random.pick(&two)).collect();
    } else if style == 2 && size > 0 {
        // a run along one axis, sometimes turning back
        let axis = random.below(2);
        let step = random.pick(&[-1, 1]) * random.between(1, 3);
        let mut point = part[0];
        for at in 1..size {
            let by = if random.chance(5) { -step } else { step };
            if axis == 0 {
                point.0 += by;
            } else {
                point.1 += by;
            }
            part[at] = (limited(point.0), limited(point.1));
        }
    } else if style == 3 {
        // across the whole box, which costs the most words
        let far = [(edges[0] - 3).max(-LIMIT), (edges[1] + 3).min(LIMIT)];
        part = (0..size)
            .map(|at| (far[at % 2], near(random, edges[2], edges[3])))
            .collect();
    }
    if let Some((x, y)) = last {
        // starts on the last point, as it was or clamped
        if size > 0 && random.chance(3) {
            let clamped = (x.min(edges[1]).max(edges[0]), y.min(edges[3]).max(edges[2]));
            part[0] = random.pick(&[(x, y), clamped]);
        }
    }
    part
}

pub fn random_job(random: &mut Random, sizes: &[usize]) -> Vec<u8> {
    let mut edges = random.pick(&BOXES);
    if random.chance(4) {
        let x = random.between(-50, 50);
        let y = random.between(-50, 50);
        let right = x + random.between(1, 30);
        edges = [x, right, y, y + random.between(1, 30)];
    }
    let mut parts: Vec<Vec<At>> = Vec::new();
    let mut last = None;
    for _ in 0..random.pick(sizes) {
        let part = random_part(random, edges, last);
        last = part.last().copied().or(last);
        parts.push(part);
    }
    let kind = random.between(1, 3) as u32;
    job(kind, edges, &parts)
}

/// A good job with one thing broken. Most of these document 01 refuses.
fn damaged_job(random: &mut Random, good: &[u8]) -> Vec<u8> {
    let number = |c: &[u8]| i64::from(u32::from_le_bytes([c[0], c[1], c[2], c[3]]));
    let mut numbers: Vec<i64> = good.chunks(4).map(number).collect();
    let parts = numbers[5];
    let body = 6 + parts as usize;
    match random.below(10) {
        0 => numbers.truncate(random.below(numbers.len())),
        1 => numbers.push(0),
        2 => return good[..good.len() - 1].to_vec(),
        3 => numbers[0] = random.pick(&[0, 4, (1 << 32) - 1]),
        4 => numbers[2] = numbers[1] - random.below(2) as i64,
        5 => numbers[3] = numbers[4] + random.below(2) as i64,
        6 => {
            let value = random.pick(&[LIMIT + 1, -LIMIT - 1, (1 << 31) - 1, -(1 << 31)]);
            let at = random.between(1, 4) as usize;
            numbers[at] = value;
        }
        7 => numbers[5] = random.pick(&[0, parts + 1, parts - 1, 1 << 30, (1 << 32) - 1]),
        8 => {
            let at = random.between(6, body as i64 - 1) as usize;
            numbers[at] += random.pick(&[-1, 1, 1 << 31]);
        }
        _ if numbers.len() > body => {
            let value = random.pick(&[LIMIT + 1, -LIMIT - 1, (1 << 31) - 1, -(1 << 31)]);
            let at = random.between(body as i64, numbers.len() as i64 - 1) as usize;
            numbers[at] = value;
        }
        _ => {}
    }
    le(&numbers)
}

/// Document 01's sample jobs, and others that hit one boundary each.
fn sample_jobs() -> Vec<Vec<u8>> {
    let (ten, hundred) = ([0, 10, 0, 10], [0, 100, 0, 100]);
    let corner = vec![(2, 2), (2, 10), (10, 10)];
    let ends = vec![(-LIMIT, LIMIT), (LIMIT, -LIMIT)];
    let back: Vec<At> = ends.iter().rev().copied().collect();
    let mut jobs = vec![
        job(POINT, hundred, &[vec![(5, 7), (3, 2)]]),
        job(LINE, ten, &[corner.clone()]),
        job(LINE, ten, &[corner, vec![(1, 1), (3, 5)]]),
        job(POLYGON, hundred, &[vec![(3, 6), (8, 12), (20, 34)]]),
        job(POLYGON, ten, &[vec![(0, 0), (4, 0), (9, 0), (9, 9)]]),
        job(
            POLYGON,
            ten,
            &[vec![(0, 0), (4, 0), (4, 4)], vec![(4, 4), (8, 4), (8, 8)]],
        ),
        job(LINE, ten, &[vec![(-5, 3), (15, 8)]]),
    ];
    for kind in [POINT, LINE, POLYGON] {
        let mut more = |edges: Box, parts: &[Vec<At>]| jobs.push(job(kind, edges, parts));
        more(ten, &[vec![]]);
        more(ten, &[vec![], vec![]]);
        more(ten, &[vec![], vec![(1, 2)]]);
        more(ten, &[vec![(1, 2)], vec![]]);
        more(ten, &[vec![(1, 2)]]);
        more(ten, &[vec![(0, 0)]]);
        more(ten, &[vec![(1, 2), (1, 2)]]);
        more(ten, &[vec![(1, 2)], vec![(1, 2)], vec![(1, 2), (3, 4)]]);
        more(ten, &[vec![(1, 2), (3, 4)]]);
        more(ten, &[vec![(1, 2), (3, 4)], vec![(3, 4), (5, 6), (7, 9)]]);
        more(ten, &[vec![(12, 5), (20, 30)], vec![(10, 10), (5, 5)]]);
        more(
            [-LIMIT, LIMIT, -LIMIT, LIMIT],
            &[ends.clone(), back.clone()],
        );
        for edge in [LIMIT, LIMIT + 1] {
            more([-edge, edge, -edge, edge], &[vec![(1, 2), (3, 4)]]);
            more(ten, &[vec![(1, 2), (edge, 4)]]);
            more(ten, &[vec![(1, 2), (3, -edge)]]);
        }
        more([0, 0, 0, 10], &[vec![(0, 0)]]);
        more([0, 10, 5, 5], &[vec![(0, 0)]]);
    }
    // Taking out: a run onwards, back, back past the start, and a turn, on each axis.
    let runs: [&[i64]; 7] = [
        &[0, 4, 9],
        &[9, 4, 0],
        &[0, 9, 4],
        &[4, 0, 9],
        &[4, 9, 0],
        &[4, 4, 9],
        &[0, 4, 4, 9],
    ];
    for run in runs {
        jobs.push(job(POLYGON, ten, &[run.iter().map(|n| (*n, 3)).collect()]));
        let mut part: Vec<At> = run.iter().map(|n| (3, *n)).collect();
        part.push((5, 5));
        jobs.push(job(POLYGON, ten, &[part]));
    }
    jobs
}

/// Every list of that many numbers from low to high, the last one fastest.
fn lists(low: i64, high: i64, length: u32) -> impl Iterator<Item = Vec<i64>> {
    let base = (high - low + 1) as u64;
    (0..base.pow(length)).map(move |n| {
        (0..length)
            .rev()
            .map(|k| low + (n / base.pow(k) % base) as i64)
            .collect()
    })
}

/// Every two-point line, and every three-point ring on one axis, around box 0..1.
fn tiny_jobs() -> Vec<Vec<u8>> {
    let edges = [0, 1, 0, 1];
    let mut jobs: Vec<Vec<u8>> = lists(-1, 2, 4)
        .map(|n| job(LINE, edges, &[vec![(n[0], n[1]), (n[2], n[3])]]))
        .collect();
    for xs in lists(-1, 2, 3) {
        jobs.push(job(POLYGON, edges, &[xs.iter().map(|x| (*x, 1)).collect()]));
        jobs.push(job(POLYGON, edges, &[xs.iter().map(|x| (0, *x)).collect()]));
    }
    jobs
}

pub fn fixed_jobs() -> Vec<Vec<u8>> {
    let mut jobs = vec![Vec::new()];
    jobs.extend(sample_jobs());
    jobs.extend(tiny_jobs());
    jobs
}

/// The random job of that place in the run.
pub fn next_job(random: &mut Random, at: usize) -> Vec<u8> {
    let good = random_job(random, &[1, 1, 2, 2, 3, 5]);
    if at % 8 == 7 {
        damaged_job(random, &good)
    } else {
        good
    }
}

/// Jobs at the program's sizes, 65,536 bytes and 16,384 words, and `count` random ones.
pub fn large_jobs(random: &mut Random, count: usize) -> Vec<Vec<u8>> {
    let edges = [0, 10, 0, 10];
    let room = (FILE_LIMIT - 4 * 7) / 8;
    let mut jobs = Vec::new();
    for points in [room - 1, room, room + 1] {
        let part: Vec<At> = (0..points as i64).map(|at| (at % 2, at / 2 % 2)).collect();
        jobs.push(job(POINT, edges, &[part.clone()]));
        jobs.push(job(POINT, edges, &[part, vec![]]));
    }
    for points in [2730, 2731, 2732] {
        let part = crossing(points);
        jobs.push(job(LINE, edges, &[part.clone()]));
        jobs.push(job(POLYGON, edges, &[part]));
    }
    for _ in 0..count {
        let edges = random.pick(&BOXES);
        let points = random.between(room as i64 / 4, room as i64);
        let kind = random.between(1, 3) as u32;
        let part: Vec<At> = (0..points).map(|_| near_point(random, edges)).collect();
        jobs.push(job(kind, edges, &[part]));
    }
    jobs
}

/// A line through the box 0..10 at every step: six words a point.
fn crossing(points: usize) -> Vec<At> {
    (0..points)
        .map(|at| if at % 2 == 1 { (13, 9) } else { (-3, 1) })
        .collect()
}

/// Lines of 1,048,576 words, the most of a geometry, and a point more. Not in cases.py: no file holds them.
pub fn widest_jobs() -> Vec<Vec<u8>> {
    [174_762, 174_763, 174_764]
        .map(|points| job(LINE, [0, 10, 0, 10], &[crossing(points)]))
        .to_vec()
}

pub type Clip = [i64; 8];

pub fn fixed_clips() -> Vec<Clip> {
    let mut clips: Vec<Clip> = Vec::new();
    for (low, high, edges) in [(-1, 2, [0, 1, 0, 1]), (-1, 3, [0, 2, 0, 2])] {
        for n in lists(low, high, 4) {
            clips.push([
                n[0], n[1], n[2], n[3], edges[0], edges[1], edges[2], edges[3],
            ]);
        }
    }
    clips.push([-10, 0, 990, 51, 0, 10, 0, 10]);
    clips.push([-1, 0, 1, -1, 0, 10, 0, 10]);
    clips.push([0, -1, -1, 1, 0, 10, 0, 10]);
    clips.push([-2, 1, 1, -1, 0, 3, 0, 3]);
    for edge in [LIMIT, LIMIT + 1] {
        clips.push([-edge, -edge, edge, edge, 0, 10, 0, 10]);
        clips.push([-5, 3, 15, 8, -edge, edge, -edge, edge]);
    }
    clips.push([-5, 3, 15, 8, 0, 0, 0, 10]);
    clips.push([-5, 3, 15, 8, 0, 10, 10, 0]);
    clips
}

pub fn next_clip(random: &mut Random) -> Clip {
    let edges = random.pick(&BOXES);
    let (x0, y0) = near_point(random, edges);
    let (x1, y1) = near_point(random, edges);
    [x0, y0, x1, y1, edges[0], edges[1], edges[2], edges[3]]
}

/// The cases of a kind, a line each, as cases.py prints them.
pub fn print(kind: &str, seed: u64, count: usize) {
    let mut random = Random::new(seed);
    let hex = |job: Vec<u8>| {
        println!(
            "{}",
            job.iter().map(|b| format!("{b:02x}")).collect::<String>()
        )
    };
    let line = |clip: Clip| println!("{}", clip.map(|n| n.to_string()).join(" "));
    match kind {
        "jobs" => {
            fixed_jobs().into_iter().for_each(hex);
            (0..count).for_each(|at| hex(next_job(&mut random, at)));
        }
        "large_jobs" => large_jobs(&mut random, count).into_iter().for_each(hex),
        "tiles" => {
            scripts::fixed_tiles().into_iter().for_each(hex);
            (0..count).for_each(|at| hex(scripts::next_tile(&mut random, at)));
        }
        "large_tiles" => scripts::large_tiles().into_iter().for_each(hex),
        // Made here alone: with their readings, which reading.py holds against its own, with their grid points by the Rust's doubles, which mapping.py does, and with the
        // Rust's word on them, which utf8.py does.
        "readings" => readings::print(seed, count),
        "survey" => survey::print(seed, count),
        "texts" => texts::print(seed, count),
        _ => {
            fixed_clips().into_iter().for_each(line);
            (0..count).for_each(|_| line(next_clip(&mut random)));
        }
    }
}
