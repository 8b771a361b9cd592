//! Asks the Rust, many cases in one run: one line in, one line out.
//!
//! The formats are in oracle/README.md.

mod job;
mod tile;
mod words;

use std::io::{self, BufRead, Read, Write};
use std::process::ExitCode;

/// The limit of coordinates and box edges, from document 01.
const COORD_LIMIT: i32 = 1_073_741_823;

/// The most bytes of a job file or a tile script, from document 01.
const FILE_LIMIT: usize = 65_536;

const USAGE: &str = "usage: driver jobs|states|clips|params|commands|tiles (a case a line), \
                     or driver job|tile (one file)";

/// A line that is no case at all, as opposed to a case outside the comparison.
struct BadLine;

fn main() -> ExitCode {
    match run() {
        Ok(()) => ExitCode::SUCCESS,
        Err(text) => {
            eprintln!("driver: {text}");
            ExitCode::FAILURE
        }
    }
}

fn run() -> Result<(), String> {
    let mode = std::env::args().nth(1).ok_or(USAGE)?;
    let answer: fn(&str) -> Result<String, BadLine> = match mode.as_str() {
        "jobs" => |line| Ok(job::answer_line(&from_hex(line)?)),
        "states" => |line| Ok(job::states_line(&from_hex(line)?)),
        "tiles" => |line| Ok(tile::answer_line(&from_hex(line)?)),
        "clips" => |line| Ok(words::clip(decimals(line)?)),
        "params" => |line| Ok(words::param(decimals::<i32, 1>(line)?)),
        "commands" => |line| Ok(words::command(decimals(line)?)),
        "job" => return one_file(job::program_output),
        "tile" => return one_file(tile::program_output),
        _ => return Err(USAGE.into()),
    };
    let mut out = io::BufWriter::new(io::stdout().lock());
    for (at, line) in io::stdin().lock().lines().enumerate() {
        let line = line.map_err(|e| e.to_string())?;
        let text = answer(&line).map_err(|BadLine| format!("line {} is no case", at + 1))?;
        writeln!(out, "{text}").map_err(|e| e.to_string())?;
    }
    out.flush().map_err(|e| e.to_string())
}

/// Answers one file the way our programs print it.
fn one_file(answer: fn(&[u8]) -> String) -> Result<(), String> {
    let mut bytes = Vec::new();
    io::stdin()
        .read_to_end(&mut bytes)
        .map_err(|e| e.to_string())?;
    print!("{}", answer(&bytes));
    Ok(())
}

fn from_hex(line: &str) -> Result<Vec<u8>, BadLine> {
    let digit = |c: u8| (c as char).to_digit(16).ok_or(BadLine);
    let digits = line.as_bytes();
    if digits.len() % 2 != 0 {
        return Err(BadLine);
    }
    digits
        .chunks(2)
        .map(|c| Ok((digit(c[0])? * 16 + digit(c[1])?) as u8))
        .collect()
}

/// Exactly `N` decimal numbers, blanks between them.
fn decimals<T: std::str::FromStr, const N: usize>(line: &str) -> Result<[T; N], BadLine> {
    let numbers: Result<Vec<T>, _> = line.split_whitespace().map(str::parse).collect();
    numbers
        .map_err(|_| BadLine)?
        .try_into()
        .map_err(|_| BadLine)
}

/// Numbers as text, blanks between them.
fn spaced<T: ToString>(numbers: impl IntoIterator<Item = T>) -> String {
    let texts: Vec<String> = numbers.into_iter().map(|n| n.to_string()).collect();
    texts.join(" ")
}

/// The numbers of a file of 32-bit little-endian numbers, if it is one.
fn numbers(bytes: &[u8]) -> Option<Vec<u32>> {
    if bytes.len() % 4 != 0 || bytes.len() > FILE_LIMIT {
        return None;
    }
    let number = |c: &[u8]| u32::from_le_bytes([c[0], c[1], c[2], c[3]]);
    Some(bytes.chunks(4).map(number).collect())
}
