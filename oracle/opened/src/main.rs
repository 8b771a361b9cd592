//! Tiles opened by prost, or by the rules: opened prost|rules|onward (a tile in hex on each line of standard input)
//! Each answer is one line: what our program `open_tile` prints, with tabs between its lines; where prost refuses a tile, `refused` and what it says. No printed
//! line has a tab in it, since a text's control bytes are printed by their numbers. `onward` tries continuations of up to three bytes and tells the first with which
//! prost reads a tile, or `none`.

use opened::rules;
use std::io::{self, BufRead, Write};
use std::process::ExitCode;

fn from_hex(line: &str) -> Option<Vec<u8>> {
    let digits = line.as_bytes();
    if digits.len() % 2 != 0 {
        return None;
    }
    let digit = |d: u8| char::from(d).to_digit(16).map(|n| n as u8);
    digits
        .chunks_exact(2)
        .map(|pair| Some(digit(pair[0])? << 4 | digit(pair[1])?))
        .collect()
}

fn by_prost(bytes: &[u8]) -> Vec<u8> {
    match opened::opened_by_prost(bytes) {
        Ok(tile) => tile.lines().join(&b'\t'),
        Err(wrong) => format!("refused\t{wrong}").into_bytes(),
    }
}

fn by_rules(bytes: &[u8]) -> Vec<u8> {
    match rules::read(bytes) {
        Ok(tile) => tile.lines().join(&b'\t'),
        Err(place) => format!("refused {} at {place}", rules::WIRE).into_bytes(),
    }
}

/// Bytes that end and continue numbers, and keys of every message, but none that begins a group.
const ONWARD: [u8; 38] = [
    0, 1, 2, 4, 5, 8, 10, 13, 16, 18, 21, 24, 25, 26, 32, 34, 40, 42, 48, 56, 64, 65, 66, 69, 97,
    120, 122, 127, 128, 129, 130, 133, 136, 144, 146, 154, 168, 255,
];

/// The first continuation of up to so many bytes with which prost reads a tile.
fn continued(bytes: &mut Vec<u8>, most: usize) -> bool {
    if opened::decoded(bytes).is_ok() {
        return true;
    }
    if most == 0 {
        return false;
    }
    for byte in ONWARD {
        bytes.push(byte);
        if continued(bytes, most - 1) {
            return true;
        }
        bytes.pop();
    }
    false
}

fn onward(bytes: &[u8]) -> Vec<u8> {
    let mut longer = bytes.to_vec();
    if !continued(&mut longer, 3) {
        return b"none".to_vec();
    }
    let more = longer[bytes.len()..].iter();
    more.map(|byte| format!("{byte:02x}"))
        .collect::<String>()
        .into_bytes()
}

fn run() -> Result<(), String> {
    let answer = match std::env::args().nth(1).as_deref() {
        Some("prost") => by_prost,
        Some("rules") => by_rules,
        Some("onward") => onward,
        _ => return Err("usage: opened prost|rules|onward".into()),
    };
    let mut out = io::BufWriter::new(io::stdout().lock());
    for (at, line) in io::stdin().lock().lines().enumerate() {
        let line = line.map_err(|wrong| wrong.to_string())?;
        let bytes = from_hex(&line).ok_or(format!("line {} is no tile in hex", at + 1))?;
        let told = [answer(&bytes), vec![b'\n']].concat();
        out.write_all(&told).map_err(|wrong| wrong.to_string())?;
    }
    out.flush().map_err(|wrong| wrong.to_string())
}

fn main() -> ExitCode {
    match run() {
        Ok(()) => ExitCode::SUCCESS,
        Err(text) => {
            eprintln!("opened: {text}");
            ExitCode::FAILURE
        }
    }
}
