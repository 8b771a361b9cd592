//! Texts, good and damaged, for `texts`: scalar values at which a row of table 3-7 begins or ends come often, and runs of ASCII of up to eight bytes stand
//! between them, so that what follows is at every place of four bytes.

use crate::random::Random;
use crate::scripts::ILL_FORMED;
use crate::tile_judge::TEXT_LIMIT;

/// Most texts are not longer.
pub const SHORT: usize = 40;

/// The first and the last scalar value of each row of table 3-7, U+FEFF, U+FFFD, and noncharacters.
const BORDERS: [u32; 24] = [
    0, 0x7F, 0x80, 0xBF, 0xC0, 0x7FF, 0x800, 0xFFF, 0x1000, 0xCFFF, 0xD000, 0xD7FF, 0xE000, 0xFDD0,
    0xFEFF, 0xFFFD, 0xFFFF, 0x10000, 0x1FFFE, 0x3FFFF, 0x40000, 0xFFFFF, 0x100000, 0x10FFFF,
];

/// The bytes at which a row of the table begins or ends.
const EDGES: [u8; 22] = [
    0, 0x7F, 0x80, 0x8F, 0x90, 0x9F, 0xA0, 0xBF, 0xC0, 0xC1, 0xC2, 0xDF, 0xE0, 0xEC, 0xED, 0xEE,
    0xEF, 0xF0, 0xF3, 0xF4, 0xF5, 0xFF,
];

/// Every string of one byte and of two.
pub fn shortest() -> impl Iterator<Item = Vec<u8>> {
    let one = (0..=255).map(|a| vec![a]);
    one.chain((0..=u16::MAX).map(|n| n.to_be_bytes().to_vec()))
}

/// Every string of three bytes that begins with E0 to EF.
pub fn of_three() -> impl Iterator<Item = Vec<u8>> {
    (0xE0_0000..=0xEF_FFFF_u32).map(|n| n.to_be_bytes()[1..].to_vec())
}

/// Strings of four bytes that begin with F0 to FF: every second byte, the two behind it at the ends of a row.
pub fn of_four() -> impl Iterator<Item = Vec<u8>> {
    (0xF000..=0xFFFF_u16).flat_map(|n| {
        let [a, b] = n.to_be_bytes();
        EDGES
            .into_iter()
            .flat_map(move |c| EDGES.map(|d| vec![a, b, c, d]))
    })
}

/// Every scalar value's encoding.
pub fn scalars() -> impl Iterator<Item = Vec<u8>> {
    (0..=char::MAX as u32).filter_map(|n| Some(char::from_u32(n)?.to_string().into_bytes()))
}

/// The first and the last sequences of the table's rows and what is none, behind and before up to eight bytes of ASCII.
pub fn placed() -> impl Iterator<Item = Vec<u8>> {
    let good = BORDERS.into_iter().filter_map(char::from_u32);
    let good = good.map(|scalar| scalar.to_string().into_bytes());
    let all = good.chain(ILL_FORMED.map(<[u8]>::to_vec));
    all.flat_map(|bytes| {
        (0..81).map(move |n| [&[b'a'; 8][..n / 9], &bytes, &[b'z'; 8][..n % 9]].concat())
    })
}

/// A value in so many bytes, 2 to 4, whether it wants them or not.
fn encoded(value: u32, bytes: usize) -> Vec<u8> {
    let first = [0xC0, 0xE0, 0xF0][bytes - 2];
    let mut found = vec![first | (value >> (6 * (bytes - 1))) as u8];
    for at in (0..bytes - 1).rev() {
        found.push(0x80 | (value >> (6 * at)) as u8 & 0x3F);
    }
    found
}

/// What is no sequence though it looks like one: a surrogate, a longer form than needed, a value beyond U+10FFFF, a first byte that begins none, a byte
/// that only continues.
fn no_sequence(random: &mut Random) -> Vec<u8> {
    let below = |random: &mut Random, n: u32| random.below(n as usize) as u32;
    match random.below(8) {
        0 => encoded(0xD800 + below(random, 0x800), 3),
        1 => encoded(random.pick(&[0xD800, 0xDBFF, 0xDC00, 0xDFFF]), 3),
        2 => encoded(below(random, 0x80), 2),
        3 => encoded(below(random, 0x800), 3),
        4 => encoded(below(random, 0x1_0000), 4),
        5 => encoded(0x11_0000 + below(random, 0xF_0000), 4),
        6 => {
            let mut found = vec![random.between(0xF5, 0xFF) as u8];
            found.extend(vec![0x80; random.below(6)]);
            found
        }
        _ => vec![random.between(0x80, 0xBF) as u8],
    }
}

fn scalar(random: &mut Random) -> char {
    let value = match random.below(6) {
        0 | 1 => i64::from(random.pick(&BORDERS)),
        2 => random.between(0, 0x7F),
        3 => random.between(0x80, 0x7FF),
        4 => random.between(0x800, 0xFFFF),
        _ => random.between(0x1_0000, 0x10_FFFF),
    };
    // A surrogate is no scalar value.
    char::from_u32(value as u32).unwrap_or('\u{E000}')
}

/// Scalar values with runs of ASCII between them, before and behind.
fn good(random: &mut Random) -> Vec<u8> {
    let most = if random.chance(32) {
        random.between(SHORT as i64 + 1, TEXT_LIMIT as i64) as usize
    } else {
        random.below(SHORT + 1)
    };
    let mut text = Vec::new();
    loop {
        let mut piece = "a".repeat(random.below(9));
        for _ in 0..random.below(4) {
            piece.push(scalar(random));
        }
        if text.len() + piece.len() > most {
            text.resize(most, b'z');
            return text;
        }
        text.extend(piece.into_bytes());
    }
}

/// A byte changed, taken out or put in, the end cut, or what is no sequence put in.
fn damage(random: &mut Random, text: &mut Vec<u8>) {
    let byte = if random.chance(2) {
        random.pick(&EDGES)
    } else {
        random.next() as u8
    };
    let to = random.below(text.len() + 1);
    let at = to.min(text.len().saturating_sub(1));
    match random.below(5) {
        0 if !text.is_empty() => text[at] = byte,
        1 if !text.is_empty() => {
            text.remove(at);
        }
        2 => text.insert(to, byte),
        3 => text.truncate(text.len().saturating_sub(1 + random.below(3))),
        _ => {
            text.splice(to..to, no_sequence(random));
        }
    }
    text.truncate(TEXT_LIMIT);
}

/// A text of at most 1,024 bytes; two of three are damaged, one of six twice.
pub fn next(random: &mut Random) -> Vec<u8> {
    let mut text = good(random);
    for _ in 0..random.pick(&[0, 1, 1, 0, 1, 2]) {
        damage(random, &mut text);
    }
    text
}
