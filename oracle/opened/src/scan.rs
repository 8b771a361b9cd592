//! The place of a tile's fault: a byte at a time, with what must follow at least in closed form.

use crate::rules::{Holds, Kind, MOST_NUMBER};

/// What is being read, with the bytes of an open varint and their value.
#[derive(Clone, Copy, Debug, PartialEq)]
enum Phase {
    Field,
    Key(u32, u64),
    Number(u32),
    Length(Option<Holds>, u32, u64),
    /// So many bytes of a body that may be any.
    Skip(u64),
    /// So many bytes of a packed list, and those of its open varint.
    Packed(u64, u32),
}

/// The open messages, outermost first, with what is left in each behind what is being read; the tile's has no limit.
pub struct Scan {
    open: Vec<(Kind, u128)>,
    phase: Phase,
}

/// More than any length can take.
const UNLIMITED: u128 = 1 << 100;

impl Scan {
    pub fn new() -> Self {
        Scan {
            open: vec![(Kind::Tile, UNLIMITED)],
            phase: Phase::Field,
        }
    }

    fn kind(&self) -> Kind {
        self.open.last().expect("the tile is open").0
    }

    fn room(&self) -> u128 {
        self.open.last().expect("the tile is open").1
    }

    /// Takes so many bytes of the innermost message, if it has them.
    fn take(&mut self, count: u128) -> Option<()> {
        let room = &mut self.open.last_mut().expect("the tile is open").1;
        *room = room.checked_sub(count)?;
        Some(())
    }

    fn settle(&mut self) {
        while self.open.len() > 1 && self.room() == 0 {
            self.open.pop();
        }
        self.phase = Phase::Field;
    }

    /// One byte more; nothing where no continuation is a good tile.
    pub fn byte(&mut self, byte: u8) -> Option<()> {
        let ends = byte < 128;
        let heaped = |i: u32, v: u64| {
            if i == 9 && byte > 1 {
                return None;
            }
            Some(v + (u64::from(byte & 127) << (7 * i)))
        };
        match self.phase {
            Phase::Field | Phase::Key(..) => {
                let (i, v) = match self.phase {
                    Phase::Key(i, v) => (i, v),
                    _ => (0, 0),
                };
                self.take(1)?;
                let v = heaped(i, v)?;
                if ends {
                    self.key(v)?;
                } else {
                    self.phase = Phase::Key(i + 1, v);
                }
            }
            Phase::Number(i) => {
                self.take(1)?;
                heaped(i, 0)?;
                if ends {
                    self.settle();
                } else {
                    self.phase = Phase::Number(i + 1);
                }
            }
            Phase::Length(holds, i, v) => {
                self.take(1)?;
                let v = heaped(i, v)?;
                if ends {
                    self.length(holds, v)?;
                } else {
                    self.phase = Phase::Length(holds, i + 1, v);
                }
            }
            Phase::Skip(1) => self.settle(),
            Phase::Skip(left) => self.phase = Phase::Skip(left - 1),
            Phase::Packed(left, i) => {
                heaped(i, 0)?;
                let i = if ends { 0 } else { i + 1 };
                if left == 1 && ends {
                    self.settle();
                } else {
                    self.phase = Phase::Packed(left - 1, i);
                }
            }
        }
        self.is_alive().then_some(())
    }

    fn key(&mut self, key: u64) -> Option<()> {
        let (number, wire, kind) = (key >> 3, key & 7, self.kind());
        if !(1..=MOST_NUMBER).contains(&number) || !kind.takes(number, wire) {
            return None;
        }
        self.phase = match wire {
            0 => Phase::Number(0),
            2 => Phase::Length(kind.knows(number), 0, 0),
            _ => {
                let size = if wire == 1 { 8 } else { 4 };
                self.take(size)?;
                Phase::Skip(size as u64)
            }
        };
        Some(())
    }

    fn length(&mut self, holds: Option<Holds>, length: u64) -> Option<()> {
        self.take(u128::from(length))?;
        if self.room() == 1 {
            return None;
        }
        match holds {
            Some(Holds::Message(kind)) => {
                self.open.push((kind, u128::from(length)));
                self.settle();
            }
            _ if length == 0 => self.settle(),
            Some(Holds::Packed) => self.phase = Phase::Packed(length, 0),
            _ => self.phase = Phase::Skip(length),
        }
        Some(())
    }

    /// Whether a key that begins so can become a right one.
    fn key_is_alive(&self, i: u32, v: u64) -> bool {
        let (number, wire) = (v >> 3, v & 7);
        let is_type = matches!(wire, 0 | 1 | 2 | 5);
        is_type && v < 1 << 32 && (i < 5 || number > 0 && self.kind().takes(number, wire))
    }

    /// Whether some continuation is a good tile: the innermost message has the bytes that are needed, and not just one more where none of them can be had
    /// with a byte more.
    fn is_alive(&self) -> bool {
        let (need, slack) = match self.phase {
            Phase::Field | Phase::Skip(_) => (0, false),
            Phase::Packed(left, i) => {
                if left == 0 && i > 0 {
                    return false;
                }
                (0, false)
            }
            Phase::Key(i, v) => {
                if !self.key_is_alive(i, v) {
                    return false;
                }
                let (least, is_varint) = match v & 7 {
                    1 => (8, false),
                    5 => (4, false),
                    _ => (1, true),
                };
                (1 + least, i < 9 || is_varint)
            }
            Phase::Number(i) => (1, i < 9),
            Phase::Length(holds, i, v) => {
                let is_message = matches!(holds, Some(Holds::Message(_)));
                let raised = if v == 1 && is_message {
                    1 << (7 * i)
                } else {
                    0
                };
                (1 + u128::from(v) + raised, i < 9)
            }
        };
        let room = self.room();
        need <= room && (slack || room != need + 1)
    }

    /// Whether the tile can end here.
    pub fn is_done(&self) -> bool {
        self.phase == Phase::Field && self.open.len() == 1
    }
}

impl Default for Scan {
    fn default() -> Self {
        Scan::new()
    }
}

/// The place of the fault of a tile that is not good.
pub fn place(bytes: &[u8]) -> Option<usize> {
    let mut scan = Scan::new();
    for (at, byte) in bytes.iter().enumerate() {
        if scan.byte(*byte).is_none() {
            return Some(at);
        }
    }
    (!scan.is_done()).then_some(bytes.len())
}
