//! Lists lent to our library: a pattern from end to end, with a guard before and behind what is lent, so that every element that should stay is seen to stay.

const GUARD: usize = 16;

fn pattern(at: usize) -> u32 {
    0xA5C3_F00D_u32.wrapping_add((at as u32).wrapping_mul(0x9E37_79B9))
}

/// A list of words. As signed numbers it is lent by `signed`.
#[derive(PartialEq)]
pub struct Lent {
    all: Vec<u32>,
    room: usize,
}

impl Lent {
    pub fn new(room: usize) -> Self {
        Lent {
            all: (0..room + 2 * GUARD).map(pattern).collect(),
            room,
        }
    }

    pub fn words(&mut self) -> &mut [u32] {
        &mut self.all[GUARD..GUARD + self.room]
    }

    pub fn signed(&mut self) -> &mut [i32] {
        let words = self.words();
        unsafe { std::slice::from_raw_parts_mut(words.as_mut_ptr().cast(), words.len()) }
    }

    /// What differs from these words at the front and the pattern everywhere else.
    pub fn differs(&self, front: impl ExactSizeIterator<Item = u32>) -> Option<String> {
        let count = front.len();
        let mut at = GUARD;
        for word in front {
            if self.all[at] != word {
                return Some(format!(
                    "word {} is {}, expected {word}",
                    at - GUARD,
                    self.all[at]
                ));
            }
            at += 1;
        }
        for at in (0..GUARD).chain(GUARD + count..self.all.len()) {
            if self.all[at] != pattern(at) {
                let place = at as i64 - GUARD as i64;
                return Some(format!(
                    "word {place} of a list of {} was written: {}",
                    self.room, self.all[at]
                ));
            }
        }
        None
    }

    /// Whether every word from there on, and the guard behind, is as it was.
    pub fn kept_from(&self, front: usize) -> bool {
        (GUARD + front..self.all.len()).all(|at| self.all[at] == pattern(at))
    }

    /// Whether the guards are unharmed.
    pub fn guarded(&self) -> bool {
        let behind = GUARD + self.room..self.all.len();
        (0..GUARD)
            .chain(behind)
            .all(|at| self.all[at] == pattern(at))
    }
}

/// What a watched list is made of.
pub trait Element: Copy + PartialEq + std::fmt::Debug {
    fn pattern(at: usize) -> Self;
}

impl Element for u32 {
    fn pattern(at: usize) -> u32 {
        pattern(at)
    }
}

impl Element for u8 {
    fn pattern(at: usize) -> u8 {
        (pattern(at) >> 24) as u8
    }
}

/// A list beside what it is expected to hold, guards and all.
#[derive(Clone)]
pub struct Watched<T> {
    all: Vec<T>,
    expected: Vec<T>,
}

impl<T: Element> Watched<T> {
    pub fn new(room: usize) -> Self {
        let all: Vec<T> = (0..room + 2 * GUARD).map(T::pattern).collect();
        Watched {
            expected: all.clone(),
            all,
        }
    }

    /// A list with this content.
    pub fn holding(content: &[T]) -> Self {
        let mut list = Watched::new(content.len());
        list.expect(0, content);
        list.all = list.expected.clone();
        list
    }

    pub fn room(&self) -> usize {
        self.all.len() - 2 * GUARD
    }

    pub fn lent(&mut self) -> &mut [T] {
        let room = self.room();
        &mut self.all[GUARD..GUARD + room]
    }

    /// These elements are expected at that place from now on.
    pub fn expect(&mut self, at: usize, elements: &[T]) {
        self.expected[GUARD + at..GUARD + at + elements.len()].copy_from_slice(elements);
    }

    /// From now on it is expected to hold what that list holds, which is as long.
    pub fn expect_like(&mut self, other: &Self) {
        self.expect(0, &other.all[GUARD..GUARD + other.room()]);
    }

    pub fn expected(&self, at: usize) -> T {
        self.expected[GUARD + at]
    }

    /// Whether the guards and so many elements at the front are unharmed.
    pub fn kept(&self, front: usize) -> bool {
        let behind = GUARD + self.room();
        let front = GUARD + front.min(self.room());
        self.all[..front] == self.expected[..front] && self.all[behind..] == self.expected[behind..]
    }

    pub fn differs(&self, name: &str) -> Option<String> {
        if self.all == self.expected {
            return None;
        }
        let at = (0..self.all.len()).find(|at| self.all[*at] != self.expected[*at])?;
        Some(format!(
            "{name}: element {} of a list of {} is {:?}, expected {:?}",
            at as i64 - GUARD as i64,
            self.room(),
            self.all[at],
            self.expected[at]
        ))
    }
}
