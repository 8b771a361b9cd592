//! What a run has done, and the first difference.

/// Counts by name, in the order in which they first came.
#[derive(Default)]
pub struct Tally(Vec<(&'static str, usize)>);

impl Tally {
    pub fn add(&mut self, name: &'static str, count: usize) {
        match self.0.iter_mut().find(|(known, _)| *known == name) {
            Some((_, total)) => *total += count,
            None => self.0.push((name, count)),
        }
    }

    pub fn add_all(&mut self, other: Tally) {
        for (name, count) in other.0 {
            self.add(name, count);
        }
    }

    /// How often this came.
    pub fn count(&self, name: &str) -> usize {
        let found = self.0.iter().find(|(known, _)| *known == name);
        found.map_or(0, |(_, total)| *total)
    }

    pub fn text(&self) -> String {
        let counts: Vec<String> = self
            .0
            .iter()
            .map(|(name, count)| format!("{name} {count}"))
            .collect();
        counts.join(", ")
    }
}

pub struct Difference {
    pub what: String,
    pub input: String,
}
