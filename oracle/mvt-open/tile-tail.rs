
// Appended to the second copy of tile.rs by oracle/setup: a window on what is
// private there.

impl Feature {
    /// The tag words so far: key index and value index by turns.
    pub fn tag_words(&self) -> &[u32] {
        &self.feature.tags
    }
}
