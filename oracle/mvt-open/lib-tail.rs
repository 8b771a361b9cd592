
// Appended to the second copy of lib.rs by oracle/setup: what the other tails add.
pub use crate::encoder::{NamedClip, State, command_word, named_clip, param_word};
