//! The corners of the wishes, as docs/DECISIONS.md reads them.

#[path = "../common/mod.rs"]
mod common;

mod blanks;
mod blocks;
mod enable;
mod jumpers;
mod patches;
mod recorder;
mod texts;
