//! The processor at work on a lent board.

use crate::board::Board;
use crate::level::Settings;
use crate::state::{Line, State};

/// The processor at work: its state, the lent memory, this step's line word.
pub(crate) struct Cpu<'a> {
    pub(crate) s: State,
    pub(crate) board: Board<'a>,
    pub(crate) line: Line,
    pub(crate) settings: Settings,
    /// The jumpers as a PS shows them.
    pub(crate) jumpers: u16,
    /// IEN holds off I0 and I1 for one op code (wish 3).
    pub(crate) late_ien: bool,
    /// A blank's address is told (wish 4).
    pub(crate) tells: bool,
    /// The address of the last bus error, if it is told.
    pub(crate) told: Option<u16>,
}
