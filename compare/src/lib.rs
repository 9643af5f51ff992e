//! A plain interpreter of the WD16 processor.
//!
//! Written from documents 01 and 02 and the Programmer's Reference Manual alone.
//! It is a second opinion on what a step comes to, and the measure that the
//! speed of the proved processor is held against.

pub mod abi;
pub mod alu;
pub mod assembler;
pub mod bench;
pub mod board;
pub mod boards;
pub mod calls;
pub mod cases;
mod columns;
pub mod coverage;
mod cpu;
mod execute;
pub mod gen;
pub mod gencases;
pub mod job;
pub mod level;
pub mod listing;
pub mod machine;
mod operand;
pub mod programs;
pub mod recorder;
pub mod served;
pub mod state;
pub mod table;
pub mod text;
pub mod through;
pub mod trace;
pub mod writer;

pub use level::{Level, Settings, Setup, Wish};
pub use machine::{power_up, run, step, Ran, Stepped};
pub use state::{Cause, Flags, Mode, State, PC, SP};

/// A call that was refused, with the number that documents 01 and 02 give to its reason.
#[derive(Clone, Copy, PartialEq, Eq, Debug)]
pub struct Refusal(pub u8);

/// A refusal with the column of a text or the line of a source, where it has one.
#[derive(Clone, Copy, PartialEq, Eq, Debug)]
pub struct Placed {
    pub number: u8,
    pub place: Option<usize>,
}

impl Placed {
    pub fn new(number: u8, place: usize) -> Placed {
        Placed {
            number,
            place: Some(place),
        }
    }
}

impl From<Refusal> for Placed {
    fn from(Refusal(number): Refusal) -> Placed {
        Placed {
            number,
            place: None,
        }
    }
}
