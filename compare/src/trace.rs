//! Checking another shop's trace of a job (wish 8).

use crate::bench::{fields_of, load};
use crate::level::{Level, Setup};
use crate::machine::{power_up, step};
use crate::Refusal;

/// The fields of an entry: R0 to R5, SP, PC, PS, mode.
pub const FIELDS: usize = 10;

/// What a trace is found to be; steps and fields count from 0.
#[derive(Clone, Copy, PartialEq, Eq, Debug)]
pub enum Verdict {
    Accepted,
    /// The first wrong step, and its first wrong field.
    WrongField {
        step: usize,
        field: usize,
    },
    /// The first step that is missing or too many.
    WrongLength {
        step: usize,
    },
}

/// The entries of a trace: a count, then exactly so many. Refusal 29.
fn entries_of(trace: &[u8]) -> Result<Vec<[u16; FIELDS]>, Refusal> {
    let (count, rest) = trace.split_first_chunk::<2>().ok_or(Refusal(29))?;
    let count = usize::from(u16::from_le_bytes(*count));
    if rest.len() != count * 2 * FIELDS {
        return Err(Refusal(29));
    }
    let field = |entry: &[u8], at: usize| u16::from_le_bytes([entry[2 * at], entry[2 * at + 1]]);
    let entries = rest.chunks_exact(2 * FIELDS);
    Ok(entries
        .map(|entry| std::array::from_fn(|at| field(entry, at)))
        .collect())
}

/// The fields after each step of a job on bench's board.
pub fn steps_of(level: Level, job: &[u8]) -> Result<Vec<[u16; FIELDS]>, Refusal> {
    let setup = Setup::bench(level);
    let mut job = load(level, job)?;
    let mut state = power_up(&setup, &mut job.image, &job.map)?;
    let mut fields = Vec::new();
    for &line in &job.lines {
        state = step(&setup, state, &mut job.image, &job.map, line)?.state;
        fields.push(fields_of(&state));
    }
    Ok(fields)
}

/// Holds a trace against the job's steps. Refusals: the job's own, then 29.
pub fn check_trace(level: Level, job: &[u8], trace: &[u8]) -> Result<Verdict, Refusal> {
    let right = steps_of(level, job)?;
    let told = entries_of(trace)?;
    for (step, (right, told)) in right.iter().zip(&told).enumerate() {
        if let Some(field) = (0..FIELDS).find(|&field| right[field] != told[field]) {
            return Ok(Verdict::WrongField { step, field });
        }
    }
    Ok(if right.len() == told.len() {
        Verdict::Accepted
    } else {
        let step = right.len().min(told.len());
        Verdict::WrongLength { step }
    })
}
