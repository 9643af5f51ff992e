//! What bench prints for a job.

use crate::board::{IMAGE, PAGES};
use crate::job::read_job;
use crate::level::{Level, Settings, Setup, Wish};
use crate::machine::{power_up, run, Ran, MOST_LINES};
use crate::state::State;
use crate::Refusal;

/// R0-R5, SP, PC, PS and mode of a state on bench's board.
pub fn fields_of(state: &State) -> [u16; 10] {
    let mut fields = [0; 10];
    fields[..8].copy_from_slice(&state.r);
    fields[8] = state.quiet_ps(Settings::BENCH.ps_bits());
    fields[9] = state.mode as u16;
    fields
}

/// Four digits, or ---- for none.
pub fn four(number: Option<u16>) -> String {
    match number {
        Some(number) => format!("{number:04X}"),
        None => "----".to_string(),
    }
}

/// R0-R5, SP, PC, PS, mode, blanks, first place or ----, its address or ----.
pub fn line_of(level: Level, ran: &Ran) -> String {
    let (registers, mode) = (&fields_of(&ran.state)[..9], ran.state.mode as u8);
    let mut line = String::new();
    for register in registers {
        line += &format!("{register:04X} ");
    }
    line += &format!("{mode} {:04X} {}", ran.blanks, four(ran.first));
    if level.has(Wish::BlankAddress) {
        line += &format!(" {}", four(ran.address));
    }
    line
}

/// A job, read into buffers of its own.
pub struct Loaded {
    pub image: Vec<u8>,
    pub map: [u8; PAGES],
    pub lines: Vec<u16>,
}

/// Reads a job. Refusals 11 to 22.
pub fn load(level: Level, bytes: &[u8]) -> Result<Loaded, Refusal> {
    let mut image = vec![0; IMAGE];
    let mut map = [0; PAGES];
    let mut lines = vec![0; MOST_LINES];
    let count = read_job(level, bytes, &mut image, &mut map, &mut lines)?;
    lines.truncate(count);
    Ok(Loaded { image, map, lines })
}

fn run_job(level: Level, bytes: &[u8]) -> Result<Ran, Refusal> {
    let setup = Setup::bench(level);
    let mut job = load(level, bytes)?;
    let state = power_up(&setup, &mut job.image, &job.map)?;
    run(&setup, state, &mut job.image, &job.map, &job.lines)
}

/// The one line that bench prints for a job, without its line end.
pub fn bench(level: Level, bytes: &[u8]) -> String {
    match run_job(level, bytes) {
        Ok(ran) => line_of(level, &ran),
        Err(Refusal(number)) => format!("REFUSED {number}"),
    }
}
