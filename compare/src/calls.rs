//! The interpreter of this crate behind the C interface.

use crate::abi::{self, Buffers, Call, Interface, BAD_BUFFER};
use crate::assembler::{assemble, labels};
use crate::board::PAGES;
use crate::job::read_job;
use crate::level::{Level, Setup};
use crate::listing::listing;
use crate::machine::{self, Ran, Until};
use crate::recorder;
use crate::state::State;
use crate::text::{read_text_to_bytes, write_text_of_bytes};
use crate::trace::check_trace;
use crate::{Placed, Refusal};

/// The bytes of a listing's line, at least.
const LEAST_LISTED: usize = 52;

/// The interpreter as it is at a level.
pub struct Plain(pub Level);

impl Plain {
    /// What the buffers of a step, a run or a scan lend.
    fn lent(&self, b: &Buffers) -> Result<(State, Setup), Refusal> {
        let state = abi::state_of(self.0, &b.state)?;
        Ok((state, abi::setup_of(self.0, &b.settings)?))
    }

    fn power_up(&self, b: &mut Buffers) -> Result<(), Refusal> {
        if b.state.len() != abi::state_length(self.0) {
            return Err(BAD_BUFFER);
        }
        let setup = abi::setup_of(self.0, &b.settings)?;
        let state = machine::power_up(&setup, &mut b.image, &b.map)?;
        b.state = abi::bytes_of(self.0, &state);
        Ok(())
    }

    fn step(&self, b: &mut Buffers) -> Result<(), Refusal> {
        let (state, setup) = self.lent(b)?;
        let stepped = machine::step(&setup, state, &mut b.image, &b.map, b.lines[0])?;
        b.state = abi::stepped_bytes(self.0, &stepped);
        Ok(())
    }

    /// A run, or a scan around one.
    fn run(
        &self,
        b: &mut Buffers,
        run: impl FnOnce(&Setup, State, &mut [u8], &[u8], &[u16]) -> Result<Ran, Refusal>,
    ) -> Result<(), Refusal> {
        let (state, setup) = self.lent(b)?;
        if b.tally.len() != abi::tally_length(self.0) {
            return Err(BAD_BUFFER);
        }
        let ran = run(&setup, state, &mut b.image, &b.map, &b.lines)?;
        b.state = abi::bytes_of(self.0, &ran.state);
        b.tally = abi::tally_bytes(self.0, &ran);
        Ok(())
    }

    fn scan(&self, b: &mut Buffers, more: &mut [Vec<u8>]) -> Result<(), Refusal> {
        let channels = abi::channels_of(&more[0], &more[1])?;
        let mut tallies = abi::tallies_of(&more[2])?;
        self.run(b, |setup, state, image, map, lines| {
            recorder::scan(setup, &mut tallies, state, image, map, &channels, lines)
        })?;
        more[2] = abi::tallies_bytes(&tallies);
        Ok(())
    }

    /// As many steps over one line word; both are the lines.
    fn run_same(&self, b: &mut Buffers) -> Result<(), Refusal> {
        self.run(b, |setup, state, image, map, lines| {
            machine::run_same(setup, state, image, map, lines[0], lines[1])
        })
    }

    fn run_until(&self, b: &mut Buffers, until: &[u8]) -> Result<(), Refusal> {
        let (state, setup) = self.lent(b)?;
        let until = Until::from_number(abi::words_of_bytes(until)[0]).ok_or(BAD_BUFFER)?;
        if b.tally.len() != abi::stopped_length(self.0) {
            return Err(BAD_BUFFER);
        }
        let done = machine::run_until(&setup, state, &mut b.image, &b.map, &b.lines, until)?;
        b.state = abi::stepped_bytes(self.0, &done.last);
        b.tally = abi::tally_bytes(self.0, &done.ran);
        b.tally.extend(done.steps.to_le_bytes());
        Ok(())
    }

    /// A call whose first buffers are the processor's.
    fn on_processor(&self, call: Call, buffers: &mut [Vec<u8>]) -> Result<(), Refusal> {
        let mut b = Buffers::taken(buffers);
        let done = match call {
            Call::PowerUp => self.power_up(&mut b),
            Call::Step => self.step(&mut b),
            Call::Scan => self.scan(&mut b, &mut buffers[6..]),
            Call::RunSame => self.run_same(&mut b),
            Call::RunUntil => self.run_until(&mut b, &buffers[6]),
            _ => self.run(&mut b, machine::run),
        };
        for (buffer, after) in buffers.iter_mut().zip(b.into_list(self.0)) {
            *buffer = after;
        }
        done
    }

    /// A call whose third buffer is its answer: three words.
    fn answered(&self, call: Call, first: &[u8], second: &mut [u8]) -> Result<[u16; 3], Placed> {
        let level = self.0;
        Ok(match call {
            Call::WriteText => {
                let (length, taken) = write_text_of_bytes(level, first, second)?;
                [length as u16, taken as u16, 0]
            }
            Call::ReadText => [read_text_to_bytes(level, first, second)? as u16, 0, 0],
            Call::Assemble => [assemble(level, first, second)? as u16, 0, 0],
            Call::Labels => [labels(level, first, second)? as u16, 0, 0],
            _ => abi::verdict_words(check_trace(level, first, second)?),
        })
    }

    /// A listing's line: its length, where the next one begins, and whether there is none.
    fn list_line(&self, buffers: &mut [Vec<u8>]) -> Result<[u16; 3], Refusal> {
        let [image, map, stretch, text, _] = buffers else {
            return Err(BAD_BUFFER);
        };
        let setup = Setup::bench(self.0);
        machine::check_run(&setup, image, map, &[])?;
        let map: &[u8; PAGES] = map[..].try_into().map_err(|_| Refusal(2))?;
        let stretch = abi::words_of_bytes(stretch);
        let lines = listing(self.0, image, map, stretch[0], stretch[1])?;
        if text.len() < LEAST_LISTED {
            return Err(Refusal(8));
        }
        text[..lines[0].len()].copy_from_slice(lines[0].as_bytes());
        let next = lines.get(1).map(|line| u16::from_str_radix(&line[..4], 16));
        let next = next.map(|address| address.expect("an address"));
        let length = lines[0].len() as u16;
        Ok([length, next.unwrap_or(0), u16::from(next.is_none())])
    }

    fn read_job(&self, buffers: &mut [Vec<u8>]) -> Result<[u16; 3], Refusal> {
        let [job, image, map, bytes, _] = buffers else {
            return Err(BAD_BUFFER);
        };
        let mut lines = abi::words_of_bytes(bytes);
        let number = read_job(self.0, job, image, map, &mut lines)?;
        *bytes = abi::bytes_of_words(&lines);
        Ok([number as u16, 0, 0])
    }

    /// A call whose last buffer is its answer.
    fn with_answer(&self, call: Call, buffers: &mut [Vec<u8>]) -> u8 {
        let last = buffers.len() - 1;
        if buffers[last].len() != abi::ANSWER {
            return BAD_BUFFER.0;
        }
        let done = match (call, &mut buffers[..]) {
            (Call::ListLine, _) => self.list_line(buffers).map_err(Placed::from),
            (Call::ReadJob, _) => self.read_job(buffers).map_err(Placed::from),
            (_, [first, second, _]) => self.answered(call, first, second),
            _ => Err(BAD_BUFFER.into()),
        };
        abi::put_answer(&mut buffers[last], done)
    }

    fn report(&self, buffers: &mut [Vec<u8>]) -> Result<(), Refusal> {
        let &[channel] = &buffers[1][..] else {
            return Err(BAD_BUFFER);
        };
        let tallies = abi::tallies_of(&buffers[0])?;
        if buffers[2].len() != abi::REPORT {
            return Err(BAD_BUFFER);
        }
        let report = tallies.report(channel)?;
        buffers[2] = abi::report_bytes(&report);
        Ok(())
    }
}

impl Interface for Plain {
    fn call(&mut self, call: Call, buffers: &mut [Vec<u8>]) -> u8 {
        let done = match call {
            Call::PowerUp
            | Call::Step
            | Call::Run
            | Call::Scan
            | Call::RunSame
            | Call::RunUntil => self.on_processor(call, buffers),
            Call::Report => self.report(buffers),
            _ => return self.with_answer(call, buffers),
        };
        match done {
            Ok(()) => 0,
            Err(Refusal(number)) => number,
        }
    }
}
