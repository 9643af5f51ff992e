//! Answers to cases through the C interface, and through programs for bench and the listing.

use crate::abi::{self, Buffers, Call, Interface};
use crate::cases::{Answer, Answers, Memory};
use crate::level::{Level, Setup};
use crate::machine::{Ran, Stepped};
use crate::recorder::{Channel, Report, Tallies, CHANNELS};
use crate::served::printed;
use crate::state::State;
use crate::trace::Verdict;
use crate::{Placed, Refusal};

/// What is asked. Its interface is the one of this level, whatever level a case tells.
pub struct Through<I> {
    pub interface: I,
    pub level: Level,
    /// The commands of the programs, empty where there is none.
    pub bench: String,
    pub list: String,
}

fn refused<T>(number: u8) -> Answer<T> {
    Some(Err(Refusal(number).into()))
}

impl<I: Interface> Through<I> {
    fn lent(&self, setup: &Setup, state: &State, m: &Memory, lines: &[u16]) -> Buffers {
        Buffers {
            state: abi::bytes_of(self.level, state),
            tally: vec![0; abi::tally_length(self.level)],
            image: m.image.clone(),
            map: m.map.clone(),
            lines: lines.to_vec(),
            settings: abi::settings_bytes(self.level, &setup.settings),
        }
    }

    /// The number of a call, and its buffers after it; the image goes back to the memory.
    fn made(&mut self, call: Call, mut list: Vec<Vec<u8>>, m: &mut Memory) -> (u8, Vec<Vec<u8>>) {
        let number = self.interface.call(call, &mut list);
        m.image.clone_from(&list[2]);
        (number, list)
    }

    /// A call with two buffers and its answer's three words; the second buffer goes back.
    fn answered(
        &mut self,
        call: Call,
        first: &[u8],
        second: &mut [u8],
    ) -> Result<[usize; 3], Placed> {
        let mut list = [first.to_vec(), second.to_vec(), vec![0; abi::ANSWER]];
        let number = self.interface.call(call, &mut list);
        second.copy_from_slice(&list[1]);
        abi::answer_of(self.level, number, &list[2])
    }
}

/// What a program prints, none where there is no program or it says nothing.
fn said(command: &str, input: &[u8]) -> Option<String> {
    let bytes = printed(command, input).ok()?;
    let text = String::from_utf8(bytes).ok()?;
    let text = text.trim_end_matches('\n');
    (!text.is_empty()).then(|| text.to_string())
}

impl<I: Interface> Answers for Through<I> {
    fn power_up(&mut self, setup: &Setup, m: &mut Memory) -> Answer<State> {
        let lent = self.lent(setup, &State::cleared(), m, &[]);
        let (number, list) = self.made(Call::PowerUp, lent.into_list(self.level), m);
        match number {
            0 => Some(Ok(abi::state_of(self.level, &list[0]).ok()?)),
            _ => refused(number),
        }
    }

    fn step(&mut self, setup: &Setup, s: State, m: &mut Memory, line: u16) -> Answer<Stepped> {
        let lent = self.lent(setup, &s, m, &[line]);
        let (number, list) = self.made(Call::Step, lent.into_list(self.level), m);
        match number {
            0 => Some(Ok(abi::stepped_of(self.level, &list[0]).ok()?)),
            _ => refused(number),
        }
    }

    fn run(&mut self, setup: &Setup, s: State, m: &mut Memory, lines: &[u16]) -> Answer<Ran> {
        let lent = self.lent(setup, &s, m, lines);
        let (number, list) = self.made(Call::Run, lent.into_list(self.level), m);
        match number {
            0 => Some(Ok(abi::ran_of(self.level, &list[0], &list[1]).ok()?)),
            _ => refused(number),
        }
    }

    fn write(&mut self, level: Level, words: &[u16], text: &mut [u8]) -> Answer<(usize, usize)> {
        self.write_bytes(level, &abi::bytes_of_words(words), text)
    }

    fn read(&mut self, level: Level, text: &[u8], words: &mut [u16]) -> Answer<usize> {
        let mut bytes = abi::bytes_of_words(words);
        let answer = self.read_bytes(level, text, &mut bytes);
        words.copy_from_slice(&abi::words_of_bytes(&bytes));
        answer
    }

    fn write_bytes(&mut self, _: Level, words: &[u8], text: &mut [u8]) -> Answer<(usize, usize)> {
        let answer = self.answered(Call::WriteText, words, text);
        Some(answer.map(|[length, taken, _]| (length, taken)))
    }

    fn read_bytes(&mut self, _: Level, text: &[u8], words: &mut [u8]) -> Answer<usize> {
        let answer = self.answered(Call::ReadText, text, words);
        Some(answer.map(|[count, ..]| count))
    }

    fn assemble(&mut self, _: Level, source: &[u8], section: &mut [u8]) -> Answer<usize> {
        let answer = self.answered(Call::Assemble, source, section);
        Some(answer.map(|[length, ..]| length))
    }

    fn trace(&mut self, _: Level, job: &[u8], trace: &[u8]) -> Answer<Verdict> {
        match self.answered(Call::CheckTrace, job, &mut trace.to_vec()) {
            Ok(words) => Some(Ok(abi::verdict_of(words)?)),
            Err(refusal) => Some(Err(refusal)),
        }
    }

    fn scan(
        &mut self,
        setup: &Setup,
        tallies: &mut Tallies,
        s: State,
        m: &mut Memory,
        channels: &[Channel; CHANNELS],
        lines: &[u16],
    ) -> Answer<Ran> {
        let mut list = self.lent(setup, &s, m, lines).into_list(self.level);
        list.extend(abi::channels_bytes(channels)?);
        list.push(abi::tallies_bytes(tallies));
        let (number, list) = self.made(Call::Scan, list, m);
        if number != 0 {
            return refused(number);
        }
        *tallies = abi::tallies_of(&list[8]).ok()?;
        Some(Ok(abi::ran_of(self.level, &list[0], &list[1]).ok()?))
    }

    fn report(&mut self, tallies: &Tallies, channel: u8) -> Answer<Report> {
        let recorder = abi::tallies_bytes(tallies);
        let mut list = [recorder, vec![channel], vec![0; abi::REPORT]];
        match self.interface.call(Call::Report, &mut list) {
            0 => Some(Ok(abi::report_of(&list[2]))),
            number => refused(number),
        }
    }

    fn bench(&mut self, _: Level, job: &[u8]) -> Option<String> {
        said(&self.bench, job)
    }

    fn list(&mut self, _: Level, input: &[u8]) -> Option<String> {
        said(&self.list, input)
    }
}
