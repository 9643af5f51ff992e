//! The C interface: what each buffer of each call holds. It grows with the wishes, and
//! everything that knows a place in a buffer stands here. Numbers of two bytes are low
//! byte first.
//!
//! A state: R0 to R5, SP, PC; 16 the indicators (N 8, Z 4, V 2, C 1); 17 I2; 18 the mode;
//! 19 the cause of the step that led here, 0 after power-up and after a run; from wish 3
//! on 20 the mark; from wish 4 on 21 whether that step tells a blank's address, and 22 and
//! 23 the address, else 0.
//! A tally: blanks, then the first place, FFFF if there was none; from wish 4 on the
//! address told there, 0 if there was none.
//! Settings: from wish 1 on whether the microm is fitted; from wish 14 on then the
//! power-up jumpers, the halt jumpers and the external address register; one byte each.
//! Cards: sixteen bytes, 1 where the channel has a card, else 0; then the readings, sixteen
//! words, 0 without a card.
//! A report: readings, blanks, lowest, highest, all 0 where there is none, and the sum in
//! four bytes. A recorder: the number of scans, and the reports of the sixteen channels.

use crate::level::{Level, Settings, Setup, Wish};
use crate::machine::{self, Ran, Stepped};
use crate::recorder::{Channel, Report, Span, Tallies, CHANNELS};
use crate::state::{Cause, Flags, Mode, State};
use crate::trace::Verdict;
use crate::{Placed, Refusal};

/// A wrong length, or a byte out of its range, before all other refusals.
pub const BAD_BUFFER: Refusal = Refusal(21);

// ---- the calls ----

/// The calls by their numbers.
#[derive(Clone, Copy, PartialEq, Eq, Debug)]
#[repr(u8)]
pub enum Call {
    PowerUp = 0,
    Step = 1,
    Run = 2,
    WriteText = 3,
    ReadText = 4,
    Assemble = 5,
    CheckTrace = 6,
    Scan = 7,
    Report = 8,
    RunSame = 9,
    RunUntil = 10,
    ListLine = 11,
    ReadJob = 12,
    Labels = 13,
}

/// All of them.
pub const CALLS: [Call; 14] = [
    Call::PowerUp,
    Call::Step,
    Call::Run,
    Call::WriteText,
    Call::ReadText,
    Call::Assemble,
    Call::CheckTrace,
    Call::Scan,
    Call::Report,
    Call::RunSame,
    Call::RunUntil,
    Call::ListLine,
    Call::ReadJob,
    Call::Labels,
];

impl Call {
    /// The bytes of an element of each buffer that the call is lent, in their order.
    pub fn elements(self, level: Level) -> &'static [usize] {
        let with_settings = level.has(Wish::BlockMoves);
        match self {
            // state, tally, image, map, lines, settings
            Call::PowerUp | Call::Step | Call::Run if with_settings => &[1, 1, 1, 1, 2, 1],
            Call::PowerUp | Call::Step | Call::Run => &[1, 1, 1, 1, 2],
            // words, text; text, words; source, section; job, trace; then the answer
            Call::WriteText | Call::ReadText | Call::Assemble | Call::CheckTrace => &[1, 1, 1],
            // as a run, then the cards, the readings and the recorder
            Call::Scan => &[1, 1, 1, 1, 2, 1, 1, 2, 1],
            // the recorder, the channel's number, its report
            Call::Report => &[1, 1, 1],
            // as a run, but the line word and the number of steps are the lines
            Call::RunSame => &[1, 1, 1, 1, 2, 1],
            // as a run, then what ends it, as a word
            Call::RunUntil => &[1, 1, 1, 1, 2, 1, 2],
            // image, map, the first and the last address as two words, text, answer
            Call::ListLine => &[1, 1, 2, 1, 1],
            // job, image, map, lines, answer
            Call::ReadJob => &[1, 1, 1, 2, 1],
            // source, labels, answer
            Call::Labels => &[1, 1, 1],
        }
    }
}

/// Power-up of bench's board at the level that has landed, then as many runs over the same lines; the registers at the end.
/// It takes nothing from a heap: for compare/lent.c.
pub fn ended(
    image: &mut [u8],
    map: &[u8],
    lines: &[u16],
    runs: usize,
    registers: &mut [u16; 8],
) -> u8 {
    let setup = Setup::bench(Level::LANDED);
    let mut state = match machine::power_up(&setup, image, map) {
        Ok(up) => up,
        Err(Refusal(number)) => return number,
    };
    for _ in 0..runs {
        state = match machine::run(&setup, state, image, map, lines) {
            Ok(ran) => ran.state,
            Err(Refusal(number)) => return number,
        };
    }
    *registers = state.r;
    0
}

/// What takes the calls.
pub trait Interface {
    /// Makes a call; answers 0 or its refusal, and leaves the buffers as they are after it.
    fn call(&mut self, call: Call, buffers: &mut [Vec<u8>]) -> u8;
}

/// The buffers of power-up, step, run and scan. Power-up doesn't use the tally and the
/// lines, a step only the first line.
#[derive(Clone, PartialEq, Eq, Debug)]
pub struct Buffers {
    pub state: Vec<u8>,
    pub tally: Vec<u8>,
    pub image: Vec<u8>,
    pub map: Vec<u8>,
    pub lines: Vec<u16>,
    pub settings: Vec<u8>,
}

impl Buffers {
    /// The buffers in the order of the call.
    pub fn into_list(self, level: Level) -> Vec<Vec<u8>> {
        let mut list = vec![self.state, self.tally, self.image, self.map];
        list.push(bytes_of_words(&self.lines));
        if level.has(Wish::BlockMoves) {
            list.push(self.settings);
        }
        list
    }

    /// The buffers taken out of the order of the call.
    pub fn taken(list: &mut [Vec<u8>]) -> Buffers {
        let mut take = |at: usize| list.get_mut(at).map(std::mem::take).unwrap_or_default();
        Buffers {
            state: take(0),
            tally: take(1),
            image: take(2),
            map: take(3),
            lines: words_of_bytes(&take(4)),
            settings: take(5),
        }
    }
}

pub fn bytes_of_words(words: &[u16]) -> Vec<u8> {
    words.iter().flat_map(|word| word.to_le_bytes()).collect()
}

pub fn words_of_bytes(bytes: &[u8]) -> Vec<u16> {
    let pairs = bytes.chunks_exact(2);
    pairs
        .map(|two| u16::from_le_bytes([two[0], two[1]]))
        .collect()
}

fn word_at(bytes: &[u8], at: usize) -> u16 {
    u16::from_le_bytes([bytes[at], bytes[at + 1]])
}

// ---- states ----

const INDICATORS: usize = 16;
const I2: usize = 17;
const MODE: usize = 18;
const CAUSE: usize = 19;
const MARK: usize = 20;
const TELLS: usize = 21;
const TOLD: usize = 22;

pub fn state_length(level: Level) -> usize {
    match level {
        _ if level.has(Wish::BlankAddress) => TOLD + 2,
        _ if level.has(Wish::LateIen) => MARK + 1,
        _ => CAUSE + 1,
    }
}

/// The bytes of a state that have a range, and their first value out of it.
fn ranges(level: Level) -> Vec<(usize, u8)> {
    let jumpers = level.has(Wish::Jumpers);
    let mut ranges = vec![(INDICATORS, 16), (I2, 2)];
    ranges.push((MODE, if jumpers { 6 } else { 5 }));
    ranges.push((CAUSE, if jumpers { 10 } else { 9 }));
    ranges.extend([(MARK, 2), (TELLS, 2)]);
    ranges.retain(|&(at, _)| at < state_length(level));
    ranges
}

/// Bytes that no state has in their places.
pub fn bad_bytes(level: Level) -> Vec<(usize, u8)> {
    let over = |(at, least): (usize, u8)| [least, least + 1, 0x80, 0xFF].map(|byte| (at, byte));
    ranges(level).into_iter().flat_map(over).collect()
}

/// The state that the bytes hold.
pub fn state_of(level: Level, bytes: &[u8]) -> Result<State, Refusal> {
    let in_range = |&(at, over): &(usize, u8)| bytes[at] < over;
    if bytes.len() != state_length(level) || !ranges(level).iter().all(in_range) {
        return Err(BAD_BUFFER);
    }
    Ok(State {
        r: std::array::from_fn(|register| word_at(bytes, 2 * register)),
        flags: Flags::from_bits(u16::from(bytes[INDICATORS])),
        i2: bytes[I2] == 1,
        mode: Mode::from_number(bytes[MODE]).ok_or(BAD_BUFFER)?,
        mark: bytes.get(MARK) == Some(&1),
    })
}

/// The bytes of a step's answer.
pub fn stepped_bytes(level: Level, stepped: &Stepped) -> Vec<u8> {
    let state = &stepped.state;
    let mut bytes = bytes_of_words(&state.r);
    bytes.extend([state.flags.bits() as u8, u8::from(state.i2)]);
    bytes.extend([state.mode as u8, stepped.cause as u8]);
    bytes.extend([u8::from(state.mark), u8::from(stepped.blank.is_some())]);
    bytes.extend(stepped.blank.unwrap_or(0).to_le_bytes());
    bytes.truncate(state_length(level));
    bytes
}

/// The bytes of a state that no step led to.
pub fn bytes_of(level: Level, state: &State) -> Vec<u8> {
    let stepped = Stepped {
        state: *state,
        cause: Cause::OpCode,
        blank: None,
    };
    stepped_bytes(level, &stepped)
}

/// What the bytes of a step's answer say.
pub fn stepped_of(level: Level, bytes: &[u8]) -> Result<Stepped, Refusal> {
    let told = bytes.get(TELLS) == Some(&1);
    Ok(Stepped {
        state: state_of(level, bytes)?,
        cause: Cause::from_number(bytes[CAUSE]).ok_or(BAD_BUFFER)?,
        blank: told.then(|| word_at(bytes, TOLD)),
    })
}

// ---- tallies of runs, settings ----

pub fn tally_length(level: Level) -> usize {
    if level.has(Wish::BlankAddress) {
        6
    } else {
        4
    }
}

/// The tally of a run that ends early has the number of its steps behind the rest.
pub fn stopped_length(level: Level) -> usize {
    tally_length(level) + 2
}

pub fn tally_bytes(level: Level, ran: &Ran) -> Vec<u8> {
    let first = ran.first.unwrap_or(0xFFFF);
    let mut bytes = bytes_of_words(&[ran.blanks, first, ran.address.unwrap_or(0)]);
    bytes.truncate(tally_length(level));
    bytes
}

/// What the bytes of a state and a tally after a run say.
pub fn ran_of(level: Level, state: &[u8], tally: &[u8]) -> Result<Ran, Refusal> {
    let first = Some(word_at(tally, 2)).filter(|&place| place != 0xFFFF);
    let address = (tally.len() > 4).then(|| word_at(tally, 4));
    Ok(Ran {
        state: state_of(level, state)?,
        blanks: word_at(tally, 0),
        first,
        address: address.filter(|_| first.is_some()),
    })
}

pub fn settings_length(level: Level) -> usize {
    match level {
        _ if level.has(Wish::Jumpers) => 4,
        _ if level.has(Wish::BlockMoves) => 1,
        _ => 0,
    }
}

pub fn settings_bytes(level: Level, settings: &Settings) -> Vec<u8> {
    let Settings {
        microm,
        power_up,
        halt,
        address,
    } = *settings;
    let mut bytes = vec![u8::from(microm), power_up, halt, address];
    bytes.truncate(settings_length(level));
    bytes
}

pub fn setup_of(level: Level, bytes: &[u8]) -> Result<Setup, Refusal> {
    if bytes.len() != settings_length(level) || bytes.first().is_some_and(|&microm| microm > 1) {
        return Err(BAD_BUFFER);
    }
    let byte = |at: usize| bytes.get(at).copied().unwrap_or(0);
    let settings = Settings {
        microm: byte(0) == 1,
        power_up: byte(1),
        halt: byte(2),
        address: byte(3),
    };
    Ok(Setup { level, settings })
}

// ---- answers of the other calls ----

/// An answer of a text, an assembly or a trace is three words: two that are answered where
/// the call is not refused, and the column or the line of a refusal that has one.
pub const ANSWER: usize = 6;

/// Puts what is answered into the answer's buffer; the number of the call.
pub fn put_answer(answer: &mut Vec<u8>, done: Result<[u16; 3], Placed>) -> u8 {
    match done {
        Ok(words) => {
            *answer = bytes_of_words(&words);
            0
        }
        Err(refused) => {
            if let Some(place) = refused.place {
                *answer = bytes_of_words(&[0, 0, place as u16]);
            }
            refused.number
        }
    }
}

/// What a number and an answer's buffer say.
pub fn answer_of(level: Level, number: u8, answer: &[u8]) -> Result<[usize; 3], Placed> {
    let words = [0, 2, 4].map(|at| usize::from(word_at(answer, at)));
    match number {
        0 => Ok(words),
        9 if !level.has(Wish::Columns) => Err(Refusal(number).into()),
        9 | 24..=28 | 30..=32 => Err(Placed::new(number, words[2])),
        _ => Err(Refusal(number).into()),
    }
}

/// A verdict as its kind, the step and the field.
pub fn verdict_words(verdict: Verdict) -> [u16; 3] {
    match verdict {
        Verdict::Accepted => [0, 0, 0],
        Verdict::WrongField { step, field } => [1, step as u16, field as u16],
        Verdict::WrongLength { step } => [2, step as u16, 0],
    }
}

pub fn verdict_of([kind, step, field]: [usize; 3]) -> Option<Verdict> {
    match kind {
        0 => Some(Verdict::Accepted),
        1 => Some(Verdict::WrongField { step, field }),
        2 => Some(Verdict::WrongLength { step }),
        _ => None,
    }
}

// ---- the recorder ----

pub const REPORT: usize = 12;
pub const RECORDER: usize = 2 + CHANNELS * REPORT;

/// The cards and the readings; none where a reading doesn't fit.
pub fn channels_bytes(channels: &[Channel; CHANNELS]) -> Option<[Vec<u8>; 2]> {
    let cards = channels.iter().map(|channel| u8::from(channel.is_some()));
    let word = |channel: &Channel| i16::try_from(channel.unwrap_or(0)).ok();
    let readings: Option<Vec<u16>> = channels.iter().map(|c| Some(word(c)? as u16)).collect();
    Some([cards.collect(), bytes_of_words(&readings?)])
}

pub fn channels_of(cards: &[u8], readings: &[u8]) -> Result<[Channel; CHANNELS], Refusal> {
    let readings = words_of_bytes(readings);
    if [cards.len(), readings.len()] != [CHANNELS; 2] || cards.iter().any(|&card| card > 1) {
        return Err(BAD_BUFFER);
    }
    let channel = |at: usize| (cards[at] == 1).then_some(i32::from(readings[at] as i16));
    Ok(std::array::from_fn(channel))
}

pub fn report_bytes(report: &Report) -> Vec<u8> {
    let nothing = Span {
        lowest: 0,
        highest: 0,
        sum: 0,
    };
    let span = report.span.unwrap_or(nothing);
    let counts = [report.readings as u16, report.blanks as u16];
    let mut bytes = bytes_of_words(&counts);
    bytes.extend(bytes_of_words(&[span.lowest as u16, span.highest as u16]));
    bytes.extend(span.sum.to_le_bytes());
    bytes
}

pub fn report_of(bytes: &[u8]) -> Report {
    let signed = |at: usize| i32::from(word_at(bytes, at) as i16);
    let readings = u32::from(word_at(bytes, 0));
    let sum = [bytes[8], bytes[9], bytes[10], bytes[11]];
    Report {
        readings,
        blanks: u32::from(word_at(bytes, 2)),
        span: (readings > 0).then(|| Span {
            lowest: signed(4),
            highest: signed(6),
            sum: i32::from_le_bytes(sum),
        }),
    }
}

pub fn tallies_bytes(tallies: &Tallies) -> Vec<u8> {
    let mut bytes = bytes_of_words(&[tallies.scans as u16]);
    bytes.extend(tallies.channels.iter().flat_map(report_bytes));
    bytes
}

pub fn tallies_of(bytes: &[u8]) -> Result<Tallies, Refusal> {
    if bytes.len() != RECORDER {
        return Err(BAD_BUFFER);
    }
    let report = |channel: usize| report_of(&bytes[2 + channel * REPORT..]);
    Ok(Tallies {
        scans: u32::from(word_at(bytes, 0)),
        channels: std::array::from_fn(report),
    })
}
