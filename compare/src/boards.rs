//! Random calls of the functions for boards, and what they must answer: a run that ends early, a
//! run over one line word, a listing's line, a job read, and the labels of a source.

use crate::abi::{self, Call};
use crate::assembler::LEAST_LABELS;
use crate::board::{IMAGE, PAGES};
use crate::gen::{self, Random, RandomBoard};
use crate::gencases::source;
use crate::level::Level;
use crate::machine::MOST_LINES;
use crate::state::Mode;

/// The calls that are made, and what they must answer.
pub const BOARD_ANSWERS: [(Call, &[u8]); 5] = [
    (Call::RunSame, &[0, 21, 1, 2, 3, 35, 5]),
    (Call::RunUntil, &[0, 21, 1, 2, 3, 35, 4, 5]),
    (Call::ListLine, &[0, 21, 1, 2, 3, 23, 8]),
    (Call::ReadJob, &READ_JOB),
    (Call::Labels, &[0, 21, 10, 36, 24, 25]),
];
const READ_JOB: [u8; 16] = [0, 21, 1, 2, 4, 11, 12, 13, 14, 15, 16, 17, 18, 19, 20, 22];

/// A call, and the buffers that are lent to it.
pub fn board_call(random: &mut Random, level: Level) -> (Call, Vec<Vec<u8>>) {
    let (call, _) = random.pick(&BOARD_ANSWERS);
    let (mut list, lengths): (_, &[usize]) = match call {
        Call::RunSame => (run_same(random, level), &[0, 1, 2, 3, 5]),
        Call::RunUntil => (run_until(random, level), &[0, 1, 2, 3, 5]),
        Call::ListLine => (list_line(random, level), &[0, 1, 3, 4]),
        Call::ReadJob => (read_job(random, level), &[1, 2, 3, 4]),
        _ => (labels(random, level), &[1, 2]),
    };
    if random.percent(20) {
        let at = random.pick(lengths);
        let element = call.elements(level)[at];
        let shorter = list[at].len().saturating_sub(element);
        list[at].resize(random.pick(&[0, shorter, shorter]), 0);
    }
    (call, list)
}

/// A word that stands for itself, now and then one with a bit that has no meaning.
fn damaged_line(random: &mut Random, line: u16) -> u16 {
    if random.percent(4) {
        return line | gen::unused_bit(random);
    }
    line
}

/// State, tally, image, map, lines and settings, with a state that runs most of the time.
fn processor(random: &mut Random, level: Level, tally: usize, lines: &[u16]) -> Vec<Vec<u8>> {
    let RandomBoard { image, mut map } = gen::board(random, level);
    let mut state = gen::state(random, &map, level);
    if random.percent(70) {
        state.mode = Mode::Running;
    }
    let mut settings = abi::settings_bytes(level, &gen::settings(random, level));
    match random.below(30) {
        0 => map[random.below(PAGES)] = 3,
        1 => settings[1] = 4,
        2 => settings[0] = 2,
        _ => {}
    }
    let mut state = abi::bytes_of(level, &state);
    if random.percent(2) {
        let (at, byte) = random.pick(&abi::bad_bytes(level));
        state[at] = byte;
    }
    let lines = abi::bytes_of_words(lines);
    vec![state, vec![9; tally], image, map.to_vec(), lines, settings]
}

fn run_same(random: &mut Random, level: Level) -> Vec<Vec<u8>> {
    let noise = gen::line(random);
    let line = random.pick(&[0, 0, noise]);
    let few = random.below(40) as u16;
    let steps = random.pick(&[0, 1, few, few, 300, 5_000, 65_535]);
    let lines = [damaged_line(random, line), steps];
    processor(random, level, abi::tally_length(level), &lines)
}

fn run_until(random: &mut Random, level: Level) -> Vec<Vec<u8>> {
    let number = random.pick(&[0, 1, 2, 8, 64, 300, MOST_LINES]);
    let noise = random.pick(&[0, 5, 100]);
    let line = |random: &mut Random| match random.percent(noise) {
        true => gen::line(random),
        false => 0,
    };
    let mut lines: Vec<u16> = (0..number).map(|_| line(random)).collect();
    if let Some(last) = lines.last_mut() {
        *last = damaged_line(random, *last);
    }
    if random.percent(2) {
        lines.resize(MOST_LINES + 1, 0);
    }
    let limit = if random.percent(4) { 256 } else { 16 };
    let until = random.below(limit) as u16;
    let mut list = processor(random, level, abi::stopped_length(level), &lines);
    list.push(until.to_le_bytes().to_vec());
    list
}

fn list_line(random: &mut Random, level: Level) -> Vec<Vec<u8>> {
    let RandomBoard { image, mut map } = gen::board(random, level);
    let mut first = gen::address(random, &map) & 0xFFFE;
    let mut last = first.saturating_add(2 * random.below(4) as u16) & 0xFFFE;
    match random.below(20) {
        0 => first |= 1,
        1 => last |= 1,
        2 => last = first.saturating_sub(2),
        3 => map[random.below(PAGES)] = 3,
        4 => (first, last) = (0xFFFC, 0xFFFE),
        _ => {}
    }
    let stretch = abi::bytes_of_words(&[first, last]);
    let text = vec![b'?'; random.pick(&[51, 52, 60, 60, 60])];
    vec![image, map.to_vec(), stretch, text, vec![7; abi::ANSWER]]
}

fn read_job(random: &mut Random, level: Level) -> Vec<Vec<u8>> {
    let job = match random.below(3) {
        0 => gen::good_job(random, level),
        1 => gen::changed_job(random, level),
        _ => {
            let number = random.pick(&gen::job_refusals(level));
            gen::damaged_job(random, number, level)
        }
    };
    let (image, map) = (vec![0xAA; IMAGE], vec![0xAA; PAGES]);
    vec![
        job,
        image,
        map,
        vec![0xAA; 2 * MOST_LINES],
        vec![7; abi::ANSWER],
    ]
}

fn labels(random: &mut Random, level: Level) -> Vec<Vec<u8>> {
    let source = source(random, level, &mut Vec::new());
    let room = LEAST_LABELS + random.below(3);
    vec![source, vec![0xAA; room], vec![7; abi::ANSWER]]
}
