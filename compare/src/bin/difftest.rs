//! Holds two processors, or two benches, against each other on random cases.
//!
//! ```text
//! difftest self SEED CASES            the interpreter with itself; prints what was reached
//! difftest served COMMAND SEED CASES  with the static library, through a program that serves its calls
//! difftest bench COMMAND SEED JOBS    with a bench program, by jobs on its standard input
//! difftest calls COMMAND SEED CASES   calls of the text for C, with every byte that is lent to them
//! difftest boards COMMAND SEED CASES  the same of the functions for boards
//! difftest text COMMAND SEED CASES    case lines of texts, through a program that serves calls;
//! difftest asm | trace | scans ..     the same for assemblies, traces and scans
//! difftest list COMMAND SEED CASES    the same for listings, through a listing program
//! ```
//!
//! There COMMAND is `self` for the interpreter with itself.
//!
//! After each step state, cause and the whole image must be the same. The first
//! difference is printed, and the answer is then 1. A last argument is the level; without
//! one it is the landed one.

use std::collections::BTreeMap;
use std::process::ExitCode;

use wd16::abi::{self, Buffers, Call, Interface};
use wd16::bench::bench;
use wd16::board::{IMAGE, PAGES, READ_ONLY, WRITABLE};
use wd16::boards::{board_call, BOARD_ANSWERS};
use wd16::calls::Plain;
use wd16::cases::{self, hex_text, Answers};
use wd16::coverage::{changed_kinds, cut_kinds, is_sound, plugged_kinds, Ahead, Coverage, RunKind};
use wd16::gen::{self, Random, RandomBoard};
use wd16::gencases::{shown, text_call, Kind, TEXT_ANSWERS};
use wd16::machine::MOST_LINES;
use wd16::recorder::{Tallies, CHANNELS};
use wd16::served::{printed, Served};
use wd16::through::Through;
use wd16::writer::text_of;
use wd16::{step, Cause, Level, Mode, Ran, Refusal, Settings, Setup, State, Stepped, Wish, PC};

/// What differs, told to a person.
type Difference = String;

// ---- one board, two processors ----

/// What a call comes to: its number, and its buffers after it.
type Outcome = (u8, Vec<Vec<u8>>);

/// What a call comes to on the interpreter and on the other one.
fn both(level: Level, other: &mut dyn Interface, call: Call, list: Vec<Vec<u8>>) -> [Outcome; 2] {
    let (mut ours, mut theirs) = (list.clone(), list);
    let our_number = Plain(level).call(call, &mut ours);
    let their_number = other.call(call, &mut theirs);
    [(our_number, ours), (their_number, theirs)]
}

/// Two processors on one board with its map. `lent` is what both are lent next.
struct Pair<'a> {
    level: Level,
    other: &'a mut dyn Interface,
    map: [u8; PAGES],
    lent: Buffers,
    random: &'a mut Random,
    reached: &'a mut Coverage,
}

impl Pair<'_> {
    /// The same call on both; answers its number and goes on with what it left.
    fn call(&mut self, call: Call, what: impl Fn(&Buffers) -> String) -> Result<u8, Difference> {
        let list = self.lent.clone().into_list(self.level);
        let [ours, theirs] = both(self.level, self.other, call, list);
        let (number, their_number) = (ours.0, theirs.0);
        let [ours, theirs] = [ours, theirs].map(|(_, mut list)| Buffers::taken(&mut list));
        if (number, &ours) != (their_number, &theirs) {
            let told = difference((number, &ours), (their_number, &theirs));
            return Err(format!("{}: {told}", what(&self.lent)));
        }
        if number != 0 && ours != self.lent {
            return Err(format!(
                "{}: a refused call changed a buffer",
                what(&self.lent)
            ));
        }
        self.lent = ours;
        Ok(number)
    }

    fn some_settings(&mut self) -> Settings {
        gen::settings(self.random, self.level)
    }

    fn some_state(&mut self) -> State {
        gen::state(self.random, &self.map, self.level)
    }

    /// The buffers with some state and a few quiet lines.
    fn quiet(&mut self, good: &Buffers) -> Buffers {
        Buffers {
            state: abi::bytes_of(self.level, &self.some_state()),
            lines: vec![0; 1 + self.random.below(3)],
            ..good.clone()
        }
    }

    fn lend_state(&mut self, state: &State) {
        self.lent.state = abi::bytes_of(self.level, state);
    }

    fn lend_settings(&mut self, settings: &Settings) -> Setup {
        self.lent.settings = abi::settings_bytes(self.level, settings);
        abi::setup_of(self.level, &self.lent.settings).expect("good settings")
    }

    fn step(&mut self, line: u16) -> Result<Stepped, Difference> {
        let level = self.level;
        self.lent.lines = vec![line];
        self.call(Call::Step, |lent| {
            let state = abi::state_of(level, &lent.state).expect("a good state");
            let text = op_code_text(level, &state, &lent.image);
            let settings = hex_text(&lent.settings);
            let state = hex_text(&lent.state);
            format!("step from {state} on line {line:04X}, settings {settings}, {text}")
        })?;
        Ok(abi::stepped_of(level, &self.lent.state).expect("a good answer"))
    }

    fn run(&mut self, lines: &[u16]) -> Result<Ran, Difference> {
        self.lent.lines = lines.to_vec();
        self.call(Call::Run, |lent| {
            let (state, lines) = (hex_text(&lent.state), lent.lines.len());
            format!(
                "run from {state} over {lines} lines, settings {}",
                hex_text(&lent.settings)
            )
        })?;
        let Buffers { state, tally, .. } = &self.lent;
        Ok(abi::ran_of(self.level, state, tally).expect("a good answer"))
    }
}

/// Where two answers, or the buffers after them, differ.
fn difference(ours: (u8, &Buffers), theirs: (u8, &Buffers)) -> Difference {
    if ours.0 != theirs.0 {
        return format!("ours answers {}, theirs {}", ours.0, theirs.0);
    }
    let told = |b: &Buffers| format!("{} {}", hex_text(&b.state), hex_text(&b.tally));
    let images = (&ours.1.image, &theirs.1.image);
    match images.0.iter().zip(images.1).position(|(a, b)| a != b) {
        _ if told(ours.1) != told(theirs.1) => {
            let (ours, theirs) = (told(ours.1), told(theirs.1));
            format!("\n  ours   {ours}\n  theirs {theirs}")
        }
        Some(at) => format!("the images differ from {at:04X} on"),
        None => "the map, the lines or the settings differ".to_string(),
    }
}

/// The op code at PC, for a person.
fn op_code_text(level: Level, state: &State, image: &[u8]) -> String {
    let pc = usize::from(state.r[PC] & 0xFFFE);
    let words: Vec<u16> = (0..3)
        .map(|place| (pc + 2 * place) % IMAGE)
        .map(|at| u16::from_le_bytes([image[at], image[at + 1]]))
        .collect();
    text_of(level, &words).map_or(String::new(), |(text, _)| text)
}

// ---- calls that are to be refused ----

/// A wrong length: none, or as many less or more.
fn wrong_length(random: &mut Random, right: usize, by: usize) -> usize {
    random.pick(&[0, right.saturating_sub(by), right + by])
}

fn damage_length(bytes: &mut Vec<u8>, random: &mut Random, right: usize) {
    bytes.resize(wrong_length(random, right, 1), 0);
}

/// A page that is neither fitted nor not, or read-only.
fn damage_map(map: &mut [u8], random: &mut Random) {
    let last = map.len().max(1) - 1;
    let at = random.pick(&[0, last / 2, last]);
    if let Some(page) = map.get_mut(at) {
        *page = random.pick(&[2, 3, 0x80, 0xFF]);
    }
}

fn damage_line(lines: &mut [u16], random: &mut Random) {
    let bit = gen::unused_bit(random);
    lines[random.below(lines.len())] |= bit;
}

/// One thing made wrong; the state's own bytes only where they are read.
fn damage(level: Level, b: &mut Buffers, random: &mut Random, reads_state: bool) {
    match random.below(12) {
        0 => b.image.truncate(random.pick(&[0, 1, IMAGE - 1])),
        1 => b.image.push(0),
        2 => b.map.truncate(random.pick(&[0, 1, PAGES - 1])),
        3 => b.map.push(1),
        4 => damage_map(&mut b.map, random),
        5 => {
            let length = random.pick(&[MOST_LINES, MOST_LINES + 1, 5000]);
            b.lines.resize(length, 0);
        }
        6 => damage_line(&mut b.lines, random),
        7 => damage_length(&mut b.state, random, abi::state_length(level)),
        8 if reads_state && b.state.len() == abi::state_length(level) => {
            let (at, byte) = random.pick(&abi::bad_bytes(level));
            b.state[at] = byte;
        }
        9 if level.has(Wish::BlockMoves) => {
            damage_length(&mut b.settings, random, abi::settings_length(level));
        }
        10 | 11 if !b.settings.is_empty() => {
            let at = random.below(b.settings.len());
            b.settings[at] = random.pick(&[2, 3, 4, 0x3F, 0x40, 0xFF]);
        }
        _ => damage_length(&mut b.tally, random, abi::tally_length(level)),
    }
}

/// How many calls of each kind are damaged on a board.
const DAMAGED_ON_A_BOARD: usize = 8;

/// A call with one to three things made wrong.
fn damaged_call(pair: &mut Pair, call: Call, good: &Buffers) -> Result<(), Difference> {
    pair.lent = pair.quiet(good);
    for _ in 0..=pair.random.below(3) {
        let reads_state = call != Call::PowerUp;
        damage(pair.level, &mut pair.lent, pair.random, reads_state);
    }
    let number = pair.call(call, |_| format!("damaged {call:?}"))?;
    pair.reached.count_refusal(call, number);
    Ok(())
}

fn damaged_calls(pair: &mut Pair) -> Result<(), Difference> {
    let good = pair.lent.clone();
    let calls = [Call::PowerUp, Call::Step, Call::Run];
    for call in calls.into_iter().cycle().take(3 * DAMAGED_ON_A_BOARD) {
        damaged_call(pair, call, &good)?;
    }
    pair.lent = good;
    Ok(())
}

// ---- scans and reports ----

/// A recorder as a caller in C may lend it: any counts, lowest, highest and sums.
fn some_recorder(random: &mut Random) -> Vec<u8> {
    let mut bytes: Vec<u8> = (0..abi::RECORDER).map(|_| random.word() as u8).collect();
    let scans: u16 = random.pick(&[0, 1, 4_095, 4_096, 4_097]);
    bytes[..2].copy_from_slice(&scans.to_le_bytes());
    for report in bytes[2..].chunks_exact_mut(abi::REPORT) {
        if random.percent(50) {
            let readings: u16 = random.pick(&[0, 1, 0xFFFF]);
            report[..2].copy_from_slice(&readings.to_le_bytes());
        }
    }
    bytes
}

/// The cards and the readings of a scan, now and then out of their ranges.
fn some_channels(random: &mut Random) -> [Vec<u8>; 2] {
    let missing = random.pick(&[0, 10]);
    let mut cards: Vec<u8> = (0..CHANNELS)
        .map(|_| u8::from(!random.percent(missing)))
        .collect();
    let mut readings: Vec<u16> = (0..CHANNELS)
        .map(|_| (random.below(1_001) as u16).wrapping_sub(500))
        .collect();
    match random.below(8) {
        0 => cards[random.below(CHANNELS)] = random.pick(&[2, 0x80, 0xFF]),
        1 => readings[random.below(CHANNELS)] = random.pick(&[501, 0xFE0B, 0x8000]),
        _ => {}
    }
    [cards, abi::bytes_of_words(&readings)]
}

/// One of the buffers an element shorter or longer, or none.
fn resize_one(random: &mut Random, list: &mut [Vec<u8>], sizes: &[usize]) {
    let at = random.below(2 * list.len());
    let (Some(buffer), Some(&size)) = (list.get_mut(at), sizes.get(at)) else {
        return;
    };
    buffer.resize(wrong_length(random, buffer.len(), size), 0);
}

/// A call of the recorder's on both.
fn recorder_call(pair: &mut Pair, call: Call, mut list: Vec<Vec<u8>>) -> Result<(), Difference> {
    resize_one(pair.random, &mut list, call.elements(pair.level));
    let [ours, theirs] = both(pair.level, pair.other, call, list.clone());
    if ours != theirs {
        let place = ours.1.iter().zip(&theirs.1).position(|(a, b)| a != b);
        return Err(format!(
            "{call:?}: ours answers {}, theirs {}; buffer {place:?} differs",
            ours.0, theirs.0
        ));
    }
    let (number, after) = ours;
    if number != 0 && after != list {
        return Err(format!("{call:?}: a refused call changed a buffer"));
    }
    pair.reached.count_refusal(call, number);
    Ok(())
}

fn some_scan(pair: &mut Pair) -> Result<(), Difference> {
    let mut lent = pair.quiet(&pair.lent.clone());
    if pair.random.percent(50) {
        damage(pair.level, &mut lent, pair.random, true);
    }
    let mut list = lent.into_list(pair.level);
    list.extend(some_channels(pair.random));
    list.push(some_recorder(pair.random));
    recorder_call(pair, Call::Scan, list)
}

fn some_report(pair: &mut Pair) -> Result<(), Difference> {
    let channel = pair.random.pick(&[0, 7, 15, 16, 0xFF]);
    let recorder = some_recorder(pair.random);
    let list = vec![recorder, vec![channel], vec![9; abi::REPORT]];
    recorder_call(pair, Call::Report, list)
}

fn recorder_calls(pair: &mut Pair) -> Result<(), Difference> {
    for _ in 0..2 * DAMAGED_ON_A_BOARD {
        some_scan(pair)?;
        some_report(pair)?;
    }
    Ok(())
}

// ---- runs ----

/// The run is its steps: the same state and image, the same blanks.
fn is_its_steps(pair: &Pair, before: &Buffers, ran: &Ran) -> Result<(), Difference> {
    let setup = abi::setup_of(pair.level, &before.settings).expect("good settings");
    let mut image = before.image.clone();
    let mut steps = Ran {
        state: abi::state_of(pair.level, &before.state).expect("a good state"),
        blanks: 0,
        first: None,
        address: None,
    };
    for (place, &line) in before.lines.iter().enumerate() {
        let stepped = step(&setup, steps.state, &mut image, &before.map, line);
        let stepped = stepped.expect("a good step");
        steps.state = stepped.state;
        if stepped.cause.is_blank() {
            if steps.blanks == 0 {
                (steps.first, steps.address) = (Some(place as u16), stepped.blank);
            }
            steps.blanks += 1;
        }
    }
    if steps != *ran || image != pair.lent.image {
        return Err(format!("a run that is not its steps: {ran:?}, {steps:?}"));
    }
    Ok(())
}

/// The run is its first part followed by its second (wish 11).
fn is_its_parts(
    pair: &mut Pair,
    before: &Buffers,
    ran: &Ran,
    place: usize,
) -> Result<(), Difference> {
    let whole = std::mem::replace(&mut pair.lent, before.clone());
    let first = pair.run(&whole.lines[..place])?;
    let second = pair.run(&whole.lines[place..])?;
    let moved = second.first.map(|at| at + place as u16);
    let joined = Ran {
        state: second.state,
        blanks: first.blanks + second.blanks,
        first: first.first.or(moved),
        address: if first.first.is_some() {
            first.address
        } else {
            second.address
        },
    };
    if joined != *ran || pair.lent.image != whole.image {
        return Err(format!(
            "a run cut at {place} ends differently: {ran:?}, {joined:?}"
        ));
    }
    let shown = cut_kinds(place, whole.lines.len(), &first, &second);
    pair.reached.count_run(&shown);
    pair.lent = whole;
    Ok(())
}

/// The map with more cards, and their kinds. Pages that were fitted keep their byte.
fn more_cards(level: Level, map: &[u8], random: &mut Random) -> (Vec<u8>, RunKind) {
    let read_only: &[(&[u8], RunKind)] = &[
        (&[READ_ONLY], RunKind::PluggedReadOnly),
        (&[WRITABLE, READ_ONLY], RunKind::PluggedBoth),
    ];
    let (cards, kind) = match random.below(3) {
        0 | 1 if level.has(Wish::ReadOnlyPages) => random.pick(read_only),
        _ => (&[WRITABLE][..], RunKind::PluggedWritable),
    };
    let plugged = |&page: &u8| match page {
        0 if random.percent(50) => random.pick(cards),
        _ => page,
    };
    (map.iter().map(plugged).collect(), kind)
}

/// The cause of each step from what is lent.
fn causes(pair: &mut Pair, lines: &[u16]) -> Result<Vec<Cause>, Difference> {
    lines
        .iter()
        .map(|&line| pair.step(line).map(|stepped| stepped.cause))
        .collect()
}

/// Of runs up to this length the cause of each step is looked at too.
const LOOKED_AT: usize = 8;

/// Each step has the same cause with more cards.
fn has_the_same_causes(
    pair: &mut Pair,
    before: &Buffers,
    plugged: &Buffers,
) -> Result<(), Difference> {
    pair.lent = plugged.clone();
    let with = causes(pair, &before.lines)?;
    pair.lent = before.clone();
    let without = causes(pair, &before.lines)?;
    if with != without {
        return Err(format!("more cards changed causes: {without:?}, {with:?}"));
    }
    Ok(())
}

/// A run without a blank that doesn't end locked is the same with more cards (wish 12), and each of its steps has the same
/// cause. Another one may change.
fn is_the_same_with_cards(pair: &mut Pair, before: &Buffers, ran: &Ran) -> Result<(), Difference> {
    let (map, kind) = more_cards(pair.level, &before.map, pair.random);
    let plugged = Buffers {
        map,
        ..before.clone()
    };
    let whole = std::mem::replace(&mut pair.lent, plugged.clone());
    let again = pair.run(&before.lines)?;
    let same = again == *ran && pair.lent.image == whole.image;
    if !is_sound(ran) {
        pair.reached.count_run(&changed_kinds(ran, &again));
    } else if same {
        if before.lines.len() <= LOOKED_AT {
            has_the_same_causes(pair, before, &plugged)?;
        }
        if plugged.map != before.map {
            let started = abi::state_of(pair.level, &before.state).expect("a good state");
            let moved = ran.state.r[PC] != started.r[PC];
            let shown = plugged_kinds(kind, before.lines.len(), moved);
            pair.reached.count_run(&shown);
        }
    } else {
        return Err(format!("more cards changed a run: {ran:?}, {again:?}"));
    }
    pair.lent = whole;
    Ok(())
}

/// A line word's I3.
const SWITCH: u16 = 0x0008;

/// Line words and a state: any, or one that runs, or one that is saved while the switch stays on for half the run.
fn some_run(pair: &mut Pair) -> (State, Vec<u16>) {
    let number = pair.random.pick(&[0, 1, 2, 4, 8, 16, 64, MOST_LINES]);
    let mut lines: Vec<u16> = (0..number).map(|_| gen::line(pair.random)).collect();
    let mut state = pair.some_state();
    if pair.random.percent(50) {
        state.mode = Mode::Running;
    } else if pair.level.has(Wish::Jumpers) && pair.random.percent(10) {
        state.mode = Mode::Saved;
        for line in &mut lines[..number / 2] {
            *line |= SWITCH;
        }
    }
    (state, lines)
}

fn one_run(pair: &mut Pair) -> Result<(), Difference> {
    let (state, lines) = some_run(pair);
    let settings = pair.some_settings();
    pair.lend_settings(&settings);
    pair.lend_state(&state);
    let before = Buffers {
        lines: lines.clone(),
        ..pair.lent.clone()
    };
    let ran = pair.run(&lines)?;
    is_its_steps(pair, &before, &ran)?;
    let number = lines.len();
    let within = pair.random.below(number + 1);
    let place = pair.random.pick(&[0, number, within, within]);
    is_its_parts(pair, &before, &ran, place)?;
    is_the_same_with_cards(pair, &before, &ran)
}

fn some_runs(pair: &mut Pair) -> Result<(), Difference> {
    (0..RUNS_OF_A_BOARD).try_for_each(|_| one_run(pair))
}

// ---- many cases ----

/// How many cases share a board, and how many runs.
const CASES_OF_A_BOARD: usize = 128;
const RUNS_OF_A_BOARD: usize = 4;

fn one_case(pair: &mut Pair) -> Result<(), Difference> {
    let case = gen::case(pair.random, &pair.map, pair.level);
    let settings = pair.some_settings();
    let setup = pair.lend_settings(&settings);
    gen::put(&mut pair.lent.image, &case.words);
    pair.lend_state(&case.state);
    for line in case.lines {
        let before = abi::state_of(pair.level, &pair.lent.state).expect("a good state");
        let ahead = Ahead::of(setup, before, line, &pair.lent.image, &pair.map);
        let stepped = pair.step(line)?;
        pair.reached.count(&ahead, &stepped, &pair.map);
    }
    Ok(())
}

fn some_cases(pair: &mut Pair, cases: usize) -> Result<(), Difference> {
    (0..cases).try_for_each(|_| one_case(pair))
}

/// A power-up with each pair of jumpers that the level knows.
fn power_ups(pair: &mut Pair) -> Result<(), Difference> {
    let before = pair.lent.clone();
    let pairs = if pair.level.has(Wish::Jumpers) {
        0..16
    } else {
        15..16
    };
    for jumpers in pairs {
        pair.lent = before.clone();
        let settings = Settings {
            power_up: jumpers / 4,
            halt: jumpers % 4,
            ..pair.some_settings()
        };
        let setup = pair.lend_settings(&settings);
        pair.call(Call::PowerUp, |lent| {
            format!("power-up, settings {}", hex_text(&lent.settings))
        })?;
        let state = abi::state_of(pair.level, &pair.lent.state).expect("a good answer");
        pair.reached.count_power_up(&setup, &state);
    }
    pair.lent = before;
    Ok(())
}

fn one_board(
    level: Level,
    other: &mut dyn Interface,
    random: &mut Random,
    cases: usize,
    reached: &mut Coverage,
) -> Result<(), Difference> {
    let RandomBoard { image, map } = gen::board(random, level);
    let lent = Buffers {
        state: abi::bytes_of(level, &State::cleared()),
        tally: vec![9; abi::tally_length(level)],
        image,
        map: map.to_vec(),
        lines: Vec::new(),
        settings: abi::settings_bytes(level, &Settings::BENCH),
    };
    let mut pair = Pair {
        level,
        other,
        map,
        lent,
        random,
        reached,
    };
    power_ups(&mut pair)?;
    some_cases(&mut pair, cases)?;
    some_runs(&mut pair)?;
    damaged_calls(&mut pair)?;
    if level.has(Wish::Recorder) {
        recorder_calls(&mut pair)?;
    }
    Ok(())
}

fn compare(level: Level, other: &mut dyn Interface, seed: u64, cases: usize) -> ExitCode {
    println!("seed {seed}, {cases} cases");
    let mut reached = Coverage::new(level);
    let mut done = 0;
    let mut boards = 0;
    while done < cases {
        let mut random = Random::new(seed.wrapping_mul(1_000_003).wrapping_add(boards));
        let some = CASES_OF_A_BOARD.min(cases - done);
        if let Err(difference) = one_board(level, other, &mut random, some, &mut reached) {
            println!(
                "board {boards} of seed {seed} ({CASES_OF_A_BOARD} cases a board): {difference}"
            );
            return ExitCode::FAILURE;
        }
        done += some;
        boards += 1;
    }
    reached.print();
    println!("0 differences");
    all_reached(&reached.missing())
}

/// Nothing may be missing.
fn all_reached(missing: &[String]) -> ExitCode {
    if missing.is_empty() {
        return ExitCode::SUCCESS;
    }
    println!("not reached: {}", missing.join(", "));
    ExitCode::FAILURE
}

// ---- jobs through a program ----

/// A good job, a damaged one or a changed one, by turns.
fn some_job(random: &mut Random, number: usize, level: Level) -> Vec<u8> {
    let refusals = gen::job_refusals(level);
    match number % (refusals.len() + 6) {
        kind if kind < refusals.len() => gen::damaged_job(random, refusals[kind], level),
        kind if kind < refusals.len() + 2 => gen::changed_job(random, level),
        _ => gen::good_job(random, level),
    }
}

fn compare_jobs(level: Level, command: &str, seed: u64, jobs: usize) -> ExitCode {
    println!("seed {seed}, {jobs} jobs");
    let mut random = Random::new(seed);
    let mut refused = [0_u64; 256];
    for number in 0..jobs {
        let job = some_job(&mut random, number, level);
        let ours = bench(level, &job);
        let refusal = ours.strip_prefix("REFUSED ");
        refused[refusal.map_or(0, |number| number.parse().unwrap_or(0))] += 1;
        let theirs = match printed(command, &job) {
            Ok(bytes) => String::from_utf8_lossy(&bytes).into_owned(),
            Err(error) => format!("{command}: {error}"),
        };
        if theirs.strip_suffix('\n').unwrap_or(&theirs) != ours {
            println!("job {number} of seed {seed}:\n  ours   {ours}\n  theirs {theirs}");
            let _ = std::fs::write("difference.job", &job);
            println!("the job is in difference.job");
            return ExitCode::FAILURE;
        }
    }
    let numbers = gen::job_refusals(level);
    let counts: Vec<u64> = numbers.iter().map(|&n| refused[usize::from(n)]).collect();
    println!("accepted {}, refused {numbers:?} {counts:?}", refused[0]);
    println!("0 differences");
    let missing = numbers.iter().copied().chain([0]);
    let missing: Vec<String> = missing
        .filter(|&number| refused[usize::from(number)] == 0)
        .map(|number| format!("a job answered {number}"))
        .collect();
    all_reached(&missing)
}

/// The interpreter, or a program that serves its calls.
fn other_interface(command: &str, level: Level) -> std::io::Result<Box<dyn Interface>> {
    if command == "self" {
        return Ok(Box::new(Plain(level)));
    }
    Ok(Box::new(Served::start(command, level)?))
}

// ---- calls with every byte that is lent ----

/// A buffer for a person; an image is its beginning.
fn short(bytes: &[u8]) -> String {
    hex_text(&bytes[..bytes.len().min(MOST_SHOWN)])
}

const MOST_SHOWN: usize = 1_024;

/// A random call, and the answers that the calls must meet.
type Calls<'a> = (
    fn(&mut Random, Level) -> (Call, Vec<Vec<u8>>),
    &'a [(Call, &'a [u8])],
);

/// Holds the number and every lent buffer of a call against the other's.
fn compare_calls(
    level: Level,
    other: &mut dyn Interface,
    (some_call, answers): Calls,
    seed: u64,
    cases: usize,
) -> ExitCode {
    println!("seed {seed}, {cases} cases");
    let mut random = Random::new(seed);
    let mut reached: BTreeMap<(u8, u8), u64> = BTreeMap::new();
    for _ in 0..cases {
        let (call, lent) = some_call(&mut random, level);
        let [ours, theirs] = both(level, other, call, lent.clone());
        if ours != theirs {
            let told = |buffers: &[Vec<u8>]| buffers.iter().map(|b| short(b)).collect::<Vec<_>>();
            println!("{call:?} on {:?}", told(&lent));
            println!("  ours   {} {:?}", ours.0, told(&ours.1));
            println!("  theirs {} {:?}", theirs.0, told(&theirs.1));
            return ExitCode::FAILURE;
        }
        *reached.entry((call as u8, ours.0)).or_default() += 1;
    }
    println!("{reached:?}");
    println!("0 differences");
    let wanted = answers
        .iter()
        .flat_map(|&(call, numbers)| numbers.iter().map(move |&number| (call, number)));
    let missing: Vec<String> = wanted
        .filter(|&(call, number)| !reached.contains_key(&(call as u8, number)))
        .map(|(call, number)| format!("{call:?} answered {number}"))
        .collect();
    all_reached(&missing)
}

// ---- case lines ----

/// The interpreter behind the interface, or a program that serves it.
fn other_answers(kind: Kind, command: &str, level: Level) -> std::io::Result<Box<dyn Answers>> {
    if command == "self" {
        return Ok(Box::new(cases::Plain));
    }
    let (serve, list) = match kind {
        Kind::List => ("cat", command),
        _ => (command, ""),
    };
    Ok(Box::new(Through {
        interface: Served::start(serve, level)?,
        level,
        bench: String::new(),
        list: list.to_string(),
    }))
}

/// The answer to a case, if both answer the same.
fn same_answer(other: &mut dyn Answers, case: &str) -> Option<String> {
    let ours = cases::answer(&mut cases::Plain, case);
    let theirs = cases::answer(other, case);
    if ours != theirs || ours == "BAD" {
        println!("{case}\n  ours   {ours}\n  theirs {theirs}");
        return None;
    }
    Some(ours)
}

/// How often each thing was shown.
type Shown = BTreeMap<String, u64>;

fn count_all(reached: &mut Shown, shown: Vec<String>) {
    for what in shown {
        *reached.entry(what).or_default() += 1;
    }
}

/// Holds the answers to random case lines against each other.
fn compare_lines(
    kind: Kind,
    other: &mut dyn Answers,
    seed: u64,
    cases: usize,
    level: Level,
) -> ExitCode {
    println!("seed {seed}, {cases} cases");
    let mut random = Random::new(seed);
    let mut reached = Shown::new();
    for _ in 0..cases {
        let (case, meant) = kind.case(&mut random, level);
        let Some(answer) = same_answer(other, &case) else {
            return ExitCode::FAILURE;
        };
        count_all(&mut reached, shown(level, &case, &answer, &meant));
    }
    if kind == Kind::Scans {
        let refused = other.report(&Tallies::new(), CHANNELS as u8);
        let right = Some(Err(Refusal(34).into()));
        assert_eq!(refused, right, "a report on channel 16");
    }
    println!("{reached:?}");
    println!("0 differences");
    let mut missing = kind.wanted();
    missing.retain(|what| !reached.contains_key(what));
    all_reached(&missing)
}

fn usage() -> ExitCode {
    println!("difftest self SEED CASES [LEVEL]");
    println!(
        "difftest served|bench|calls|boards|text|asm|trace|scans|list COMMAND SEED CASES [LEVEL]"
    );
    ExitCode::FAILURE
}

/// Makes the comparison that is named; none where nothing has that name.
fn compared(
    what: &str,
    command: &str,
    (seed, count, level): (u64, usize, Level),
) -> std::io::Result<Option<ExitCode>> {
    Ok(Some(match what {
        "served" => compare(level, &mut *other_interface(command, level)?, seed, count),
        "calls" | "boards" => {
            let calls: Calls = match what {
                "calls" => (text_call, &TEXT_ANSWERS),
                _ => (board_call, &BOARD_ANSWERS),
            };
            compare_calls(
                level,
                &mut *other_interface(command, level)?,
                calls,
                seed,
                count,
            )
        }
        "bench" => compare_jobs(level, command, seed, count),
        name => {
            let Some(kind) = Kind::named(name) else {
                return Ok(None);
            };
            let mut other = other_answers(kind, command, level)?;
            compare_lines(kind, &mut *other, seed, count, level)
        }
    }))
}

fn main() -> ExitCode {
    let arguments: Vec<String> = std::env::args().skip(1).collect();
    let words: Vec<&str> = arguments.iter().map(String::as_str).collect();
    let (what, command, numbers) = match words[..] {
        ["self", ref numbers @ ..] => ("served", "self", numbers),
        [what, command, ref numbers @ ..] => (what, command, numbers),
        _ => return usage(),
    };
    let numbers: Option<Vec<u64>> = numbers.iter().map(|n| n.parse().ok()).collect();
    let asked = match numbers.as_deref() {
        Some(&[seed, count]) => (seed, count as usize, Level::LANDED),
        Some(&[seed, count, level]) => (seed, count as usize, Level(level as u8)),
        _ => return usage(),
    };
    match compared(what, command, asked) {
        Ok(Some(code)) => code,
        Ok(None) => usage(),
        Err(error) => {
            println!("{command}: {error}");
            ExitCode::FAILURE
        }
    }
}
