//! Random case lines of texts, listings, assemblies, traces and scans, and what their answers
//! must reach.

use crate::abi::{self, Call};
use crate::assembler::{source_of, LEAST_SECTION};
use crate::board::PAGES;
use crate::cases::{hex_text, setup_text, state_text};
use crate::gen::{self, Random};
use crate::level::Level;
use crate::recorder::CHANNELS;
use crate::state::{Mode, State, PC};
use crate::table::{rows, Operands};
use crate::trace::{steps_of, FIELDS};
use crate::writer::{text_of, word_text};

/// The kinds of case lines that are made here.
#[derive(Clone, Copy, PartialEq, Eq, Debug)]
pub enum Kind {
    Text,
    List,
    Patch,
    Trace,
    Scans,
}

impl Kind {
    pub fn named(name: &str) -> Option<Kind> {
        match name {
            "text" => Some(Kind::Text),
            "list" => Some(Kind::List),
            "asm" => Some(Kind::Patch),
            "trace" => Some(Kind::Trace),
            "scans" => Some(Kind::Scans),
            _ => None,
        }
    }

    /// A case, and what it is meant to show where it is not refused.
    pub fn case(self, random: &mut Random, level: Level) -> (String, Vec<&'static str>) {
        match self {
            Kind::Text => (text_case(random, level), vec![]),
            Kind::List => (list_case(random, level), vec![]),
            Kind::Patch => patch_case(random, level),
            Kind::Trace => (trace_case(random, level), vec![]),
            Kind::Scans => (scans_case(random, level), vec![]),
        }
    }

    /// What must be shown.
    pub fn wanted(self) -> Vec<String> {
        let wanted = match self {
            Kind::Text => TEXTS,
            Kind::List => LISTS,
            Kind::Patch => PATCHES,
            Kind::Trace => TRACES,
            Kind::Scans => SCANS,
        };
        wanted.iter().flat_map(told).collect()
    }
}

/// The word that cases begin with, and what they must be answered and refused with.
type Wanted = (&'static str, &'static [&'static str], &'static [u8]);

const TEXTS: &[Wanted] = &[
    ("write", &["OK"], &[6, 7, 8]),
    ("cwrite", &["OK"], &[38, 6, 7, 8]),
    ("read", &["OK"], &[10, 9, 30, 31, 32]),
    ("cread", &["OK"], &[38, 10, 9, 30, 31, 32]),
];

const LISTS: &[Wanted] = &[(
    "list",
    &["OK", "----", "cut", "FFFE"],
    &[11, 12, 13, 14, 15, 16, 17, 18, 19, 20, 22, 23],
)];

const PATCHES: &[Wanted] = &[(
    "asm",
    &[
        "OK", "branch", "SOB", "relative", "deferred", "alias", ".ORG", ".WORD",
    ],
    &[10, 36, 24, 25, 26, 27, 28],
)];

const TRACES: &[Wanted] = &[(
    "trace",
    &["ACCEPTED", "WRONG field", "WRONG length"],
    &[29, 11],
)];

const SCANS: &[Wanted] = &[("scans", &["OK", "blank in FE"], &[3, 4, 5, 33, 35, 37])];

/// What is wanted, as `shown` tells it.
fn told(&(case, answers, refusals): &Wanted) -> Vec<String> {
    let answers = answers.iter().map(|what| format!("{case} {what}"));
    let refusals = refusals
        .iter()
        .map(|number| format!("{case} REFUSED {number}"));
    answers.chain(refusals).collect()
}

/// What a case's answer shows.
pub fn shown(level: Level, case: &str, answer: &str, meant: &[&'static str]) -> Vec<String> {
    let kind = case.split(' ').next().unwrap_or_default();
    let mut shown = Vec::new();
    for part in answer.split(" ; ") {
        let words: Vec<&str> = part.split(' ').collect();
        shown.push(match words[..] {
            ["REFUSED", number, ..] => format!("{kind} REFUSED {number}"),
            ["WRONG", _, "-"] => format!("{kind} WRONG length"),
            ["WRONG", ..] => format!("{kind} WRONG field"),
            ["ACCEPTED"] => format!("{kind} ACCEPTED"),
            _ => format!("{kind} OK"),
        });
        if kind == "scans" && words.len() == 6 && words[4].starts_with("FE") {
            shown.push("scans blank in FE".to_string());
        }
    }
    if kind == "list" && !answer.starts_with("REFUSED") {
        shown.extend(answer.split('|').filter_map(|line| listed(level, line)));
    }
    if !answer.starts_with("REFUSED") {
        shown.extend(meant.iter().map(|what| format!("{kind} {what}")));
    }
    shown
}

/// What a line of a listing shows.
fn listed(level: Level, line: &str) -> Option<String> {
    let (address, rest) = line.split_once(' ')?;
    if rest == "----" {
        return Some("list ----".to_string());
    }
    let word = u16::from_str_radix(rest.get(..4)?, 16).ok()?;
    let whole = text_of(level, &[word, 0, 0]).ok()?.0;
    match rest.contains(".WORD") && !whole.starts_with(".WORD") {
        true => Some("list cut".to_string()),
        false => (address == "FFFE").then(|| "list FFFE".to_string()),
    }
}

fn hex(bytes: &[u8]) -> String {
    if bytes.is_empty() {
        return "-".to_string();
    }
    hex_text(bytes)
}

fn joined(words: &[u16]) -> String {
    if words.is_empty() {
        return "-".to_string();
    }
    let words: Vec<String> = words.iter().map(|word| format!("{word:04X}")).collect();
    words.join(",")
}

// ---- texts ----

/// One to three words that begin with an op code.
fn op_words(random: &mut Random) -> Vec<u16> {
    vec![gen::op_code(random), random.word(), random.word()]
}

fn op_text(random: &mut Random, level: Level) -> String {
    let words = op_words(random);
    text_of(level, &words).expect("words enough").0
}

const CHARACTERS: &[u8] = b" ,.:@#()+-0139AFRSPCWXx\t\0?\xFF";

/// A text as it is, or with one thing wrong.
fn mutated(random: &mut Random, text: &str) -> Vec<u8> {
    let mut bytes = text.as_bytes().to_vec();
    let at = random.below(bytes.len() + 1);
    let character = random.pick(CHARACTERS);
    match random.below(7) {
        0 | 1 => {}
        2 => bytes.truncate(at),
        3 => bytes.insert(at, character),
        4 if at < bytes.len() => bytes[at] = character,
        5 if at < bytes.len() => {
            bytes.remove(at);
        }
        _ => bytes.push(character),
    }
    bytes
}

fn text_case(random: &mut Random, level: Level) -> String {
    let mut words = op_words(random);
    words.truncate(random.pick(&[3, 3, 3, 2, 1, 0]));
    let text = op_text(random, level);
    let text = mutated(random, &text);
    let length = random.pick(&[0x20, 0x20, 0x21, 0x40, 0x1F, 0]);
    let room = random.pick(&[3, 3, 3, 5, 2, 0]);
    let level = level.0;
    match random.below(4) {
        0 => format!("write {level} {length:X} {}", joined(&words)),
        1 => {
            let mut bytes = abi::bytes_of_words(&words);
            if random.percent(20) {
                bytes.pop();
            }
            format!("cwrite {level} {length:X} {}", hex(&bytes))
        }
        2 => format!("read {level} {room:X} {}", hex(&text)),
        _ => {
            let odd = usize::from(random.percent(20));
            format!("cread {level} {:X} {}", 2 * room + odd, hex(&text))
        }
    }
}

/// A call of the text for C, on random bytes where it is to write: its lent buffers, with a wrong length now and then.
pub fn text_call(random: &mut Random, level: Level) -> (Call, Vec<Vec<u8>>) {
    let mut filled = |length: usize| (0..length).map(|_| random.word() as u8).collect();
    let [text, words, answer]: [Vec<u8>; 3] = [filled(0x41), filled(11), filled(7)];
    let length = random.pick(&[0x20, 0x20, 0x21, 0x41, 0x1F, 0]);
    let room = random.pick(&[6, 6, 8, 10, 11, 7, 5, 4, 0]);
    let answer = answer[..random.pick(&[6, 6, 6, 6, 6, 6, 6, 7, 5, 0])].to_vec();
    if random.percent(50) {
        let mut lent = abi::bytes_of_words(&op_words(random));
        lent.truncate(random.pick(&[6, 6, 6, 5, 4, 3, 2, 0]));
        return (Call::WriteText, vec![lent, text[..length].to_vec(), answer]);
    }
    let line = op_text(random, level);
    let line = mutated(random, &line);
    (Call::ReadText, vec![line, words[..room].to_vec(), answer])
}

/// What the calls of the text must answer.
pub const TEXT_ANSWERS: [(Call, &[u8]); 2] = [
    (Call::WriteText, &[0, 21, 38, 8, 6, 7]),
    (Call::ReadText, &[0, 21, 38, 10, 9, 30, 31, 32]),
];

// ---- listings ----

fn list_case(random: &mut Random, level: Level) -> String {
    let refusals = gen::job_refusals(level);
    let job = if random.percent(25) {
        let number = random.pick(&refusals);
        gen::damaged_job(random, number, level)
    } else {
        gen::good_job(random, level)
    };
    // A page that the job has, as far as it is one.
    let pages = job.len().min(PAGES).saturating_sub(2).max(1);
    let page = job.get(2 + random.below(pages)).copied().unwrap_or(0xFF);
    let page = random.pick(&[page, page, 0xFF]);
    let mut first = u16::from(page) << 8 | random.word() & 0xFE;
    let stretch = random.below(40) as u16;
    let stretch = 2 * random.pick(&[0, 1, stretch, stretch]);
    let mut last = first.saturating_add(stretch).min(0xFFFE);
    match random.below(12) {
        0 => first |= 1,
        1 => last |= 1,
        2 => last = first.saturating_sub(2),
        _ => {}
    }
    let mut input = [first.to_le_bytes(), last.to_le_bytes()].concat();
    input.extend(job);
    if random.percent(2) {
        input.truncate(random.below(4));
    }
    format!("list {} {}", level.0, hex(&input))
}

// ---- assemblies ----

const LABELS: [&str; 6] = ["TAG", "LOOP", "NOP", "X", "STABLE", "RET"];

/// An operand with a mode, with a label now and then.
fn operand(random: &mut Random, level: Level, meant: &mut Vec<&'static str>) -> String {
    let label = random.pick(&LABELS);
    match random.below(4) {
        0 => {
            meant.push("relative");
            label.to_string()
        }
        1 => {
            meant.push("deferred");
            format!("@{label}")
        }
        _ => {
            let tst = [0x0A80 | random.word() & 0x3F, random.word()];
            text_of(level, &tst).expect("words enough").0[4..].to_string()
        }
    }
}

/// One of these mnemonics with an operand.
fn with_operand(
    mnemonics: &[&str],
    random: &mut Random,
    level: Level,
    meant: &mut Vec<&'static str>,
) -> String {
    let mnemonic = random.pick(mnemonics);
    format!("{mnemonic} {}", operand(random, level, meant))
}

/// An op code of format 10.
fn with_two_operands(random: &mut Random, level: Level, meant: &mut Vec<&'static str>) -> String {
    let source = operand(random, level, meant);
    let destination = operand(random, level, meant);
    let doubles = rows(level)
        .iter()
        .filter(|row| row.operands == Operands::SourceDestination);
    let names: Vec<&str> = doubles.map(|row| row.name).collect();
    format!("{} {source},{destination}", random.pick(&names))
}

/// A line's text after its label.
fn body(random: &mut Random, level: Level, meant: &mut Vec<&'static str>) -> String {
    match random.below(12) {
        0 => String::new(),
        1 => {
            meant.push(".WORD");
            word_text(random.word())
        }
        2 => {
            meant.push("branch");
            let branch = random.pick(&["BR", "BNE", "BCC", "BHIS", "BLO"]);
            format!("{branch} {}", random.pick(&LABELS))
        }
        3 => {
            meant.push("SOB");
            format!("SOB R{},{}", random.below(6), random.pick(&LABELS))
        }
        4 => {
            meant.push("alias");
            with_operand(&["CALL", "JMP"], random, level, meant)
        }
        5 => with_operand(&["TST", "INC", "CLRB"], random, level, meant),
        6..=8 => with_two_operands(random, level, meant),
        _ => op_text(random, level),
    }
}

/// Lines in any order, with each label before one of them.
fn labeled_lines(random: &mut Random, level: Level, meant: &mut Vec<&'static str>) -> Vec<String> {
    let number = LABELS.len() + random.below(20);
    let mut line = |place: usize| {
        let body = body(random, level, meant);
        match LABELS.get(place) {
            Some(label) => format!("{label}: {body}"),
            None => body,
        }
    };
    let mut lines: Vec<String> = (0..number).map(&mut line).collect();
    random.shuffle(&mut lines);
    lines
}

/// Puts one wrong line among the lines, or none; their words begin at the origin.
fn spoil(lines: &mut Vec<String>, random: &mut Random, origin: usize) {
    let at = random.below(lines.len());
    match random.below(15) {
        0 => lines[at] = String::from_utf8_lossy(&mutated(random, &lines[at])).into_owned(),
        1 => lines.push(format!("{}: NOP", random.pick(&LABELS))),
        2 => lines.push("TST NONE".to_string()),
        3 => lines.insert(at, format!(".ORG {:04X}", random.word())),
        4 => lines.insert(at, format!(".ORG {:04X}", origin & 0xFFFE)),
        5 => lines.push(format!(".ORG {:04X}", random.word() | 1)),
        6 => lines.insert(0, ".ORG FFF0".to_string()),
        7 if random.percent(20) => lines.resize(random.pick(&[1_024, 1_025]), String::new()),
        _ => {}
    }
}

/// A source, good most of the time, and what it is meant to show.
pub fn source(random: &mut Random, level: Level, meant: &mut Vec<&'static str>) -> Vec<u8> {
    let mut lines = labeled_lines(random, level, meant);
    let origin = 2 * random.below(0x7F00);
    if random.percent(50) {
        meant.push(".ORG");
        lines.insert(0, format!(".ORG {origin:04X}"));
    }
    spoil(&mut lines, random, origin);
    let mut bytes = source_of(&lines);
    if random.percent(3) {
        bytes.pop();
    }
    bytes
}

fn patch_case(random: &mut Random, level: Level) -> (String, Vec<&'static str>) {
    let mut meant = Vec::new();
    let bytes = source(random, level, &mut meant);
    let room = LEAST_SECTION - usize::from(random.percent(6));
    (format!("asm {} {room:X} {}", level.0, hex(&bytes)), meant)
}

// ---- traces ----

fn trace_case(random: &mut Random, level: Level) -> String {
    let job = if random.percent(10) {
        gen::damaged_job(random, 11, level)
    } else {
        gen::good_job(random, level)
    };
    let mut entries = steps_of(level, &job).unwrap_or_default();
    match random.below(5) {
        0 if !entries.is_empty() => {
            let step = random.below(entries.len());
            entries[step][random.below(FIELDS)] ^= 1 << random.below(16);
        }
        1 => entries.truncate(random.below(entries.len() + 1)),
        2 => entries.push([random.word(); FIELDS]),
        _ => {}
    }
    let mut trace = (entries.len() as u16).to_le_bytes().to_vec();
    trace.extend(abi::bytes_of_words(&entries.concat()));
    match random.below(10) {
        0 => trace.truncate(random.below(trace.len())),
        1 => trace.push(0),
        _ => {}
    }
    format!("trace {} {} {}", level.0, hex(&job), hex(&trace))
}

// ---- scans ----

/// Sixteen readings, all present about half of the time, and line words.
fn scan(random: &mut Random) -> String {
    let missing = random.pick(&[0, 0, 0, 10, 100]);
    let wrong = random.percent(10);
    let mut reading = |place: usize| {
        if random.percent(missing) {
            return "x".to_string();
        }
        let spread = random.below(1_001) as i32 - 500;
        let limits = [-500, 500, 0, spread, spread];
        let count = if wrong && place == 7 {
            random.pick(&[-501, 501, 32_767, -32_768])
        } else {
            random.pick(&limits)
        };
        count.to_string()
    };
    let readings: Vec<String> = (0..CHANNELS).map(&mut reading).collect();
    let mut lines: Vec<u16> = (0..random.below(6)).map(|_| gen::line(random)).collect();
    match random.below(40) {
        0 => lines.push(4),
        1 => lines.resize(4_097, 0),
        _ => {}
    }
    format!("{}/{}", readings.join(","), joined(&lines))
}

/// A state that runs most of the time, with registers that point to the card.
fn scanning_state(random: &mut Random, map: &[u8; PAGES], level: Level) -> State {
    let mut state = gen::state(random, map, level);
    if random.percent(70) {
        state.mode = Mode::Running;
    }
    for register in 0..6 {
        if random.percent(50) {
            state.r[register] = 0xFE00 + random.below(0x22) as u16;
        }
    }
    state
}

/// The words as pairs ADDRESS=BYTE.
fn image_text(words: &[(u16, u16)]) -> String {
    let bytes = |&(at, word): &(u16, u16)| [(at & 0xFFFE, word & 0xFF), (at | 1, word >> 8)];
    let pairs = words.iter().flat_map(bytes);
    let texts: Vec<String> = pairs
        .map(|(at, byte)| format!("{at:04X}={byte:02X}"))
        .collect();
    texts.join(",")
}

/// The fitted pages as pairs PAGE=VALUE.
fn map_text(map: &[u8; PAGES]) -> String {
    let fitted = map.iter().enumerate().filter(|&(_, &value)| value != 0);
    let texts: Vec<String> = fitted
        .map(|(page, value)| format!("{page:02X}={value:02X}"))
        .collect();
    texts.join(",")
}

/// A few scans; once in a while all that there may be, and one more.
fn some_scans(random: &mut Random) -> Vec<String> {
    if random.percent(1) {
        return vec![format!("{}/-", ["x"; CHANNELS].join(",")); 4_097];
    }
    (0..=random.below(6)).map(|_| scan(random)).collect()
}

fn scans_case(random: &mut Random, level: Level) -> String {
    let mut map = gen::random_map(random, level);
    let state = scanning_state(random, &map, level);
    let mut settings = gen::settings(random, level);
    let mut words = gen::vectors(random, &map);
    let ahead = (0..12).map(|place| state.r[PC].wrapping_add(2 * place));
    words.extend(ahead.map(|at| (at, gen::op_code(random))));
    match random.below(30) {
        0 => settings.halt = 4,
        1 => map[random.below(PAGES)] = 3,
        _ => {}
    }
    let scans = some_scans(random).join(" ");
    let (setup, state) = (setup_text(&settings), state_text(&state));
    let (map, image) = (map_text(&map), image_text(&words));
    let seed = random.number() as u32;
    format!(
        "scans {} {setup} {state} 100:{map} 10000:U{seed:08X}:{image} {scans}",
        level.0
    )
}
