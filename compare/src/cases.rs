//! Case lines (compare/README.md) and their answers, whoever gives them.

use crate::assembler::assemble;
use crate::bench::four;
use crate::level::{Level, Settings, Setup, Wish};
use crate::machine::{Ran, Stepped};
use crate::recorder::{Channel, Report, Tallies, CHANNELS};
use crate::state::{Flags, Mode, State};
use crate::trace::{check_trace, Verdict};
use crate::{bench, listing, machine, recorder, text, writer, Placed, Refusal};

/// The lent memory of a case.
#[derive(Clone)]
pub struct Memory {
    pub image: Vec<u8>,
    pub map: Vec<u8>,
}

/// An answer or a refusal; none where the case can't be answered.
pub type Answer<T> = Option<Result<T, Placed>>;

/// What answers cases. A method that is not given answers none.
#[allow(unused_variables)]
pub trait Answers {
    fn power_up(&mut self, setup: &Setup, memory: &mut Memory) -> Answer<State> {
        None
    }

    fn step(&mut self, setup: &Setup, s: State, m: &mut Memory, line: u16) -> Answer<Stepped> {
        None
    }

    fn run(&mut self, setup: &Setup, s: State, m: &mut Memory, lines: &[u16]) -> Answer<Ran> {
        None
    }

    /// The line's length and its number of words.
    fn write(&mut self, level: Level, words: &[u16], text: &mut [u8]) -> Answer<(usize, usize)> {
        None
    }

    fn read(&mut self, level: Level, text: &[u8], words: &mut [u16]) -> Answer<usize> {
        None
    }

    /// The same two on bytes, low byte of a word first.
    fn write_bytes(
        &mut self,
        level: Level,
        words: &[u8],
        text: &mut [u8],
    ) -> Answer<(usize, usize)> {
        None
    }

    fn read_bytes(&mut self, level: Level, text: &[u8], words: &mut [u8]) -> Answer<usize> {
        None
    }

    /// The length of the word section.
    fn assemble(&mut self, level: Level, source: &[u8], section: &mut [u8]) -> Answer<usize> {
        None
    }

    fn trace(&mut self, level: Level, job: &[u8], trace: &[u8]) -> Answer<Verdict> {
        None
    }

    fn scan(
        &mut self,
        setup: &Setup,
        tallies: &mut Tallies,
        s: State,
        m: &mut Memory,
        channels: &[Channel; CHANNELS],
        lines: &[u16],
    ) -> Answer<Ran> {
        None
    }

    fn report(&mut self, tallies: &Tallies, channel: u8) -> Answer<Report> {
        None
    }

    /// What the programs print.
    fn bench(&mut self, level: Level, job: &[u8]) -> Option<String> {
        None
    }

    fn list(&mut self, level: Level, input: &[u8]) -> Option<String> {
        None
    }
}

// ---- the fields of a case ----

fn hex(text: &str) -> Option<usize> {
    usize::from_str_radix(text, 16).ok()
}

fn byte(text: &str) -> Option<u8> {
    u8::from_str_radix(text, 16).ok()
}

fn word(text: &str) -> Option<u16> {
    u16::from_str_radix(text, 16).ok()
}

fn flag(text: &str) -> Option<bool> {
    match text {
        "0" => Some(false),
        "1" => Some(true),
        _ => None,
    }
}

/// A list joined by commas; `-` is the empty one.
fn list<T>(text: &str, item: impl Fn(&str) -> Option<T>) -> Option<Vec<T>> {
    if text == "-" || text.is_empty() {
        return Some(Vec::new());
    }
    text.split(',').map(item).collect()
}

/// Bytes of two digits each.
fn bytes(text: &str) -> Option<Vec<u8>> {
    if text == "-" {
        return Some(Vec::new());
    }
    text.as_bytes()
        .chunks(2)
        .map(|two| byte(std::str::from_utf8(two).ok()?).filter(|_| two.len() == 2))
        .collect()
}

/// Pairs PLACE=BYTE.
fn pairs(text: &str) -> Option<Vec<(usize, u8)>> {
    list(text, |pair| {
        let (place, value) = pair.split_once('=')?;
        Some((hex(place)?, byte(value)?))
    })
}

fn put(bytes: &mut [u8], pairs: &[(usize, u8)]) -> Option<()> {
    for &(place, value) in pairs {
        *bytes.get_mut(place)? = value;
    }
    Some(())
}

fn setup(level: Level, text: &str) -> Option<Setup> {
    let [microm, power_up, halt, address] = *text.split(',').collect::<Vec<_>>() else {
        return None;
    };
    // Below the jumpers' wish what a case says of them is read and ignored: 11 and 11.
    let heard = |told, ignored| {
        if level.has(Wish::Jumpers) {
            told
        } else {
            ignored
        }
    };
    let settings = Settings {
        microm: flag(microm)?,
        power_up: heard(byte(power_up)?, 3),
        halt: heard(byte(halt)?, 3),
        address: heard(byte(address)?, 0),
    };
    Some(Setup { level, settings })
}

fn state(level: Level, text: &str) -> Option<State> {
    let fields: Vec<&str> = text.split(',').collect();
    let (registers, &[nzvc, i2, mode, mark]) = fields.split_at_checked(8)? else {
        return None;
    };
    let mut r = [0; 8];
    for (register, field) in r.iter_mut().zip(registers) {
        *register = word(field)?;
    }
    let mode = Mode::from_number(byte(mode)?)?;
    let mark = flag(mark)?;
    let known =
        (mode != Mode::Saved || level.has(Wish::Jumpers)) && (!mark || level.has(Wish::LateIen));
    known.then_some(State {
        r,
        flags: Flags::from_bits(word(nzvc).filter(|&bits| bits < 16)?),
        i2: flag(i2)?,
        mode,
        mark,
    })
}

fn map(text: &str) -> Option<Vec<u8>> {
    let (length, named) = text.split_once(':')?;
    let mut map = vec![0; hex(length)?];
    put(&mut map, &pairs(named)?)?;
    Some(map)
}

/// The byte that a seed gives to an address.
fn seeded(address: usize, seed: u32) -> u8 {
    let mut x = (address as u32)
        .wrapping_mul(0x9E37_79B1)
        .wrapping_add(seed);
    x ^= x >> 15;
    x = x.wrapping_mul(0x85EB_CA6B);
    x ^= x >> 13;
    x as u8
}

fn image(text: &str) -> Option<Vec<u8>> {
    let (length, rest) = text.split_once(':')?;
    let (fill, named) = rest.split_once(':')?;
    let length = hex(length)?;
    let mut image = match fill.strip_prefix('U') {
        Some(seed) => {
            let seed = u32::from_str_radix(seed, 16).ok()?;
            (0..length).map(|address| seeded(address, seed)).collect()
        }
        None => vec![byte(fill)?; length],
    };
    put(&mut image, &pairs(named)?)?;
    Some(image)
}

fn memory(map_text: &str, image_text: &str) -> Option<Memory> {
    Some(Memory {
        map: map(map_text)?,
        image: image(image_text)?,
    })
}

/// What a case of a step, a run or scans begins with.
struct Start {
    setup: Setup,
    state: State,
    memory: Memory,
}

fn start(level: Level, [set, state_text, map, image]: [&str; 4]) -> Option<Start> {
    Some(Start {
        setup: setup(level, set)?,
        state: state(level, state_text)?,
        memory: memory(map, image)?,
    })
}

/// Channels and lines of a scan.
fn scan(text: &str) -> Option<([Channel; CHANNELS], Vec<u16>)> {
    let (readings, lines) = text.split_once('/')?;
    let channels = list(readings, |reading| match reading {
        "x" => Some(None),
        count => count.parse().ok().map(Some),
    })?;
    Some((channels.try_into().ok()?, list(lines, word)?))
}

// ---- the fields of an answer ----

fn refused(refusal: Placed) -> String {
    match refusal.place {
        Some(place) => format!("REFUSED {} {place}", refusal.number),
        None => format!("REFUSED {}", refusal.number),
    }
}

fn answered<T>(answer: Answer<T>, ok: impl FnOnce(T) -> String) -> Option<String> {
    Some(match answer? {
        Ok(value) => format!("OK {}", ok(value)),
        Err(refusal) => refused(refusal),
    })
}

fn joined<T>(items: &[T], by: &str, text: impl Fn(&T) -> String) -> String {
    items.iter().map(text).collect::<Vec<_>>().join(by)
}

/// Settings as a case has them.
pub fn setup_text(settings: &Settings) -> String {
    let Settings {
        microm,
        power_up,
        halt,
        address,
    } = settings;
    format!("{},{power_up:X},{halt:X},{address:02X}", u8::from(*microm))
}

/// A state as cases and answers have it.
pub fn state_text(state: &State) -> String {
    let registers = joined(&state.r, ",", |register| format!("{register:04X}"));
    let (nzvc, i2, mark) = (state.flags.bits(), u8::from(state.i2), u8::from(state.mark));
    format!("{registers},{nzvc:X},{i2},{},{mark}", state.mode as u8)
}

/// FNV-1a 64.
fn image_text(image: &[u8]) -> String {
    let hash = image.iter().fold(0xCBF2_9CE4_8422_2325_u64, |hash, &byte| {
        (hash ^ u64::from(byte)).wrapping_mul(0x0100_0000_01B3)
    });
    format!("{hash:016X}")
}

fn ran_text(ran: &Ran, image: &[u8]) -> String {
    let (first, address) = (four(ran.first), four(ran.address));
    let (state, image) = (state_text(&ran.state), image_text(image));
    format!("{state} {:04X} {first} {address} {image}", ran.blanks)
}

/// Bytes as two digits each.
pub fn hex_text(bytes: &[u8]) -> String {
    bytes.iter().map(|byte| format!("{byte:02X}")).collect()
}

fn report_text(report: &Report) -> String {
    let or_none = |number: Option<i32>| number.map_or("-".to_string(), |n| n.to_string());
    let low = or_none(report.span.map(|span| span.lowest));
    let high = or_none(report.span.map(|span| span.highest));
    let sum = or_none(report.span.map(|span| span.sum));
    format!("{}:{}:{low}:{high}:{sum}", report.readings, report.blanks)
}

fn verdict_text(verdict: Verdict) -> String {
    match verdict {
        Verdict::Accepted => "ACCEPTED".to_string(),
        Verdict::WrongField { step, field } => format!("WRONG {step} {field}"),
        Verdict::WrongLength { step } => format!("WRONG {step} -"),
    }
}

// ---- the kinds of cases ----

fn power_case(by: &mut dyn Answers, setup: &Setup, mut m: Memory) -> Option<String> {
    let up = by.power_up(setup, &mut m);
    answered(up, |state| {
        format!("{} {}", state_text(&state), image_text(&m.image))
    })
}

fn step_case(by: &mut dyn Answers, start: Start, line: u16) -> Option<String> {
    let mut m = start.memory;
    let stepped = by.step(&start.setup, start.state, &mut m, line);
    answered(stepped, |s| {
        let (cause, blank) = (s.cause as u8, four(s.blank));
        let image = image_text(&m.image);
        format!("{} {cause} {blank} {image}", state_text(&s.state))
    })
}

/// The causes of the steps of a run, one digit each.
fn causes(by: &mut dyn Answers, start: Start, lines: &[u16]) -> Option<String> {
    let (mut state, mut m) = (start.state, start.memory);
    let mut causes = String::new();
    for &line in lines {
        let stepped = by.step(&start.setup, state, &mut m, line)?.ok()?;
        state = stepped.state;
        causes += &(stepped.cause as u8).to_string();
    }
    Some(if causes.is_empty() {
        "-".to_string()
    } else {
        causes
    })
}

fn run_case(by: &mut dyn Answers, start: Start, lines: &[u16]) -> Option<String> {
    let mut m = start.memory.clone();
    let ran = match by.run(&start.setup, start.state, &mut m, lines)? {
        Ok(ran) => ran,
        Err(refusal) => return Some(refused(refusal)),
    };
    let causes = causes(by, start, lines)?;
    Some(format!("OK {} {causes}", ran_text(&ran, &m.image)))
}

fn write_case(
    length: usize,
    write: impl FnOnce(&mut [u8]) -> Answer<(usize, usize)>,
) -> Option<String> {
    let mut text = vec![0; length];
    let answer = write(&mut text);
    answered(answer, |(length, count)| {
        let line = String::from_utf8_lossy(&text[..length]);
        format!("{length} {count} {line}")
    })
}

fn read_case(by: &mut dyn Answers, level: Level, length: usize, text: &[u8]) -> Option<String> {
    let mut words = vec![0; length];
    let answer = by.read(level, text, &mut words);
    answered(answer, |count| {
        let words = joined(&words[..count], ",", |word| format!("{word:04X}"));
        format!("{count} {words}")
    })
}

fn read_bytes_case(
    by: &mut dyn Answers,
    level: Level,
    length: usize,
    text: &[u8],
) -> Option<String> {
    let mut words = vec![0; length];
    let answer = by.read_bytes(level, text, &mut words);
    answered(answer, |count| {
        let pairs: Vec<&[u8]> = words.chunks(2).take(count).collect();
        let words = joined(&pairs, ",", |two| format!("{:02X}{:02X}", two[1], two[0]));
        format!("{count} {words}")
    })
}

fn assemble_case(
    by: &mut dyn Answers,
    level: Level,
    length: usize,
    source: &[u8],
) -> Option<String> {
    let mut section = vec![0; length];
    let answer = by.assemble(level, source, &mut section);
    answered(answer, |length| hex_text(&section[..length]))
}

fn trace_case(by: &mut dyn Answers, level: Level, job: &[u8], trace: &[u8]) -> Option<String> {
    Some(match by.trace(level, job, trace)? {
        Ok(verdict) => verdict_text(verdict),
        Err(refusal) => refused(refusal),
    })
}

fn list_case(by: &mut dyn Answers, level: Level, input: &[u8]) -> Option<String> {
    let lines = by.list(level, input)?;
    Some(lines.trim_end_matches('\n').replace('\n', "|"))
}

/// The reports of all channels.
fn reports(by: &mut dyn Answers, tallies: &Tallies) -> Option<String> {
    let report = |channel| Some(report_text(&by.report(tallies, channel)?.ok()?));
    let reports: Option<Vec<String>> = (0..CHANNELS as u8).map(report).collect();
    Some(reports?.join(","))
}

fn scans_case(by: &mut dyn Answers, start: Start, scans: &[&str]) -> Option<String> {
    let (mut state, mut m) = (start.state, start.memory);
    let mut tallies = Tallies::new();
    let mut answers = Vec::new();
    for text in scans {
        let (channels, lines) = scan(text)?;
        let ran = by.scan(&start.setup, &mut tallies, state, &mut m, &channels, &lines);
        if let Some(Ok(ran)) = ran {
            state = ran.state;
        }
        answers.push(answered(ran, |ran| ran_text(&ran, &m.image))?);
    }
    answers.push(reports(by, &tallies)?);
    Some(answers.join(" ; "))
}

/// The wish that brought a kind of case.
fn known_from(kind: &str) -> Option<Wish> {
    match kind {
        "cwrite" | "cread" | "list" => Some(Wish::Listing),
        "asm" => Some(Wish::Assembler),
        "trace" => Some(Wish::Trace),
        "scans" => Some(Wish::Recorder),
        _ => None,
    }
}

fn answer_to(by: &mut dyn Answers, case: &str) -> Option<String> {
    let fields: Vec<&str> = case.split(' ').collect();
    let (&[kind, level], fields) = fields.split_first_chunk::<2>()?;
    let level = Level(level.parse().ok()?);
    if known_from(kind).is_some_and(|wish| !level.has(wish)) {
        return None;
    }
    match (kind, fields) {
        ("bench", &[job]) => by.bench(level, &bytes(job)?),
        ("list", &[input]) => list_case(by, level, &bytes(input)?),
        ("power", &[set, map, image]) => power_case(by, &setup(level, set)?, memory(map, image)?),
        ("step", &[set, s, map, image, line]) => {
            step_case(by, start(level, [set, s, map, image])?, word(line)?)
        }
        ("run", &[set, s, map, image, lines]) => {
            let start = start(level, [set, s, map, image])?;
            run_case(by, start, &list(lines, word)?)
        }
        ("scans", &[set, s, map, image, ref scans @ ..]) => {
            scans_case(by, start(level, [set, s, map, image])?, scans)
        }
        ("write", &[length, words]) => {
            let words = list(words, word)?;
            write_case(hex(length)?, |text| by.write(level, &words, text))
        }
        ("cwrite", &[length, words]) => {
            let words = bytes(words)?;
            write_case(hex(length)?, |text| by.write_bytes(level, &words, text))
        }
        ("read", &[length, text]) => read_case(by, level, hex(length)?, &bytes(text)?),
        ("cread", &[length, text]) => read_bytes_case(by, level, hex(length)?, &bytes(text)?),
        ("asm", &[length, source]) => assemble_case(by, level, hex(length)?, &bytes(source)?),
        ("trace", &[job, trace]) => trace_case(by, level, &bytes(job)?, &bytes(trace)?),
        _ => None,
    }
}

/// The answer to a case, or BAD where there is none.
pub fn answer(by: &mut dyn Answers, case: &str) -> String {
    answer_to(by, case).unwrap_or_else(|| "BAD".to_string())
}

// ---- the interpreter of this crate ----

/// Answers from this crate, each case at its own level.
pub struct Plain;

fn placed<T>(answer: Result<T, Refusal>) -> Answer<T> {
    Some(answer.map_err(Placed::from))
}

impl Answers for Plain {
    fn power_up(&mut self, setup: &Setup, m: &mut Memory) -> Answer<State> {
        placed(machine::power_up(setup, &mut m.image, &m.map))
    }

    fn step(&mut self, setup: &Setup, s: State, m: &mut Memory, line: u16) -> Answer<Stepped> {
        placed(machine::step(setup, s, &mut m.image, &m.map, line))
    }

    fn run(&mut self, setup: &Setup, s: State, m: &mut Memory, lines: &[u16]) -> Answer<Ran> {
        placed(machine::run(setup, s, &mut m.image, &m.map, lines))
    }

    fn write(&mut self, level: Level, words: &[u16], text: &mut [u8]) -> Answer<(usize, usize)> {
        placed(writer::write_text(level, words, text))
    }

    fn read(&mut self, level: Level, text: &[u8], words: &mut [u16]) -> Answer<usize> {
        Some(text::read_text(level, text, words))
    }

    fn write_bytes(
        &mut self,
        level: Level,
        words: &[u8],
        text: &mut [u8],
    ) -> Answer<(usize, usize)> {
        placed(text::write_text_of_bytes(level, words, text))
    }

    fn read_bytes(&mut self, level: Level, text: &[u8], words: &mut [u8]) -> Answer<usize> {
        Some(text::read_text_to_bytes(level, text, words))
    }

    fn assemble(&mut self, level: Level, source: &[u8], section: &mut [u8]) -> Answer<usize> {
        Some(assemble(level, source, section))
    }

    fn trace(&mut self, level: Level, job: &[u8], trace: &[u8]) -> Answer<Verdict> {
        placed(check_trace(level, job, trace))
    }

    fn scan(
        &mut self,
        setup: &Setup,
        tallies: &mut Tallies,
        s: State,
        m: &mut Memory,
        channels: &[Channel; CHANNELS],
        lines: &[u16],
    ) -> Answer<Ran> {
        let Memory { image, map } = m;
        placed(recorder::scan(
            setup, tallies, s, image, map, channels, lines,
        ))
    }

    fn report(&mut self, tallies: &Tallies, channel: u8) -> Answer<Report> {
        placed(tallies.report(channel))
    }

    fn bench(&mut self, level: Level, job: &[u8]) -> Option<String> {
        Some(bench::bench(level, job))
    }

    fn list(&mut self, level: Level, input: &[u8]) -> Option<String> {
        Some(listing::list(level, input))
    }
}
