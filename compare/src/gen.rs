//! Random boards, states, op codes, line words and jobs, the same from the same seed.
//!
//! Op codes are chosen by mnemonic, so that each comes up as often as any other;
//! registers and pointers lie mostly in fitted pages, often at page borders, at both
//! ends of memory and in the fixed locations.

use std::collections::BTreeMap;

use crate::abi::bytes_of_words;
use crate::board::{IMAGE, PAGES, READ_ONLY, WRITABLE};
use crate::job::MOST_WORDS;
use crate::level::{Level, Settings, Wish};
use crate::machine::MOST_LINES;
use crate::state::{Flags, Line, Mode, State, PC, SP};
use crate::table::ROWS;

/// A small generator of random numbers (xorshift64*).
pub struct Random(u64);

impl Random {
    pub fn new(seed: u64) -> Random {
        let mut random = Random(seed.wrapping_mul(0x9E37_79B9_7F4A_7C15) | 1);
        random.number();
        random
    }

    pub fn number(&mut self) -> u64 {
        self.0 ^= self.0 >> 12;
        self.0 ^= self.0 << 25;
        self.0 ^= self.0 >> 27;
        self.0.wrapping_mul(0x2545_F491_4F6C_DD1D)
    }

    pub fn word(&mut self) -> u16 {
        (self.number() >> 48) as u16
    }

    /// A number below `limit`, which is not 0.
    pub fn below(&mut self, limit: usize) -> usize {
        ((self.number() >> 32) as usize) % limit
    }

    pub fn percent(&mut self, chance: usize) -> bool {
        self.below(100) < chance
    }

    pub fn pick<T: Copy>(&mut self, items: &[T]) -> T {
        items[self.below(items.len())]
    }

    pub fn shuffle<T>(&mut self, items: &mut [T]) {
        for place in 1..items.len() {
            items.swap(place, self.below(place + 1));
        }
    }
}

// ---- boards ----

/// An image and its map.
pub struct RandomBoard {
    pub image: Vec<u8>,
    pub map: [u8; PAGES],
}

pub fn random_map(random: &mut Random, level: Level) -> [u8; PAGES] {
    let fitted = random.pick(&[100, 97, 90, 75, 50, 10]);
    let mut map = [0; PAGES];
    for page in &mut map {
        *page = u8::from(random.percent(fitted));
    }
    map[0] = u8::from(random.percent(95));
    map[PAGES - 1] = u8::from(random.percent(60));
    if level.has(Wish::ReadOnlyPages) {
        protect(random, &mut map);
    }
    map
}

/// Makes fitted pages read-only: none, some or half of them.
fn protect(random: &mut Random, map: &mut [u8; PAGES]) {
    let protected = random.pick(&[0, 0, 10, 50]);
    for page in map.iter_mut().filter(|page| **page == WRITABLE) {
        if random.percent(protected) {
            *page = READ_ONLY;
        }
    }
}

/// What a board is set to: jumpers 11 and 11 about half of the time.
pub fn settings(random: &mut Random, level: Level) -> Settings {
    let mut settings = Settings {
        microm: random.percent(70),
        ..Settings::BENCH
    };
    if level.has(Wish::Jumpers) && random.percent(60) {
        settings.power_up = random.below(4) as u8;
        settings.halt = random.below(4) as u8;
        settings.address = random.below(64) as u8;
    }
    settings
}

/// An address anywhere, often one where something ends or begins.
fn any_address(random: &mut Random) -> u16 {
    match random.below(8) {
        0 => random.pick(&[0x0000, 0x0001, 0x0002, 0xFFFC, 0xFFFD, 0xFFFE, 0xFFFF]),
        1 => 0x0010 + random.below(0x30) as u16,
        2..=4 => {
            let border = (random.word() & 0xFF) << 8;
            border
                .wrapping_add(random.below(32) as u16)
                .wrapping_sub(14)
        }
        _ => random.word(),
    }
}

/// An address that is fitted most of the time, and even most of the time.
pub fn address(random: &mut Random, map: &[u8; PAGES]) -> u16 {
    let mut address = any_address(random);
    for _ in 0..6 {
        if map[usize::from(address >> 8)] != 0 || random.percent(10) {
            break;
        }
        address = any_address(random);
    }
    if random.percent(80) {
        address & 0xFFFE
    } else {
        address
    }
}

/// A value of a register or a word of data.
fn value(random: &mut Random, map: &[u8; PAGES]) -> u16 {
    match random.below(10) {
        0 => random.below(20) as u16,
        1 => 0_u16.wrapping_sub(random.below(20) as u16),
        2 => random.pick(&[0x7F, 0x80, 0xFF, 0x100, 0x7FFF, 0x8000, 0x8001, 0xFFFE]),
        3 => random.word(),
        _ => address(random, map),
    }
}

/// An op code, reserved ones among them.
pub fn op_code(random: &mut Random) -> u16 {
    let choice = random.below(ROWS.len() + 1);
    let word = random.word();
    match ROWS.get(choice) {
        Some(row) => row.base | word & row.operands.bits(),
        None => 0xF000 | word & 0x0FFF,
    }
}

/// Puts each word at its address.
pub fn put(image: &mut [u8], words: &[(u16, u16)]) {
    for &(at, word) in words {
        let at = usize::from(at & 0xFFFE);
        image[at..at + 2].copy_from_slice(&word.to_le_bytes());
    }
}

/// The fixed locations, from 12 to 2E.
pub fn vectors(random: &mut Random, map: &[u8; PAGES]) -> Vec<(u16, u16)> {
    (0x12..0x30)
        .step_by(2)
        .map(|at| (at, address(random, map)))
        .collect()
}

/// Op codes, and values among them.
fn random_image(random: &mut Random, map: &[u8; PAGES]) -> Vec<u8> {
    let mut word = |_| {
        if random.percent(60) {
            op_code(random)
        } else {
            value(random, map)
        }
    };
    let words: Vec<u16> = (0..IMAGE / 2).map(&mut word).collect();
    bytes_of_words(&words)
}

pub fn board(random: &mut Random, level: Level) -> RandomBoard {
    let map = random_map(random, level);
    let mut image = random_image(random, &map);
    put(&mut image, &vectors(random, &map));
    RandomBoard { image, map }
}

// ---- cases ----

/// Words to put into the image, a state, and the line words to step over.
pub struct Case {
    pub words: Vec<(u16, u16)>,
    pub state: State,
    pub lines: Vec<u16>,
}

pub fn line(random: &mut Random) -> u16 {
    let noise = random.word() & !Line::UNUSED;
    match random.below(10) {
        0..=4 => noise & 0x0F80 & random.word(),
        5 => noise & 0x0F83,
        6 => noise & 0x0F80 | 0x0001,
        7 => noise & 0x0F80 | 0x0002,
        8 => noise & 0x0F80 | 0x0008,
        _ => noise,
    }
}

/// A bit of a line word that has no meaning.
pub fn unused_bit(random: &mut Random) -> u16 {
    random.pick(&[4, 0x10, 0x20, 0x40, 0x1000, 0x2000, 0x4000, 0x8000])
}

pub fn state(random: &mut Random, map: &[u8; PAGES], level: Level) -> State {
    let mut r = [0; 8];
    for register in &mut r {
        *register = value(random, map);
    }
    r[SP] = address(random, map);
    r[PC] = address(random, map);
    let mode = match random.below(100) {
        0..=5 => Mode::Waiting,
        6..=9 => Mode::HaltedPowerFail,
        10..=13 => Mode::HaltedSwitch,
        14 => Mode::Locked,
        15..=20 if level.has(Wish::Jumpers) => Mode::Saved,
        _ => Mode::Running,
    };
    State {
        r,
        flags: Flags::from_bits(random.word()),
        i2: random.percent(50),
        mode,
        mark: level.has(Wish::LateIen) && random.percent(25),
    }
}

/// An op code with what may follow it.
fn op_code_at(
    words: &mut Vec<(u16, u16)>,
    at: u16,
    op: u16,
    random: &mut Random,
    map: &[u8; PAGES],
) {
    words.push((at, op));
    for place in 1..3 {
        words.push((at.wrapping_add(2 * place), value(random, map)));
    }
}

pub fn case(random: &mut Random, map: &[u8; PAGES], level: Level) -> Case {
    let mut state = state(random, map, level);
    if random.percent(20) {
        // The counts at which a block move ends, or goes round.
        state.r[0] = random.pick(&[0, 1, 2]);
    }
    let mut words = Vec::new();
    if random.percent(20) {
        words = vectors(random, map);
    }
    let op = if random.percent(25) {
        0x0005
    } else {
        op_code(random)
    };
    op_code_at(&mut words, state.r[PC], op, random, map);
    if op == 0x0005 {
        let traced = address(random, map);
        let op = op_code(random);
        words.push((state.r[SP], traced));
        words.push((state.r[SP].wrapping_add(2), random.word()));
        op_code_at(&mut words, traced, op, random, map);
    }
    let lines = (0..=random.below(4)).map(|_| line(random)).collect();
    Case {
        words,
        state,
        lines,
    }
}

// ---- jobs ----

/// The sections of a job, to be damaged before they become bytes.
struct Sections {
    pages: Vec<u8>,
    words: Vec<(u16, u16)>,
    lines: Vec<u16>,
    /// The fourth section, if there is one.
    read_only: Option<Vec<u8>>,
}

/// The bytes of a job whose counts may lie.
fn bytes_of(sections: &Sections, counts: [usize; 4]) -> Vec<u8> {
    let [pages, words, lines, read_only] = counts.map(|count| (count as u16).to_le_bytes());
    let entry = |&(address, value): &(u16, u16)| [address, value];
    let entries: Vec<u16> = sections.words.iter().flat_map(entry).collect();
    let mut bytes = pages.to_vec();
    bytes.extend(&sections.pages);
    bytes.extend(words);
    bytes.extend(bytes_of_words(&entries));
    bytes.extend(lines);
    bytes.extend(bytes_of_words(&sections.lines));
    if let Some(pages) = &sections.read_only {
        bytes.extend(read_only);
        bytes.extend(pages);
    }
    bytes
}

impl Sections {
    fn counts(&self) -> [usize; 4] {
        let read_only = self.read_only.as_ref().map_or(0, Vec::len);
        [
            self.pages.len(),
            self.words.len(),
            self.lines.len(),
            read_only,
        ]
    }

    /// Where the third section ends.
    fn third_end(&self) -> usize {
        6 + self.pages.len() + 4 * self.words.len() + 2 * self.lines.len()
    }
}

/// Words by their addresses.
type Words = BTreeMap<u16, u16>;

/// Op codes and values from the address on, by turns with some anywhere.
fn add_some_words(words: &mut Words, random: &mut Random, map: &[u8; PAGES], start: u16) {
    let most = random.pick(&[8, 60, 400]);
    for place in 0..most {
        let at = if place % 2 == 0 {
            start.wrapping_add(place)
        } else {
            address(random, map)
        };
        let word = if place % 3 < 2 {
            op_code(random)
        } else {
            value(random, map)
        };
        words.insert(at & 0xFFFE, word);
    }
}

/// An op code at each address that has no word.
fn fill(words: &mut Words, random: &mut Random) {
    for at in (0..=0xFFFE).step_by(2) {
        words.entry(at).or_insert_with(|| op_code(random));
    }
}

/// The fixed locations, a program from the restart address on, and now and then all of memory.
fn program(random: &mut Random, map: &[u8; PAGES]) -> Words {
    let start = address(random, map);
    let mut words: Words = vectors(random, map).into_iter().collect();
    words.insert(0x16, start);
    add_some_words(&mut words, random, map, start);
    if random.percent(2) {
        fill(&mut words, random);
    }
    words
}

/// Two pages and one unfitted page, two words and one line word at least.
fn sections(random: &mut Random, level: Level) -> Sections {
    let mut map = random_map(random, level);
    map[0] = map[0].max(WRITABLE);
    map[1 + random.below(127)] = WRITABLE;
    map[128 + random.below(127)] = 0;
    let words = program(random, &map).into_iter();
    let fitted = words.filter(|&(at, _)| map[usize::from(at >> 8)] != 0);
    let pages = |least: u8| (0..=255).filter(move |&page| map[usize::from(page)] >= least);
    let fourth = level.has(Wish::ReadOnlyPages) && (map.contains(&READ_ONLY) || random.percent(20));
    let number = random.pick(&[1, 10, 100, MOST_LINES]);
    Sections {
        pages: pages(WRITABLE).collect(),
        words: fitted.take(MOST_WORDS).collect(),
        lines: (0..number).map(|_| line(random)).collect(),
        read_only: fourth.then(|| pages(READ_ONLY).collect()),
    }
}

pub fn good_job(random: &mut Random, level: Level) -> Vec<u8> {
    if random.percent(2) {
        return vec![0; 6];
    }
    let mut job = sections(random, level);
    if random.percent(5) {
        job.pages = (0..=255).collect();
    }
    if random.percent(5) {
        job.lines.clear();
    }
    bytes_of(&job, job.counts())
}

/// A count that is too large.
fn over(random: &mut Random, most: usize) -> usize {
    match random.below(3) {
        0 => most + 1,
        1 => 0xFFFF,
        _ => most + 1 + random.below(0xFFFF - most),
    }
}

/// An address of an unfitted page, put where it is rising.
fn add_unfitted(job: &mut Sections, random: &mut Random) {
    let unfitted: Vec<u8> = (0..=255).filter(|page| !job.pages.contains(page)).collect();
    let address = u16::from(random.pick(&unfitted)) << 8 | random.word() & 0xFE;
    job.words.truncate(MOST_WORDS - 1);
    job.words.push((address, random.word()));
    job.words.sort();
}

/// A page of the fourth section that falls, comes twice or is not fitted.
fn add_bad_read_only(job: &mut Sections, random: &mut Random) {
    let unfitted: Vec<u8> = (0..=255).filter(|page| !job.pages.contains(page)).collect();
    let pages = job.read_only.get_or_insert_with(Vec::new);
    if pages.is_empty() || random.percent(30) {
        let at = random.below(pages.len() + 1);
        pages.insert(at, random.pick(&unfitted));
    } else {
        let at = random.below(pages.len());
        pages.insert(at + 1, pages[random.below(at + 1)]);
    }
}

/// The numbers that a damaged job can be refused with.
pub fn job_refusals(level: Level) -> Vec<u8> {
    let mut numbers: Vec<u8> = (11..=20).collect();
    if level.has(Wish::ReadOnlyPages) {
        numbers.push(22);
    }
    numbers
}

/// Makes an entry wrong, where the number is for one.
fn damage_entries(job: &mut Sections, random: &mut Random, number: u8, level: Level) {
    match number {
        13 => {
            let at = 1 + random.below(job.pages.len() - 1);
            job.pages[at] = job.pages[random.below(at)];
        }
        15 => {
            let at = random.below(job.words.len());
            job.words[at].0 |= 1;
        }
        16 => {
            let at = 1 + random.below(job.words.len() - 1);
            job.words[at].0 = job.words[random.below(at)].0;
        }
        17 => add_unfitted(job, random),
        19 => {
            let at = random.below(job.lines.len());
            job.lines[at] |= unused_bit(random);
        }
        20 if level.has(Wish::ReadOnlyPages) => {
            job.read_only.get_or_insert_with(Vec::new);
        }
        22 => add_bad_read_only(job, random),
        _ => {}
    }
}

/// The counts, one of them too large where the number is for that.
fn damaged_counts(job: &Sections, random: &mut Random, number: u8) -> [usize; 4] {
    let mut counts = job.counts();
    match number {
        12 if job.read_only.is_some() && random.percent(50) => counts[3] = over(random, PAGES),
        12 => counts[0] = over(random, PAGES),
        14 => counts[1] = over(random, MOST_WORDS),
        18 => counts[2] = over(random, MOST_LINES),
        _ => {}
    }
    counts
}

/// A length at which the job ends too early: not after its third section if there may be a fourth.
fn short_length(job: &Sections, random: &mut Random, whole: usize, level: Level) -> usize {
    let length = random.below(whole);
    if level.has(Wish::ReadOnlyPages) && length == job.third_end() {
        length - 1
    } else {
        length
    }
}

/// A job that is refused with this number.
pub fn damaged_job(random: &mut Random, number: u8, level: Level) -> Vec<u8> {
    let mut job = sections(random, level);
    damage_entries(&mut job, random, number, level);
    let counts = damaged_counts(&job, random, number);
    let mut bytes = bytes_of(&job, counts);
    if number == 11 {
        bytes.truncate(short_length(&job, random, bytes.len(), level));
    } else if number == 20 || random.percent(30) {
        let more = 1 + random.below(3);
        bytes.resize(bytes.len() + more, 0);
    }
    bytes
}

/// A good job with a few bytes changed, whatever that comes to.
pub fn changed_job(random: &mut Random, level: Level) -> Vec<u8> {
    let mut bytes = good_job(random, level);
    for _ in 0..=random.below(3) {
        let at = if random.percent(50) {
            random.below(bytes.len().min(300))
        } else {
            random.below(bytes.len())
        };
        bytes[at] = random.word() as u8;
    }
    bytes
}
