//! The job reader.

use crate::board::{IMAGE, PAGES, READ_ONLY, WRITABLE};
use crate::level::{Level, Wish};
use crate::machine::MOST_LINES;
use crate::state::Line;
use crate::Refusal;

/// The most words of a job.
pub const MOST_WORDS: usize = 4_096;

/// The part of a job that is still to be read.
struct Input<'a> {
    rest: &'a [u8],
}

impl Input<'_> {
    /// The next `N` bytes, or refusal 11.
    fn take<const N: usize>(&mut self) -> Result<[u8; N], Refusal> {
        let (first, rest) = self.rest.split_first_chunk::<N>().ok_or(Refusal(11))?;
        self.rest = rest;
        Ok(*first)
    }

    /// A count of at most `most`, or refusal `over`.
    fn count(&mut self, most: usize, over: u8) -> Result<usize, Refusal> {
        let count = usize::from(u16::from_le_bytes(self.take()?));
        if count > most {
            return Err(Refusal(over));
        }
        Ok(count)
    }
}

/// A job found good.
struct Job {
    map: [u8; PAGES],
    words: Vec<(u16, u16)>,
    lines: Vec<u16>,
}

/// A section of pages, each from the value `from` in the map to the value `to`; another
/// one, or one that is not rising, is refused.
fn read_pages(
    input: &mut Input,
    map: &mut [u8; PAGES],
    [from, to]: [u8; 2],
    refusal: Refusal,
) -> Result<(), Refusal> {
    let mut last = None;
    for _ in 0..input.count(PAGES, 12)? {
        let [page] = input.take()?;
        let place = &mut map[usize::from(page)];
        if *place != from || last.is_some_and(|last| page <= last) {
            return Err(refusal);
        }
        *place = to;
        last = Some(page);
    }
    Ok(())
}

fn read_words(input: &mut Input, map: &[u8; PAGES]) -> Result<Vec<(u16, u16)>, Refusal> {
    let mut words: Vec<(u16, u16)> = Vec::new();
    for _ in 0..input.count(MOST_WORDS, 14)? {
        let [a, b, c, d] = input.take()?;
        let address = u16::from_le_bytes([a, b]);
        if address & 1 != 0 {
            return Err(Refusal(15));
        }
        if words.last().is_some_and(|&(last, _)| address <= last) {
            return Err(Refusal(16));
        }
        if map[usize::from(address >> 8)] == 0 {
            return Err(Refusal(17));
        }
        words.push((address, u16::from_le_bytes([c, d])));
    }
    Ok(words)
}

fn read_lines(input: &mut Input) -> Result<Vec<u16>, Refusal> {
    let mut lines = Vec::new();
    for _ in 0..input.count(MOST_LINES, 18)? {
        let line = u16::from_le_bytes(input.take()?);
        if line & Line::UNUSED != 0 {
            return Err(Refusal(19));
        }
        lines.push(line);
    }
    Ok(lines)
}

fn parse(level: Level, bytes: &[u8]) -> Result<Job, Refusal> {
    let mut input = Input { rest: bytes };
    let mut map = [0; PAGES];
    read_pages(&mut input, &mut map, [0, WRITABLE], Refusal(13))?;
    let words = read_words(&mut input, &map)?;
    let lines = read_lines(&mut input)?;
    if level.has(Wish::ReadOnlyPages) && !input.rest.is_empty() {
        read_pages(&mut input, &mut map, [WRITABLE, READ_ONLY], Refusal(22))?;
    }
    if !input.rest.is_empty() {
        return Err(Refusal(20));
    }
    Ok(Job { map, words, lines })
}

/// Reads a job into the lent buffers and answers the number of its line words.
/// Refusals 1, 2, 4, then 11 to 22; a refused job leaves the buffers as lent.
pub fn read_job(
    level: Level,
    bytes: &[u8],
    image: &mut [u8],
    map: &mut [u8],
    lines: &mut [u16],
) -> Result<usize, Refusal> {
    if image.len() != IMAGE {
        return Err(Refusal(1));
    }
    if map.len() != PAGES {
        return Err(Refusal(2));
    }
    if lines.len() != MOST_LINES {
        return Err(Refusal(4));
    }
    let job = parse(level, bytes)?;
    image.fill(0);
    for &(address, value) in &job.words {
        let at = usize::from(address);
        image[at..at + 2].copy_from_slice(&value.to_le_bytes());
    }
    map.copy_from_slice(&job.map);
    lines.fill(0);
    lines[..job.lines.len()].copy_from_slice(&job.lines);
    Ok(job.lines.len())
}
