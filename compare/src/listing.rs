//! A listing of a stretch of an image (wish 6).

use crate::bench::load;
use crate::board::PAGES;
use crate::level::Level;
use crate::writer::{text_of, word_text};
use crate::Refusal;

/// The lines from a first to a last even address. Refusal 23.
pub fn listing(
    level: Level,
    image: &[u8],
    map: &[u8; PAGES],
    first: u16,
    last: u16,
) -> Result<Vec<String>, Refusal> {
    if first & 1 != 0 || last & 1 != 0 || last < first {
        return Err(Refusal(23));
    }
    // The words of the stretch, none where nothing is fitted.
    let words: Vec<Option<u16>> = (usize::from(first)..=usize::from(last))
        .step_by(2)
        .map(|at| (map[at >> 8] != 0).then(|| u16::from_le_bytes([image[at], image[at + 1]])))
        .collect();
    let mut lines = Vec::new();
    let mut place = 0;
    while place < words.len() {
        let address = usize::from(first) + 2 * place;
        let fitted: Vec<u16> = words[place..]
            .iter()
            .map_while(|&word| word)
            .take(3)
            .collect();
        let (line, taken) = line_at(level, &fitted);
        lines.push(format!("{address:04X} {line}"));
        place += taken;
    }
    Ok(lines)
}

/// The rest of a line whose fitted words begin so, and how many words it takes.
fn line_at(level: Level, fitted: &[u16]) -> (String, usize) {
    let Some(&word) = fitted.first() else {
        return ("----".to_string(), 1);
    };
    let (text, taken) = text_of(level, fitted).unwrap_or((word_text(word), 1));
    let words: String = fitted[..taken]
        .iter()
        .map(|word| format!("{word:04X} "))
        .collect();
    (words + &text, taken)
}

fn lines_of(level: Level, input: &[u8]) -> Result<Vec<String>, Refusal> {
    let (&[a, b, c, d], job) = input.split_first_chunk::<4>().ok_or(Refusal(11))?;
    let job = load(level, job)?;
    let (first, last) = (u16::from_le_bytes([a, b]), u16::from_le_bytes([c, d]));
    listing(level, &job.image, &job.map, first, last)
}

/// What the listing program prints for two addresses and a job.
pub fn list(level: Level, input: &[u8]) -> String {
    match lines_of(level, input) {
        Ok(lines) => lines.iter().map(|line| format!("{line}\n")).collect(),
        Err(Refusal(number)) => format!("REFUSED {number}\n"),
    }
}
