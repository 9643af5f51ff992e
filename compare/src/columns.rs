//! Where a line stops being the beginning of a text (wish 9), from the list of all texts.

use std::sync::OnceLock;

use crate::level::Level;
use crate::writer::template;
use crate::Placed;

/// Stands for any digit, where a text has the digits of a further word.
const ANY_DIGIT: u8 = b'?';

/// All texts that the writer makes, sorted.
fn texts() -> &'static [String] {
    static TEXTS: OnceLock<Vec<String>> = OnceLock::new();
    TEXTS.get_or_init(|| {
        let mut texts: Vec<String> = (0..=0xFFFF)
            .map(|word| template(Level::ALL, word, char::from(ANY_DIGIT)))
            .collect();
        texts.sort();
        texts
    })
}

/// Of sorted texts with the same beginning, those that go on with this character.
fn with(texts: &[String], column: usize, character: u8) -> &[String] {
    let at = |text: &String| text.as_bytes().get(column).copied();
    let start = texts.partition_point(|text| at(text) < Some(character));
    let end = texts.partition_point(|text| at(text) <= Some(character));
    &texts[start..end]
}

/// Of sorted texts with the same beginning, those that a line goes on with by this character.
fn going_on(texts: &[String], column: usize, character: u8) -> &[String] {
    match character {
        ANY_DIGIT => &[],
        b'0'..=b'9' | b'A'..=b'F' if !with(texts, column, ANY_DIGIT).is_empty() => {
            with(texts, column, ANY_DIGIT)
        }
        _ => with(texts, column, character),
    }
}

/// The number and column of a line that is no text.
pub(crate) fn refusal_of(line: &[u8]) -> Placed {
    let mut left = texts();
    for (column, &character) in line.iter().enumerate() {
        let next = going_on(left, column, character);
        if next.is_empty() {
            let number = if left[0].len() == column {
                31
            } else if line[..column].contains(&b' ') {
                30
            } else {
                9
            };
            return Placed::new(number, column);
        }
        left = next;
    }
    Placed::new(32, line.len())
}
