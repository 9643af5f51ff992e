//! The text of one op code, written.

use crate::level::Level;
use crate::table::{row_of, Operands};
use crate::Refusal;

/// The shortest text buffer that the writer takes.
pub const LEAST_TEXT: usize = 32;

pub(crate) const NAMES: [&str; 8] = ["R0", "R1", "R2", "R3", "R4", "R5", "SP", "PC"];

fn name(register: u16) -> &'static str {
    NAMES[usize::from(register & 7)]
}

/// Whether a mode and register take the next word.
fn takes_word(field: u16) -> bool {
    matches!(field >> 3 & 7, 6 | 7) || matches!(field & 0x3F, 0x17 | 0x1F)
}

/// Gives the four characters of the next word.
type Next<'a> = dyn FnMut() -> Result<String, Refusal> + 'a;

/// The text of a mode and register.
fn operand_text(field: u16, next: &mut Next) -> Result<String, Refusal> {
    let register = name(field);
    let word = if takes_word(field) {
        next()?
    } else {
        String::new()
    };
    let text = match (field >> 3 & 7, field & 7) {
        (2, 7) => format!("#{word}"),
        (3, 7) => format!("@#{word}"),
        (0, _) => register.to_string(),
        (1, _) => format!("@{register}"),
        (2, _) => format!("({register})+"),
        (3, _) => format!("@({register})+"),
        (4, _) => format!("-({register})"),
        (5, _) => format!("@-({register})"),
        (6, _) => format!("{word}({register})"),
        _ => format!("@{word}({register})"),
    };
    Ok(text)
}

fn operands_text(operands: Operands, word: u16, next: &mut Next) -> Result<String, Refusal> {
    let middle = name(word >> 6);
    let number = (word & 0xF) + 1;
    let text = match operands {
        Operands::Nothing => String::new(),
        Operands::Mask => next()?,
        Operands::Register => name(word).to_string(),
        Operands::Digit => format!("{:X}", word & 0xF),
        Operands::Six => format!("{:02X}", word & 0x3F),
        Operands::Displacement => format!("{:02X}", word & 0xFF),
        Operands::NumberRegister => format!("{number:02X},{middle}"),
        Operands::RegisterCount => format!("{middle},{number:02X}"),
        Operands::RegisterOffset => format!("{middle},{:02X}", word & 0x3F),
        Operands::TwoRegisters => format!("{},{}", name(word >> 3), name(word)),
        Operands::Destination => operand_text(word, next)?,
        Operands::RegisterDestination | Operands::RegisterAddress => {
            format!("{middle},{}", operand_text(word, next)?)
        }
        Operands::SourceDestination => {
            let source = operand_text(word >> 6, next)?;
            format!("{source},{}", operand_text(word, next)?)
        }
    };
    Ok(text)
}

/// The line of an op code whose further words `next` gives.
fn line_text(level: Level, word: u16, next: &mut Next) -> Result<String, Refusal> {
    let Some(row) = row_of(level, word).filter(|row| !row.forbids(word)) else {
        return Ok(word_text(word));
    };
    let operands = operands_text(row.operands, word, next)?;
    Ok(if operands.is_empty() {
        row.name.to_string()
    } else {
        format!("{} {operands}", row.name)
    })
}

/// A word by itself.
pub fn word_text(word: u16) -> String {
    format!(".WORD {word:04X}")
}

/// The line of an op code, with this character for each digit of its further words.
pub(crate) fn template(level: Level, word: u16, digit: char) -> String {
    let mut next = || Ok(digit.to_string().repeat(4));
    line_text(level, word, &mut next).expect("words without end")
}

/// The line of the op code that begins the words, and the number of words it takes.
/// Refusals 6, 7.
pub fn text_of(level: Level, words: &[u16]) -> Result<(String, usize), Refusal> {
    let (&word, rest) = words.split_first().ok_or(Refusal(6))?;
    let mut more = rest.iter();
    let mut next = || match more.next() {
        Some(word) => Ok(format!("{word:04X}")),
        None => Err(Refusal(7)),
    };
    let line = line_text(level, word, &mut next)?;
    Ok((line, words.len() - more.len()))
}

/// Writes the text of the first op code; answers its length and its words.
/// Refusals 8, 6, 7.
pub fn write_text(level: Level, words: &[u16], text: &mut [u8]) -> Result<(usize, usize), Refusal> {
    if text.len() < LEAST_TEXT {
        return Err(Refusal(8));
    }
    let (line, taken) = text_of(level, words)?;
    text[..line.len()].copy_from_slice(line.as_bytes());
    Ok((line.len(), taken))
}
