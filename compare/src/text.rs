//! The text of one op code, read.

use crate::columns::refusal_of;
use crate::level::{Level, Wish};
use crate::table::{row_of, rows, Operands, Row};
use crate::writer::{write_text, NAMES};
use crate::{Placed, Refusal};

/// The shortest words buffer that the reader takes.
pub const LEAST_WORDS: usize = 3;

/// The digits as a number, if there are exactly `digits` and all are upper case hex.
pub(crate) fn hex(text: &str, digits: usize) -> Option<u16> {
    let good = |b: u8| b.is_ascii_digit() || (b'A'..=b'F').contains(&b);
    if text.len() != digits || !text.bytes().all(good) {
        return None;
    }
    u16::from_str_radix(text, 16).ok()
}

fn register_of(text: &str) -> Option<u16> {
    NAMES
        .iter()
        .position(|&name| name == text)
        .map(|place| place as u16)
}

/// A mode and register, with the word that follows if there is one.
type Operand = (u16, Option<u16>);

fn plain_operand_of(text: &str) -> Option<Operand> {
    let place = |mode: u16, register: &str| Some((mode << 3 | register_of(register)?, None));
    if let Some(digits) = text.strip_prefix('#') {
        return Some((0x17, Some(hex(digits, 4)?)));
    }
    if let Some(inner) = text.strip_prefix("-(") {
        return place(4, inner.strip_suffix(')')?);
    }
    if let Some(inner) = text.strip_prefix('(') {
        let (field, next) = place(2, inner.strip_suffix(")+")?)?;
        return (field != 0x17).then_some((field, next));
    }
    if let Some(inner) = text.strip_suffix(')') {
        let (offset, register) = inner.split_once('(')?;
        return Some((6 << 3 | register_of(register)?, Some(hex(offset, 4)?)));
    }
    None
}

/// @ makes mode 1 of a register, and the next mode of the others.
fn operand_of(text: &str) -> Option<Operand> {
    if let Some(register) = register_of(text) {
        return Some((register, None));
    }
    let Some(inner) = text.strip_prefix('@') else {
        return plain_operand_of(text);
    };
    match register_of(inner) {
        Some(register) => Some((1 << 3 | register, None)),
        None => plain_operand_of(inner).map(|(field, next)| (field + 8, next)),
    }
}

/// The number of a format 6 op code, from 01 to 10, less one.
fn number_of(text: &str) -> Option<u16> {
    hex(text, 2)
        .filter(|number| (1..=16).contains(number))
        .map(|number| number - 1)
}

/// The operand bits, and up to two more words.
type OperandBits = (u16, [Option<u16>; 2]);

fn six_of(text: &str) -> Option<u16> {
    hex(text, 2).filter(|&six| six <= 0x3F)
}

fn operands_of(operands: Operands, text: &str) -> Option<OperandBits> {
    let bits = |bits: u16| Some((bits, [None, None]));
    match operands {
        Operands::Nothing => None,
        Operands::Mask => Some((0, [Some(hex(text, 4)?), None])),
        Operands::Register => bits(register_of(text)?),
        Operands::Digit => bits(hex(text, 1)?),
        Operands::Six => bits(six_of(text)?),
        Operands::Displacement => bits(hex(text, 2)?),
        Operands::Destination => {
            let (field, next) = operand_of(text)?;
            Some((field, [next, None]))
        }
        Operands::NumberRegister
        | Operands::RegisterCount
        | Operands::RegisterOffset
        | Operands::TwoRegisters
        | Operands::RegisterDestination
        | Operands::RegisterAddress
        | Operands::SourceDestination => {
            let (first, second) = text.split_once(',')?;
            two_operands_of(operands, first, second)
        }
    }
}

fn two_operands_of(operands: Operands, first: &str, second: &str) -> Option<OperandBits> {
    let bits = |bits: u16| Some((bits, [None, None]));
    match operands {
        Operands::NumberRegister => bits(register_of(second)? << 6 | number_of(first)?),
        Operands::RegisterCount => bits(register_of(first)? << 6 | number_of(second)?),
        Operands::RegisterOffset => bits(register_of(first)? << 6 | six_of(second)?),
        Operands::TwoRegisters => bits(register_of(first)? << 3 | register_of(second)?),
        Operands::SourceDestination => {
            let (from, from_next) = operand_of(first)?;
            let (to, to_next) = operand_of(second)?;
            Some((from << 6 | to, [from_next, to_next]))
        }
        _ => {
            let (field, next) = operand_of(second)?;
            Some((register_of(first)? << 6 | field, [next, None]))
        }
    }
}

/// A word that has no text but .WORD.
fn reserved_or_illegal(level: Level, word: u16) -> bool {
    row_of(level, word).is_none_or(|row| row.forbids(word))
}

/// The words of a line that is a text.
pub(crate) fn words_of(level: Level, line: &str) -> Option<Vec<u16>> {
    let (mnemonic, rest) = match line.split_once(' ') {
        Some((mnemonic, rest)) => (mnemonic, Some(rest)),
        None => (line, None),
    };
    if mnemonic == ".WORD" {
        let word = hex(rest?, 4)?;
        return reserved_or_illegal(level, word).then(|| vec![word]);
    }
    let row: &Row = rows(level).iter().find(|row| row.name == mnemonic)?;
    let (bits, more) = match rest {
        None if row.operands == Operands::Nothing => (0, [None, None]),
        None => return None,
        Some(rest) => operands_of(row.operands, rest)?,
    };
    let word = row.base | bits;
    if row.forbids(word) {
        return None;
    }
    let mut words = vec![word];
    words.extend(more.into_iter().flatten());
    Some(words)
}

/// Reads a whole text; answers the number of words it wrote. Refusals 10, 9; from wish 9
/// on 10, then 32, 31, 9, 30 with a column.
pub fn read_text(level: Level, text: &[u8], words: &mut [u16]) -> Result<usize, Placed> {
    if words.len() < LEAST_WORDS {
        return Err(Refusal(10).into());
    }
    let line = std::str::from_utf8(text).ok();
    let Some(found) = line.and_then(|line| words_of(level, line)) else {
        return Err(if level.has(Wish::Columns) {
            refusal_of(text)
        } else {
            Refusal(9).into()
        });
    };
    words[..found.len()].copy_from_slice(&found);
    Ok(found.len())
}

// ---- on bytes, as from C (wish 6) ----

/// The words of bytes, low byte first. Refusal 38.
fn from_bytes(bytes: &[u8]) -> Result<Vec<u16>, Refusal> {
    if bytes.len() & 1 != 0 {
        return Err(Refusal(38));
    }
    let pairs = bytes.chunks_exact(2);
    Ok(pairs
        .map(|two| u16::from_le_bytes([two[0], two[1]]))
        .collect())
}

/// `write_text` of words as bytes. Refusals 38, 8, 6, 7.
pub fn write_text_of_bytes(
    level: Level,
    words: &[u8],
    text: &mut [u8],
) -> Result<(usize, usize), Refusal> {
    write_text(level, &from_bytes(words)?, text)
}

/// `read_text` into words as bytes. Refusals 38, then the reader's.
pub fn read_text_to_bytes(level: Level, text: &[u8], words: &mut [u8]) -> Result<usize, Placed> {
    let mut found = from_bytes(words)?;
    let count = read_text(level, text, &mut found)?;
    for (two, word) in words.chunks_exact_mut(2).zip(found) {
        two.copy_from_slice(&word.to_le_bytes());
    }
    Ok(count)
}
