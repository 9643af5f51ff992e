//! The assembler for patches (wish 7). A line with labels is first read as the line that
//! has numbers in their places; what the labels come to is put in at the end.

use std::collections::{BTreeMap, HashMap, HashSet};

use crate::level::Level;
use crate::table::{rows, Operands};
use crate::text::{hex, words_of};
use crate::{Placed, Refusal};

/// The bytes of a line, and the most lines of a source.
pub const LINE: usize = 32;
pub const MOST_LINES: usize = 1_024;
/// The bytes of the labels of the longest source: two words of each line.
pub const LEAST_LABELS: usize = MOST_LINES * 4;
/// The bytes of the longest word section: a count, and three words of each line.
pub const LEAST_SECTION: usize = 2 + MOST_LINES * 3 * 4;

/// What a label stands for in an op code.
#[derive(Clone, Copy, PartialEq, Eq, Debug)]
enum Field {
    Branch,
    Sob,
    /// The offset in this word of the op code.
    Offset(usize),
}

/// A label used, and where.
struct Use<'a> {
    label: &'a str,
    field: Field,
}

/// What a line says, after its label.
enum Said<'a> {
    Nothing,
    Origin(u16),
    Words(Vec<u16>, Vec<Use<'a>>),
}

struct Line<'a> {
    label: Option<&'a str>,
    said: Said<'a>,
}

/// The source that has these lines, each as long as it must be.
pub fn source_of<T: AsRef<[u8]>>(lines: &[T]) -> Vec<u8> {
    let padded = |line: &T| {
        let mut padded = line.as_ref().to_vec();
        padded.resize(LINE, b' ');
        padded
    };
    lines.iter().flat_map(padded).collect()
}

// ---- one line ----

/// One to six capitals that read neither as a hex number nor as a register.
fn is_label(text: &str) -> bool {
    (1..=6).contains(&text.len())
        && text.bytes().all(|b| b.is_ascii_uppercase())
        && !text.bytes().all(|b| b <= b'F')
        && !matches!(text, "SP" | "PC")
}

/// A line in which a number stands for each label.
struct Numbered<'a> {
    text: String,
    uses: Vec<(usize, &'a str)>,
}

/// Puts a number for each label among the operands.
fn numbered<'a>(mnemonic: &str, kind: Operands, operands: &[&'a str]) -> Numbered<'a> {
    let mut uses = Vec::new();
    let mut number = |(place, &operand): (usize, &&'a str)| {
        let (at, name) = match operand.strip_prefix('@') {
            Some(name) => ("@", name),
            None => ("", operand),
        };
        let digits = match (kind, place) {
            (Operands::Displacement, 0) | (Operands::RegisterOffset, 1) if at.is_empty() => "00",
            (Operands::Destination | Operands::SourceDestination, 0)
            | (Operands::SourceDestination, 1)
            | (Operands::RegisterDestination | Operands::RegisterAddress, 1) => "0000(PC)",
            _ => return operand.to_string(),
        };
        if !is_label(name) {
            return operand.to_string();
        }
        uses.push((place, name));
        format!("{at}{digits}")
    };
    let operands: Vec<String> = operands.iter().enumerate().map(&mut number).collect();
    Numbered {
        text: format!("{mnemonic} {}", operands.join(",")),
        uses,
    }
}

/// The op code of a line, with the labels that it uses.
fn op_code<'a>(level: Level, text: &'a str) -> Option<Said<'a>> {
    let Some((mnemonic, rest)) = text.split_once(' ') else {
        return Some(Said::Words(words_of(level, text)?, Vec::new()));
    };
    let mut operands: Vec<&str> = rest.split(',').collect();
    let mnemonic = match mnemonic {
        "BHIS" => "BCC",
        "BLO" => "BCS",
        "CALL" | "JMP" => {
            operands.insert(0, "PC");
            if mnemonic == "CALL" {
                "JSR"
            } else {
                "LEA"
            }
        }
        other => other,
    };
    let kind = rows(level)
        .iter()
        .find(|row| row.name == mnemonic)?
        .operands;
    let Numbered { text, uses } = numbered(mnemonic, kind, &operands);
    let words = words_of(level, &text)?;
    let field = |place: usize| match kind {
        Operands::Displacement => Field::Branch,
        Operands::RegisterOffset => Field::Sob,
        Operands::SourceDestination if place == 0 => Field::Offset(1),
        _ => Field::Offset(words.len() - 1),
    };
    let uses = uses.into_iter().map(|(place, label)| Use {
        label,
        field: field(place),
    });
    let uses = uses.collect();
    Some(Said::Words(words, uses))
}

fn said<'a>(level: Level, text: &'a str) -> Option<Said<'a>> {
    if let Some(digits) = text.strip_prefix(".ORG ") {
        return Some(Said::Origin(hex(digits, 4)?));
    }
    if let Some(digits) = text.strip_prefix(".WORD ") {
        return Some(Said::Words(vec![hex(digits, 4)?], Vec::new()));
    }
    op_code(level, text)
}

/// A whole line; none where it is unknown text.
fn line_of(level: Level, bytes: &[u8]) -> Option<Line<'_>> {
    let text = std::str::from_utf8(bytes).ok()?.trim_end_matches(' ');
    let (label, rest) = match text.split_once(':') {
        Some((label, rest)) => (Some(label), rest),
        None => (None, text),
    };
    if label.is_some_and(|label| !is_label(label)) {
        return None;
    }
    let said = match (label, rest) {
        (_, "") => Said::Nothing,
        (Some(_), rest) => said(level, rest.strip_prefix(' ')?)?,
        (None, rest) => said(level, rest)?,
    };
    Some(Line { label, said })
}

// ---- all lines ----

/// Where the next word goes, one past the last being 10000, and the addresses that are taken.
#[derive(Default)]
struct Layout {
    origin: u32,
    taken: HashSet<u32>,
}

impl Layout {
    /// Moves on over what a line says; none where it can't stand here.
    fn lay(&mut self, said: &Said) -> Option<()> {
        match said {
            Said::Nothing => {}
            Said::Origin(to) if to & 1 != 0 => return None,
            Said::Origin(to) => self.origin = u32::from(*to),
            Said::Words(words, _) => words.iter().try_for_each(|_| self.take_word())?,
        }
        Some(())
    }

    fn take_word(&mut self) -> Option<()> {
        let free = self.origin <= 0xFFFE && self.taken.insert(self.origin);
        self.origin += 2;
        free.then_some(())
    }
}

/// The origins at which the lines begin. Refusal 28.
fn origins_of(lines: &[Line]) -> Result<Vec<u16>, Placed> {
    let mut origins = Vec::new();
    let mut layout = Layout::default();
    for (place, line) in lines.iter().enumerate() {
        origins.push(layout.origin as u16);
        layout.lay(&line.said).ok_or(Placed::new(28, place))?;
    }
    Ok(origins)
}

/// Puts what a label comes to into its field; none where it is too far.
fn settle(words: &mut [u16], field: Field, at: u16, label: u16) -> Option<()> {
    let ahead = |from: u16| label.wrapping_sub(from);
    let next = at.wrapping_add(2);
    match field {
        Field::Branch => {
            let distance = i8::try_from(ahead(next) as i16 / 2).ok()?;
            words[0] |= u16::from(distance as u8);
        }
        Field::Sob => {
            let back = next.wrapping_sub(label) / 2;
            words[0] |= Some(back).filter(|&back| back <= 0x3F)?;
        }
        Field::Offset(place) => {
            words[place] = ahead(next.wrapping_add(2 * place as u16));
        }
    }
    Some(())
}

/// The labels and their lines. Refusal 25.
fn labels_of<'a>(lines: &[Line<'a>]) -> Result<HashMap<&'a str, usize>, Placed> {
    let mut labels = HashMap::new();
    for (place, line) in lines.iter().enumerate() {
        if let Some(label) = line.label {
            if labels.insert(label, place).is_some() {
                return Err(Placed::new(25, place));
            }
        }
    }
    Ok(labels)
}

/// The uses of labels in a line.
fn uses_of<'l, 'a>(line: &'l Line<'a>) -> &'l [Use<'a>] {
    match &line.said {
        Said::Words(_, uses) => uses,
        _ => &[],
    }
}

/// Refusal 26.
fn all_known(lines: &[Line], labels: &HashMap<&str, usize>) -> Result<(), Placed> {
    let known = |line: &Line| uses_of(line).iter().all(|u| labels.contains_key(u.label));
    match lines.iter().position(|line| !known(line)) {
        Some(place) => Err(Placed::new(26, place)),
        None => Ok(()),
    }
}

/// The words of a line at this address, with what its labels come to; none where one is too far.
fn settled(line: &Line, at: u16, value_of: impl Fn(&str) -> u16) -> Option<Vec<u16>> {
    let Said::Words(words, uses) = &line.said else {
        return Some(Vec::new());
    };
    let mut words = words.clone();
    for Use { label, field } in uses {
        settle(&mut words, *field, at, value_of(label))?;
    }
    Some(words)
}

/// The lines of a source. Refusal 24.
fn lines_of(level: Level, source: &[u8]) -> Result<Vec<Line<'_>>, Placed> {
    let line = |(place, bytes)| line_of(level, bytes).ok_or(Placed::new(24, place));
    source.chunks_exact(LINE).enumerate().map(line).collect()
}

/// The words by their addresses. Refusals 24, 25, 26, 28, 27.
fn patch(level: Level, source: &[u8]) -> Result<BTreeMap<u16, u16>, Placed> {
    let lines = lines_of(level, source)?;
    let labels = labels_of(&lines)?;
    all_known(&lines, &labels)?;
    let origins = origins_of(&lines)?;
    let value_of = |label: &str| origins[labels[label]];
    let mut patch = BTreeMap::new();
    for (place, (line, &at)) in lines.iter().zip(&origins).enumerate() {
        let words = settled(line, at, value_of).ok_or(Placed::new(27, place))?;
        patch.extend((at..=0xFFFE).step_by(2).zip(words));
    }
    Ok(patch)
}

/// Refusals 10 and 36 of what is lent.
fn check_lent(source: &[u8], output: &[u8], least: usize) -> Result<(), Refusal> {
    if output.len() < least {
        return Err(Refusal(10));
    }
    if source.len() % LINE != 0 || source.len() > MOST_LINES * LINE {
        return Err(Refusal(36));
    }
    Ok(())
}

/// The address at which each line begins, wherever its words would go.
fn beginnings(lines: &[Line]) -> Vec<u16> {
    let mut origin = 0_u16;
    let mut begins = Vec::new();
    for line in lines {
        begins.push(origin);
        match &line.said {
            Said::Nothing => {}
            Said::Origin(to) => origin = *to,
            Said::Words(words, _) => origin = origin.wrapping_add(2 * words.len() as u16),
        }
    }
    begins
}

/// Each line's label, as its length, and the address at which the line begins, two words a line;
/// answers their bytes. Refusals 10, 36, then 24 and 25 with their line.
pub fn labels(level: Level, source: &[u8], out: &mut [u8]) -> Result<usize, Placed> {
    check_lent(source, out, LEAST_LABELS)?;
    let lines = lines_of(level, source)?;
    labels_of(&lines)?;
    for (line, begins, entry) in lines
        .iter()
        .zip(beginnings(&lines))
        .zip(out.chunks_exact_mut(4))
        .map(|((line, begins), entry)| (line, begins, entry))
    {
        let length = line.label.map_or(0, str::len) as u16;
        entry[..2].copy_from_slice(&length.to_le_bytes());
        entry[2..].copy_from_slice(&begins.to_le_bytes());
    }
    Ok(4 * lines.len())
}

/// Assembles a source into the word section of a job; answers its length in bytes.
/// Refusals 10, 36, then 24, 25, 26, 28, 27 with their line.
pub fn assemble(level: Level, source: &[u8], section: &mut [u8]) -> Result<usize, Placed> {
    check_lent(source, section, LEAST_SECTION)?;
    let patch = patch(level, source)?;
    let mut bytes = (patch.len() as u16).to_le_bytes().to_vec();
    for (address, word) in patch {
        bytes.extend(address.to_le_bytes());
        bytes.extend(word.to_le_bytes());
    }
    section[..bytes.len()].copy_from_slice(&bytes);
    Ok(bytes.len())
}
