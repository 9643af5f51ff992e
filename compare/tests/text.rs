//! The text of one op code.

use wd16::text::read_text;
use wd16::writer::write_text;
use wd16::{Level, Placed, Refusal};

const BASE: Level = Level::BASE;

fn text_of(words: &[u16]) -> (String, usize) {
    let mut text = [0; 32];
    let (length, taken) = write_text(BASE, words, &mut text).expect("a whole op code");
    (String::from_utf8(text[..length].to_vec()).unwrap(), taken)
}

fn words_of(line: &str) -> Result<Vec<u16>, Placed> {
    let mut words = [0xEEEE; 5];
    let count = read_text(BASE, line.as_bytes(), &mut words)?;
    assert!(words[count..].iter().all(|&word| word == 0xEEEE));
    Ok(words[..count].to_vec())
}

#[test]
fn lines_of_every_kind() {
    let lines: [(&[u16], &str); 26] = [
        (&[0x0000], "NOP"),
        (&[0x000B, 0x1234], "SAVS 1234"),
        (&[0x0017], "IAK PC"),
        (&[0x003A], "LCC A"),
        (&[0x007F], "SVCA 3F"),
        (&[0x00C1], "SVCC 01"),
        (&[0x01FE], "BR FE"),
        (&[0x8600], "BCC 00"),
        (&[0x8780], "BCS 80"),
        (&[0x0800], "ADDI 01,R0"),
        (&[0x09FF], "MOVI 10,PC"),
        (&[0x8820], "SSRA R0,01"),
        (&[0x8FBF], "SDLA SP,10"),
        (&[0x0A00], "ROR R0"),
        (&[0x0A8E], "TST @SP"),
        (&[0x0C93], "INC (R3)+"),
        (&[0x0BDC], "SWAB @(R4)+"),
        (&[0x0C67], "NEG -(PC)"),
        (&[0x8CA9], "INCB @-(R1)"),
        (&[0x0D97, 0x0004], "TCALL #0004"),
        (&[0x7643], "SOB R1,03"),
        (&[0x71DF, 0x0100], "JSR PC,@#0100"),
        (&[0x7140], ".WORD 7140"),
        (&[0x0E00], ".WORD 0E00"),
        (&[0xDE7A, 0x1234, 0xABCD], "MOVB @1234(R1),@ABCD(R2)"),
        (&[0x8B57, 0x00FF], "CLRB #00FF"),
    ];
    for (words, line) in lines {
        assert_eq!(text_of(words), (line.to_string(), words.len()));
        assert_eq!(words_of(line), Ok(words.to_vec()));
    }
}

/// An op code must have all its words to be written.
fn check_short(words: &[u16]) {
    for short in 1..words.len() {
        let written = write_text(BASE, &words[..short], &mut [0; 32]);
        assert_eq!(written, Err(Refusal(7)));
    }
}

#[test]
fn every_first_word_is_read_back() {
    let mut longest = 0;
    for word in 0..=0xFFFF {
        let words = [word, 0x12AF, 0xB034];
        let (line, taken) = text_of(&words);
        longest = longest.max(line.len());
        assert_eq!(words_of(&line), Ok(words[..taken].to_vec()));
        check_short(&words[..taken]);
    }
    assert_eq!(longest, 24);
}

/// A line that the reader takes is the one that the writer makes of its words.
fn check(line: &str) {
    if let Ok(words) = words_of(line) {
        assert_eq!(text_of(&words).0, line);
    }
}

/// The line cut at the place, and with each character there, put in or instead.
fn check_changes_at(line: &str, place: usize) {
    let (before, after) = line.split_at(place);
    check(before);
    for character in " ,.@#()+-0139AFRSPCW\nx".chars() {
        check(&format!("{before}{character}{after}"));
        if let Some(rest) = after.get(1..) {
            check(&format!("{before}{character}{rest}"));
        }
    }
}

fn check_changes(line: &str) {
    for place in 0..=line.len() {
        check_changes_at(line, place);
    }
}

#[test]
fn no_other_line_is_taken() {
    for word in (0..=0xFFFF).step_by(41) {
        let (line, _) = text_of(&[word, 0x12AF, 0xB034]);
        check_changes(&line);
    }
}

/// Lines that are no text.
const NO_TEXTS: [&str; 33] = [
    "",
    "NOPE",
    "NOP ",
    " NOP",
    "nop",
    "SAVS #1234",
    "BHIS 00",
    "BLO 00",
    "CALL @R1",
    "JMP @R1",
    "INC (PC)+",
    "INC @(PC)+",
    "ADDI 00,R0",
    "ADDI 11,R0",
    "ADDI R0,01",
    "SSRA 01,R0",
    "SOB R1,40",
    "SVCA 40",
    "LCC 0A",
    "JSR PC,R1",
    ".WORD 0000",
    ".WORD 7240 ",
    "ADD R0, R1",
    "ADD R0",
    "ADD R0,R1,R2",
    "TST #12af",
    "CLRB #FF",
    "INC 0(R1)",
    "INC @@R1",
    "MOV R6,R7",
    "BR FE\n",
    "INC -(R1)+",
    "\u{e9}",
];

#[test]
fn refusals() {
    assert_eq!(write_text(BASE, &[], &mut [0; 31]), Err(Refusal(8)));
    assert_eq!(write_text(BASE, &[], &mut [0; 32]), Err(Refusal(6)));
    assert_eq!(write_text(BASE, &[0x000B], &mut [0; 32]), Err(Refusal(7)));
    assert_eq!(
        read_text(BASE, b"NOPE", &mut [0; 2]),
        Err(Refusal(10).into())
    );
    for line in NO_TEXTS {
        assert_eq!(words_of(line), Err(Refusal(9).into()), "{line}");
    }
    assert_eq!(
        read_text(BASE, &[0xFF, 0xFE], &mut [0; 3]),
        Err(Refusal(9).into())
    );
}
