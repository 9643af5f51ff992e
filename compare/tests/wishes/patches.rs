//! Wish 7: the assembler.

use wd16::assembler::{assemble, source_of, LEAST_SECTION};
use wd16::{Level, Placed, Refusal};

/// The words with their addresses.
fn patch(lines: &[&str]) -> Result<Vec<(u16, u16)>, Placed> {
    let mut section = vec![7; LEAST_SECTION];
    let length = assemble(Level::ALL, &source_of(lines), &mut section)?;
    assert!(section[length..].iter().all(|&byte| byte == 7));
    let word = |two: &[u8]| u16::from_le_bytes([two[0], two[1]]);
    assert_eq!(usize::from(word(&section)), (length - 2) / 4);
    let entries = section[2..length].chunks_exact(4);
    Ok(entries
        .map(|entry| (word(entry), word(&entry[2..])))
        .collect())
}

/// The words of one line at 0000.
fn words(line: &str) -> Result<Vec<u16>, Placed> {
    let tag = "TAG: .ORG 0000";
    Ok(patch(&[tag, line])?
        .into_iter()
        .map(|(_, word)| word)
        .collect())
}

#[test]
fn a_line_is_what_the_reader_takes() {
    assert_eq!(words("ADD #0005,R0"), Ok(vec![0x15C0, 5]));
    assert_eq!(words("BR FE"), Ok(vec![0x01FE]));
    assert_eq!(words("MBWU R1,R2"), Ok(vec![0x0E0A]));
    assert_eq!(words(".WORD 15C0"), Ok(vec![0x15C0]));
    assert_eq!(words(""), Ok(vec![]));
    assert_eq!(words("L: NOP"), Ok(vec![0]));
    assert_eq!(words("L:"), Ok(vec![]));
}

#[test]
fn aliases() {
    assert_eq!(words("BHIS 7F"), Ok(vec![0x867F]));
    assert_eq!(words("BLO 80"), Ok(vec![0x8780]));
    assert_eq!(words("CALL @R1"), Ok(vec![0x71C9]));
    assert_eq!(words("JMP @#1234"), Ok(vec![0x73DF, 0x1234]));
    assert_eq!(words("CALL TAG"), Ok(vec![0x71F7, 0xFFFC]));
    assert_eq!(words("JMP @TAG"), Ok(vec![0x73FF, 0xFFFC]));
    for line in ["CALL R1", "JMP SP", "CALL", "JMP", "CALL R1,@R2"] {
        assert_eq!(words(line), Err(Placed::new(24, 1)), "{line}");
    }
}

#[test]
fn labels_as_operands() {
    assert_eq!(words("TST TAG"), Ok(vec![0x0AB7, 0xFFFC]));
    assert_eq!(words("TST @TAG"), Ok(vec![0x0ABF, 0xFFFC]));
    assert_eq!(words("MOV TAG,TAG"), Ok(vec![0xBDF7, 0xFFFC, 0xFFFA]));
    assert_eq!(words("MOV #0001,@TAG"), Ok(vec![0xB5FF, 1, 0xFFFA]));
    assert_eq!(words("MOV TAG,0001(R1)"), Ok(vec![0xBDF1, 0xFFFC, 1]));
    assert_eq!(words("XCH R1,TAG"), Ok(vec![0x7877, 0xFFFC]));
    let ahead = patch(&[".ORG FFF0", "TST END", ".ORG 0010", "END:"]);
    assert_eq!(ahead, Ok(vec![(0xFFF0, 0x0AB7), (0xFFF2, 0x001C)]));
}

/// Lines that are unknown text.
const UNKNOWN: [&str; 32] = [
    "MOV #TAG,R0",
    "MOV @#TAG,R0",
    "TST TAG(R1)",
    ".WORD TAG",
    ".ORG TAG",
    "SAVS TAG",
    "SVCA TAG",
    "JSR TAG,@R1",
    "SOB TAG,00",
    "BR @TAG",
    "SOB R0,@TAG",
    "TST ABCDEF",
    "TST LABELED",
    "TST TAG ,R0",
    "A: NOP",
    "FACADE:",
    "SP:",
    "PC: NOP",
    "LABELED: NOP",
    "TAGA:NOP",
    "TAGA:  NOP",
    " NOP",
    "TAGA: TAGB: NOP",
    "TAG1: NOP",
    ": NOP",
    "nop",
    "NOP\t",
    "NOP\0",
    ".ORG 123",
    ".WORD 12345",
    ".ORG",
    "NOP X",
];

#[test]
fn labels_that_are_none() {
    for line in UNKNOWN {
        assert_eq!(words(line), Err(Placed::new(24, 1)), "{line:?}");
    }
    // A mnemonic may be a label, a register with a digit is a register.
    assert_eq!(
        patch(&["NOP: NOP", "BR NOP"]),
        Ok(vec![(0, 0), (2, 0x01FE)])
    );
}

#[test]
fn values_are_the_origins_that_lines_begin_at() {
    let lines = [
        "BR ONE",
        "ONE: .ORG 0100",
        "TWO: BR TWO",
        "THREE:",
        "BR THREE",
    ];
    let words = vec![(0x0000, 0x0100), (0x0100, 0x01FF), (0x0102, 0x01FF)];
    assert_eq!(patch(&lines), Ok(words));
    // After a word at FFFE a label is 0000.
    let lines = [".ORG FFFE", "NOP", "TAG:", ".ORG 0010", "TST TAG"];
    assert_eq!(patch(&lines).unwrap()[1], (0x0012, 0xFFEC));
}

#[test]
fn addresses_rise_in_the_section() {
    let lines = [".ORG 0200", "NOP", ".ORG 0100", "RESET"];
    assert_eq!(patch(&lines), Ok(vec![(0x0100, 1), (0x0200, 0)]));
    assert_eq!(patch(&[]), Ok(vec![]));
}

/// A branch or SOB at 1000 to a label this far from 1002, in words.
fn reach(op: &str, words: i32) -> Result<u16, Placed> {
    let to = format!(".ORG {:04X}", 0x1002 + 2 * words);
    let lines = [&to, "TAG:", ".ORG 1000", &format!("{op}TAG")];
    patch(&lines).map(|words| words[0].1)
}

#[test]
fn branches_and_sob_reach_so_far() {
    assert_eq!(reach("BNE ", 127), Ok(0x027F));
    assert_eq!(reach("BNE ", -128), Ok(0x0280));
    assert_eq!(reach("BLO ", -1), Ok(0x87FF));
    assert_eq!(reach("SOB R1,", 0), Ok(0x7640));
    assert_eq!(reach("SOB R1,", -63), Ok(0x767F));
    for (op, words) in [
        ("BNE ", 128),
        ("BNE ", -129),
        ("SOB R1,", 1),
        ("SOB R1,", -64),
    ] {
        assert_eq!(reach(op, words), Err(Placed::new(27, 3)), "{op}{words}");
    }
    // Distances go round the ends of memory.
    let round = [".ORG FFF0", "BR TAG", ".ORG 0010", "TAG: SOB R0,TAG"];
    assert_eq!(patch(&round), Ok(vec![(0x0010, 0x7601), (0xFFF0, 0x010F)]));
}

#[test]
fn words_that_overlap_or_run_past_the_end() {
    let refused = |lines: &[&str], line: usize| {
        assert_eq!(patch(lines), Err(Placed::new(28, line)), "{lines:?}");
    };
    refused(&[".ORG 0001"], 0);
    refused(&["ADD #0001,R0", ".ORG 0002", "NOP"], 2);
    refused(&[".ORG 0002", "NOP", ".ORG 0000", "ADD #0001,R0"], 3);
    refused(&[".ORG FFFE", "NOP", "NOP"], 2);
    refused(&[".ORG FFFC", "MOV #0001,@#0002"], 1);
    assert!(patch(&[".ORG FFFE", "NOP", "", ".ORG 0000"]).is_ok());
}

#[test]
fn the_order_of_refusals() {
    let too_far = "BR TAG";
    let lines = ["TAG:", "TAG:", "TST NONE", ".ORG 0101", "x"];
    assert_eq!(patch(&lines), Err(Placed::new(24, 4)));
    assert_eq!(patch(&lines[..4]), Err(Placed::new(25, 1)));
    assert_eq!(
        patch(&["TAG:", "TST NONE", ".ORG 0101"]),
        Err(Placed::new(26, 1))
    );
    assert_eq!(
        patch(&["TAG:", ".ORG 1000", too_far, ".ORG 0101"]),
        Err(Placed::new(28, 3))
    );
    assert_eq!(
        patch(&["TAG:", ".ORG 1000", too_far]),
        Err(Placed::new(27, 2))
    );
}

#[test]
fn lengths() {
    let call = |source: &[u8], length: usize| assemble(Level::ALL, source, &mut vec![0; length]);
    let line = source_of(&[""]);
    assert_eq!(call(b"x", 12_289), Err(Refusal(10).into()));
    assert_eq!(call(&line[1..], 12_290), Err(Refusal(36).into()));
    assert_eq!(call(&line.repeat(1_025), 12_290), Err(Refusal(36).into()));
    assert_eq!(call(&line.repeat(1_024), 12_290), Ok(2));
    let full = source_of(&["MOV #0001,@#0002"]).repeat(1_024);
    assert_eq!(call(&full, 12_290), Ok(12_290));
}
