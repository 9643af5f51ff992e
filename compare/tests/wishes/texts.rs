//! Wishes 1, 6 and 9: texts, columns, listings.

use wd16::listing::list;
use wd16::text::{read_text, read_text_to_bytes, write_text_of_bytes};
use wd16::writer::{text_of, word_text};
use wd16::{Level, Placed, Refusal};

const ALL: Level = Level::ALL;

fn read(line: &[u8]) -> Result<Vec<u16>, Placed> {
    let mut words = [0; 3];
    let count = read_text(ALL, line, &mut words)?;
    Ok(words[..count].to_vec())
}

#[test]
fn block_moves_have_names() {
    let names = [
        "MBWU", "MBWD", "MBBU", "MBBD", "MBWA", "MBBA", "MABW", "MABB",
    ];
    for (place, name) in names.iter().enumerate() {
        let word = 0x0E00 + 0x40 * place as u16 + 0x0E;
        let text = format!("{name} R1,SP");
        assert_eq!(text_of(ALL, &[word]), Ok((text.clone(), 1)));
        assert_eq!(read(text.as_bytes()), Ok(vec![word]));
        assert_eq!(text_of(Level::BASE, &[word]), Ok((word_text(word), 1)));
    }
    assert_eq!(read(b".WORD 0E00"), Err(Placed::new(30, 6)));
}

#[test]
fn columns() {
    let lines: [(&str, u8, usize); 27] = [
        ("NOPX", 31, 3),
        ("NOP ", 31, 3),
        ("BRX", 9, 2),
        ("MOV", 32, 3),
        (".", 32, 1),
        ("", 32, 0),
        ("x", 9, 0),
        ("MOV  R0", 30, 4),
        (".WORD 0", 30, 6),
        (".WORD 74", 30, 7),
        (".WORD 702", 30, 8),
        (".WORD 7008", 30, 9),
        (".WORD 700", 32, 9),
        ("ADDI 11", 30, 6),
        ("ADDI 2", 30, 5),
        ("ADDI 00", 30, 6),
        ("ADDI 0", 32, 6),
        ("JSR R1,R2", 30, 7),
        ("TST (PC)+", 30, 5),
        ("TST @(P", 30, 6),
        ("SOB R0,4", 30, 7),
        ("TST #????", 30, 5),
        ("TST #12aF", 30, 7),
        ("TST R0,", 31, 6),
        ("SAVS 123", 32, 8),
        ("MOV #12345", 30, 9),
        ("ADD\tR0", 9, 3),
    ];
    for (line, number, column) in lines {
        let refused = Err(Placed::new(number, column));
        assert_eq!(read(line.as_bytes()), refused, "{line}");
    }
    assert_eq!(read(b"MOV \xFF"), Err(Placed::new(30, 4)));
    let mut short = [0; 2];
    assert_eq!(read_text(ALL, b"", &mut short), Err(Refusal(10).into()));
}

fn check_beginnings(line: &str) {
    for length in 0..line.len() {
        let refused = read(&line.as_bytes()[..length]);
        assert_eq!(refused, Err(Placed::new(32, length)), "{line}");
    }
}

/// No text begins another.
#[test]
fn every_beginning_of_a_text_is_one() {
    for word in (0..=0xFFFF).step_by(7) {
        let (line, _) = text_of(ALL, &[word, 0x12AF, 0xB034]).unwrap();
        check_beginnings(&line);
        assert_eq!(
            read(format!("{line}!").as_bytes()),
            Err(Placed::new(31, line.len()))
        );
    }
}

#[test]
fn from_c_on_bytes() {
    let mut text = [b'x'; 33];
    let answer = write_text_of_bytes(ALL, &[0xC0, 0x15, 0x05, 0x00], &mut text);
    assert_eq!((answer, &text[..13]), (Ok((12, 2)), &b"ADD #0005,R0x"[..]));
    let refusals: [(&[u8], usize, u8); 4] = [
        (&[1], 0, 38),
        (&[], 31, 8),
        (&[], 32, 6),
        (&[0x0B, 0x00], 32, 7),
    ];
    for (words, length, number) in refusals {
        let refused = write_text_of_bytes(ALL, words, &mut vec![0; length]);
        assert_eq!(refused, Err(Refusal(number)));
    }
    let mut words = [9; 8];
    assert_eq!(read_text_to_bytes(ALL, b"ADD #0005,R0", &mut words), Ok(2));
    assert_eq!(words, [0xC0, 0x15, 0x05, 0x00, 9, 9, 9, 9]);
    let refused = |length: usize| read_text_to_bytes(ALL, b"NOPX", &mut vec![0; length]);
    assert_eq!(refused(7), Err(Refusal(38).into()));
    assert_eq!(refused(4), Err(Refusal(10).into()));
    assert_eq!(refused(6), Err(Placed::new(31, 3)));
}

/// Two addresses and a job: pages 01 and FF with these words.
fn listed(first: u16, last: u16, words: &[(u16, u16)]) -> String {
    let word = |number: u16| number.to_le_bytes();
    let mut bytes = [word(first), word(last), word(2)].concat();
    bytes.extend([0x01, 0xFF]);
    bytes.extend(word(words.len() as u16));
    for &(address, value) in words {
        bytes.extend([word(address), word(value)].concat());
    }
    bytes.extend(word(0));
    list(ALL, &bytes)
}

#[test]
fn listings() {
    let add = [(0x0100, 0x15C0), (0x0102, 0x0005)];
    assert_eq!(
        listed(0x0100, 0x0102, &add),
        "0100 15C0 0005 ADD #0005,R0\n"
    );
    // Cut by the end of the stretch; one word.
    assert_eq!(listed(0x0100, 0x0100, &add), "0100 15C0 .WORD 15C0\n");
    assert_eq!(listed(0x0102, 0x0102, &add), "0102 0005 XCT\n");
    // Cut by an unfitted word, and by the end of memory.
    let cut = "01FE 15C0 .WORD 15C0\n0200 ----\n0202 ----\n";
    assert_eq!(listed(0x01FE, 0x0202, &[(0x01FE, 0x15C0)]), cut);
    assert_eq!(
        listed(0xFFFE, 0xFFFE, &[(0xFFFE, 0x15C0)]),
        "FFFE 15C0 .WORD 15C0\n"
    );
    // Two more words are wanted and one is there; it is listed by itself.
    let three = [(0x0100, 0xB5F7), (0x0102, 0x0000), (0x0104, 0x0001)];
    assert_eq!(
        listed(0x0100, 0x0102, &three),
        "0100 B5F7 .WORD B5F7\n0102 0000 NOP\n"
    );
    assert_eq!(
        listed(0x0100, 0x0104, &[(0x0100, 0xF00F)]),
        "0100 F00F .WORD F00F\n0102 0000 NOP\n0104 0000 NOP\n"
    );
}

#[test]
fn refused_listings() {
    for (first, last) in [(0x0101, 0x0102), (0x0100, 0x0103), (0x0102, 0x0100)] {
        assert_eq!(listed(first, last, &[]), "REFUSED 23\n");
    }
    assert_eq!(list(ALL, &[1, 0, 0]), "REFUSED 11\n");
    assert_eq!(list(ALL, &[1, 0, 0, 0, 1]), "REFUSED 11\n");
    assert_eq!(list(ALL, &[1, 0, 0, 0, 2, 0, 5, 5]), "REFUSED 13\n");
}
