//! Cases with their right answers, each line a case, a tab and the right answer: answered right by the
//! interpreter, and through the C interface's buffers.

use std::path::Path;

use wd16::calls;
use wd16::cases::{answer, Answers, Plain};
use wd16::through::Through;
use wd16::Level;

/// The files, and how many lines each has.
const FILES: [(&str, usize); 11] = [
    ("w01-block-moves.txt", 46),
    ("w03-late-ien.txt", 4),
    ("w04-blank-address.txt", 6),
    ("w05-read-only.txt", 8),
    ("w06-listing-and-c.txt", 64),
    ("w07-assembler.txt", 37),
    ("w08-trace.txt", 5),
    ("w09-columns.txt", 83),
    ("w10-no-cause-7.txt", 2),
    ("w13-recorder.txt", 4),
    ("w14-jumpers.txt", 8),
];

/// Every line of a file of that level is answered right; the number of lines.
fn answered(by: &mut dyn Answers, name: &str) -> usize {
    let path = Path::new(env!("CARGO_MANIFEST_DIR"))
        .join("vectors")
        .join(name);
    let text = std::fs::read_to_string(path).expect("a file of vectors");
    for line in text.lines() {
        let (case, right) = line.split_once('\t').expect("a case and its answer");
        assert_eq!(answer(by, case), right, "{name}: {case}");
    }
    text.lines().count()
}

#[test]
fn the_interpreter_answers_them() {
    for (name, lines) in FILES {
        assert_eq!(answered(&mut Plain, name), lines, "{name}");
    }
}

/// The buffers alone, without a program between.
#[test]
fn so_does_the_interface() {
    let mut through = Through {
        interface: calls::Plain(Level::ALL),
        level: Level::ALL,
        bench: String::new(),
        list: String::new(),
    };
    answered(&mut through, "w08-trace.txt");
    answered(&mut through, "w13-recorder.txt");
    answered(&mut through, "w09-columns.txt");
}

#[test]
fn what_is_no_case_is_bad() {
    let cases = [
        "",
        "jump 14 00",
        "read 14 3",
        "read 14 3 4",
        "read 14 3 4G",
        "step 14 1,3,3,00 0",
        "asm 6 3002 -",
        "cread 5 6 4E4F50",
        "power 14 2,3,3,00 100: 10000:00:",
    ];
    for case in cases {
        assert_eq!(answer(&mut Plain, case), "BAD", "{case}");
    }
}
