//! The programs that the speed is measured with do what they say.

use wd16::programs::{read_programs, LIST};
use wd16::writer::write_text;
use wd16::{power_up, run, Level, Mode, Setup};

#[test]
fn the_programs_run_on_and_only_the_storm_is_blank() {
    let programs = read_programs(LIST);
    let names: Vec<&str> = programs
        .iter()
        .map(|program| program.name.as_str())
        .collect();
    assert_eq!(
        names,
        ["sob", "copy", "call", "byte", "storm", "lines", "block"]
    );
    for mut program in programs {
        let setup = Setup::bench(Level::LANDED);
        let (image, map) = (&mut program.image, &program.map);
        let state = power_up(&setup, image, map).unwrap();
        let ran = run(&setup, state, image, map, &program.lines).unwrap();
        assert_eq!(ran.state.mode, Mode::Running);
        assert_eq!(ran.blanks > 1_000, program.name == "storm");
        assert_eq!(ran.blanks == 0, program.name != "storm");
    }
}

/// A comment that begins with a mnemonic is the text of the op code beside it.
#[test]
fn the_comments_are_the_op_codes() {
    let lines: Vec<&str> = LIST.lines().collect();
    let mut checked = 0;
    for (place, line) in lines.iter().enumerate() {
        let Some((said, comment)) = line.split_once(';') else {
            continue;
        };
        if !comment
            .trim_start()
            .chars()
            .take(2)
            .all(|c| c.is_ascii_uppercase() || c.is_ascii_digit())
            || comment.trim_start().starts_with("PC ")
        {
            continue;
        }
        let word = |line: &str| {
            let digits = line.split_once('=').map(|(_, rest)| &rest[..4]);
            digits.and_then(|digits| u16::from_str_radix(digits, 16).ok())
        };
        let more = lines
            .get(place + 1)
            .and_then(|line| word(line))
            .unwrap_or(0);
        let mut text = [0; 32];
        let (length, _) =
            write_text(Level::LANDED, &[word(said).unwrap(), more], &mut text).unwrap();
        let text = std::str::from_utf8(&text[..length]).unwrap();
        assert!(comment.trim_start().starts_with(text), "{line}: {text}");
        checked += 1;
    }
    assert_eq!(checked, 53);
}
