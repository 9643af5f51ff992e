//! The programs that the speed is measured with, read from `programs.txt`.

use crate::board::{IMAGE, PAGES};
use crate::machine::MOST_LINES;

/// The list as people read it.
pub const LIST: &str = include_str!("../programs.txt");

/// A program of the list.
pub struct Program {
    pub name: String,
    pub map: [u8; PAGES],
    pub image: Vec<u8>,
    pub runs: usize,
    pub lines: Vec<u16>,
}

fn hex(text: &str) -> usize {
    usize::from_str_radix(text, 16).expect("a hex number")
}

fn named(name: &str) -> Program {
    Program {
        name: name.to_string(),
        map: [0; PAGES],
        image: vec![0; IMAGE],
        runs: 0,
        lines: vec![0; MOST_LINES],
    }
}

impl Program {
    /// Takes a line of the list: its pages, the number of its runs, its line words, or a word at an address.
    fn take(&mut self, first: &str, rest: &str) {
        match first {
            "pages" => rest.split(' ').for_each(|page| self.map[hex(page)] = 1),
            "runs" => self.runs = rest.parse().expect("a number of runs"),
            "lines" => {
                let words: Vec<u16> = rest.split(' ').map(|word| hex(word) as u16).collect();
                self.lines = words.into_iter().cycle().take(MOST_LINES).collect();
            }
            address => {
                let (at, word) = (hex(address), hex(rest) as u16);
                self.image[at..at + 2].copy_from_slice(&word.to_le_bytes());
            }
        }
    }
}

/// All programs of a list. A list that can't be read is an error of its writer.
pub fn read_programs(list: &str) -> Vec<Program> {
    let mut programs: Vec<Program> = Vec::new();
    for line in list.lines() {
        let said = line.split([';', '#']).next().unwrap_or("").trim();
        let Some((first, rest)) = said.split_once([' ', '=']) else {
            continue;
        };
        match (first, programs.last_mut()) {
            ("program", _) => programs.push(named(rest)),
            (_, program) => program.expect("a program's name first").take(first, rest),
        }
    }
    programs
}
