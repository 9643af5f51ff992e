//! Reads cases on standard input, one a line, and prints an answer to each.
//!
//! ```text
//! answer plain                            from the interpreter of this crate
//! answer served SERVE BENCH LIST [LEVEL]  through a program that serves calls of that level, and
//!                                         through the programs bench and list; "" for none
//! ```

use std::io::{self, BufRead, BufWriter, Write};

use wd16::cases::{answer, Answers, Plain};
use wd16::served::Served;
use wd16::through::Through;
use wd16::Level;

fn answer_all(by: &mut dyn Answers) -> io::Result<()> {
    let mut out = BufWriter::new(io::stdout().lock());
    for case in io::stdin().lock().lines() {
        writeln!(out, "{}", answer(by, &case?))?;
    }
    out.flush()
}

fn answer_served(serve: &str, bench: &str, list: &str, level: Level) -> io::Result<()> {
    let mut through = Through {
        interface: Served::start(serve, level)?,
        level,
        bench: bench.to_string(),
        list: list.to_string(),
    };
    answer_all(&mut through)
}

fn main() -> io::Result<()> {
    let arguments: Vec<String> = std::env::args().skip(1).collect();
    match arguments.iter().map(String::as_str).collect::<Vec<_>>()[..] {
        ["plain"] => answer_all(&mut Plain),
        ["served", serve, bench, list] => answer_served(serve, bench, list, Level::LANDED),
        ["served", serve, bench, list, level] => {
            answer_served(serve, bench, list, Level::told(Some(level)))
        }
        _ => Err(io::Error::other(
            "answer plain | served SERVE BENCH LIST [LEVEL]",
        )),
    }
}
