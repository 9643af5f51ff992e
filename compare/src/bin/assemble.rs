//! Reads the source of a patch on standard input, a line of up to 32 bytes each, and writes the
//! word section of a job. An argument is the level; without one it is the landed one.

use std::io::{Read, Write};

use wd16::assembler::{assemble, LEAST_SECTION, LINE};
use wd16::Level;

/// A line without its end: a newline, or a CR and a newline.
fn text_of(line: &[u8]) -> &[u8] {
    match line.strip_suffix(b"\n") {
        Some(text) => text.strip_suffix(b"\r").unwrap_or(text),
        None => line,
    }
}

fn main() -> std::io::Result<()> {
    let mut input = Vec::new();
    std::io::stdin().read_to_end(&mut input)?;
    let level = Level::told(std::env::args().nth(1).as_deref());
    let mut source = Vec::new();
    for line in input.split_inclusive(|&byte| byte == b'\n') {
        let end = source.len() + LINE;
        source.extend(text_of(line));
        source.resize(source.len().next_multiple_of(LINE).max(end), b' ');
    }
    let mut section = [0; LEAST_SECTION];
    match assemble(level, &source, &mut section) {
        Ok(length) => std::io::stdout().write_all(&section[..length]),
        Err(refused) => {
            eprintln!("REFUSED {refused:?}");
            std::process::exit(1)
        }
    }
}
