//! Reads a job on standard input, powers up, runs, and prints one line.
//! An argument is the level; without one it is the landed one.

use std::io::Read;

use wd16::bench::bench;
use wd16::Level;

fn main() -> std::io::Result<()> {
    let mut job = Vec::new();
    std::io::stdin().read_to_end(&mut job)?;
    let level = Level::told(std::env::args().nth(1).as_deref());
    println!("{}", bench(level, &job));
    Ok(())
}
