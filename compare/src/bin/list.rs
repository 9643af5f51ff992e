//! Reads two addresses and a job on standard input, and lists the stretch between them.
//! An argument is the level; without one it is the landed one.

use std::io::Read;

use wd16::listing::list;
use wd16::Level;

fn main() -> std::io::Result<()> {
    let mut input = Vec::new();
    std::io::stdin().read_to_end(&mut input)?;
    let level = Level::told(std::env::args().nth(1).as_deref());
    print!("{}", list(level, &input));
    Ok(())
}
