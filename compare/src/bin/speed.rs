//! Runs the programs of `programs.txt`, and tells where each ends and how fast
//! it got there. An argument takes the place of the list's number of runs; after it, the
//! name of a program has that one run alone, once.
//!
//! Of each program the line `end` has the bench line of the last run, the blanks of
//! all runs and the sum of all bytes of the image, both in eight hex digits; a
//! processor of the same rules prints the same. The line `rate` is the best of
//! five measurements, each from power-up.

use std::time::Instant;

use wd16::bench::line_of;
use wd16::machine::MOST_LINES;
use wd16::programs::{read_programs, Program, LIST};
use wd16::{power_up, run, Level, Ran, Setup};

const MEASUREMENTS: usize = 5;

/// Where a program ends.
struct End {
    last: Ran,
    blanks: u32,
    sum: u32,
}

/// Power-up and all runs of a program; also the seconds that the runs took.
fn measure(program: &Program, runs: usize) -> (End, f64) {
    let lines = program.lines.as_slice();
    let setup = Setup::bench(Level::LANDED);
    let mut image = program.image.clone();
    let state = power_up(&setup, &mut image, &program.map).expect("a good board");
    let mut last = Ran {
        state,
        blanks: 0,
        first: None,
        address: None,
    };
    let mut blanks = 0;
    let start = Instant::now();
    for _ in 0..runs {
        last = run(&setup, last.state, &mut image, &program.map, lines).expect("a good run");
        blanks += u32::from(last.blanks);
    }
    let seconds = start.elapsed().as_secs_f64();
    let sum = image.iter().map(|&byte| u32::from(byte)).sum();
    (End { last, blanks, sum }, seconds)
}

/// Where a program ends, and the seconds of the fastest of so many measurements.
fn best_of(times: usize, program: &Program, runs: usize) -> (End, f64) {
    let (end, first) = measure(program, runs);
    let others = (1..times).map(|_| measure(program, runs).1);
    (end, others.fold(first, f64::min))
}

fn main() {
    let asked: Option<usize> = std::env::args()
        .nth(1)
        .map(|runs| runs.parse().expect("a number of runs"));
    let only = std::env::args().nth(2);
    let times = if only.is_some() { 1 } else { MEASUREMENTS };
    for program in read_programs(LIST) {
        if only.as_ref().is_some_and(|name| *name != program.name) {
            continue;
        }
        let runs = asked.unwrap_or(program.runs);
        let (end, best) = best_of(times, &program, runs);
        let name = &program.name;
        println!(
            "end {name} {} {:08X} {:08X}",
            line_of(Level::LANDED, &end.last),
            end.blanks,
            end.sum
        );
        let steps = runs * MOST_LINES;
        println!(
            "rate {name} {steps} steps, {:.1} million a second",
            steps as f64 / best / 1e6
        );
    }
}
