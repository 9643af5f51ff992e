//! A program that serves calls on its standard input and output (c/serve.c), and programs
//! that read all their input and print.
//!
//! A request: a byte with the length of the function's name, the name, then its arguments:
//! a buffer is its length in elements (four bytes, low byte first) and its elements, a number
//! is four bytes. An answer: the number that was returned, then the buffers as they are after
//! the call. What the buffers are is in abi.rs, and which of them a function takes is here.

use std::io::{Read, Result, Write};
use std::process::{Child, Command, Stdio};

use crate::abi::{Call, Interface};
use crate::level::{Level, Wish};

/// A program, with its input and output as pipes.
fn started(command: &str) -> Result<Child> {
    let mut words = command.split_whitespace();
    Command::new(words.next().unwrap_or_default())
        .args(words)
        .stdin(Stdio::piped())
        .stdout(Stdio::piped())
        .spawn()
}

/// What a program prints when it is given this input.
pub fn printed(command: &str, input: &[u8]) -> Result<Vec<u8>> {
    let mut child = started(command)?;
    if let Some(mut pipe) = child.stdin.take() {
        // A program that refuses early may close its input before all is written.
        let _ = pipe.write_all(input);
    }
    Ok(child.wait_with_output()?.stdout)
}

/// The serving program, whose interface is the one of this level.
pub struct Served {
    child: Child,
    level: Level,
}

/// An argument: a buffer of the call by its place, or a word of one, by its place too, as a number.
#[derive(Clone, Copy)]
enum Argument {
    Buffer(usize),
    Word(usize, usize),
}

use Argument::{Buffer, Word};

/// The function of a call, and its arguments in their order.
fn function(call: Call, level: Level) -> (&'static str, Vec<Argument>) {
    let settings = level.has(Wish::BlockMoves).then_some(Buffer(5));
    let (name, first, last): (_, &[usize], Option<Argument>) = match call {
        Call::PowerUp => ("wd16_power_up", &[0, 2, 3], None),
        Call::Step => ("wd16_step", &[0, 2, 3], Some(Word(4, 0))),
        Call::Run => ("wd16_run", &[0, 1, 2, 3], Some(Buffer(4))),
        Call::WriteText => return ("wd16_write_text", [0, 1, 2].map(Buffer).to_vec()),
        Call::ReadText => return ("wd16_read_text", [0, 1, 2].map(Buffer).to_vec()),
        Call::Assemble => return ("wd16_assemble", [0, 1, 2].map(Buffer).to_vec()),
        Call::CheckTrace => return ("wd16_check_trace", [0, 1, 2].map(Buffer).to_vec()),
        Call::Scan => {
            return (
                "wd16_scan",
                [0, 1, 2, 3, 5, 4, 6, 7, 8].map(Buffer).to_vec(),
            )
        }
        Call::Report => return ("wd16_report", [0, 1, 2].map(Buffer).to_vec()),
        Call::RunSame => {
            let buffers = [0, 1, 2, 3, 5].map(Buffer).into_iter();
            return (
                "wd16_run_same",
                buffers.chain([Word(4, 0), Word(4, 1)]).collect(),
            );
        }
        Call::RunUntil => {
            let buffers = [0, 1, 2, 3, 5, 4].map(Buffer).into_iter();
            return ("wd16_run_until", buffers.chain([Word(6, 0)]).collect());
        }
        Call::ListLine => {
            let arguments = [
                Buffer(0),
                Buffer(1),
                Word(2, 0),
                Word(2, 1),
                Buffer(3),
                Buffer(4),
            ];
            return ("wd16_list_line", arguments.to_vec());
        }
        Call::ReadJob => return ("wd16_read_job", [0, 1, 2, 3, 4].map(Buffer).to_vec()),
        Call::Labels => return ("wd16_labels", [0, 1, 2].map(Buffer).to_vec()),
    };
    let buffers = first.iter().map(|&at| Buffer(at));
    (name, buffers.chain(settings).chain(last).collect())
}

impl Served {
    pub fn start(command: &str, level: Level) -> Result<Served> {
        let child = started(command)?;
        Ok(Served { child, level })
    }

    /// The request, and the places of the buffers that come back.
    fn request(&self, call: Call, buffers: &[Vec<u8>]) -> (Vec<u8>, Vec<usize>) {
        let sizes = call.elements(self.level);
        let (name, arguments) = function(call, self.level);
        let mut request = vec![name.len() as u8];
        request.extend(name.bytes());
        let mut back = Vec::new();
        for argument in arguments {
            match argument {
                Buffer(at) => {
                    request.extend(((buffers[at].len() / sizes[at]) as u32).to_le_bytes());
                    request.extend(&buffers[at]);
                    back.push(at);
                }
                Word(at, place) => {
                    request.extend([buffers[at][2 * place], buffers[at][2 * place + 1], 0, 0])
                }
            }
        }
        (request, back)
    }

    fn exchange(&mut self, call: Call, buffers: &mut [Vec<u8>]) -> Result<u8> {
        let (request, back) = self.request(call, buffers);
        let input = self.child.stdin.as_mut().expect("a pipe");
        input.write_all(&request)?;
        input.flush()?;
        let output = self.child.stdout.as_mut().expect("a pipe");
        let mut number = [0];
        output.read_exact(&mut number)?;
        for at in back {
            output.read_exact(&mut buffers[at])?;
        }
        Ok(number[0])
    }
}

impl Interface for Served {
    fn call(&mut self, call: Call, buffers: &mut [Vec<u8>]) -> u8 {
        self.exchange(call, buffers)
            .expect("the server answers each call")
    }
}
