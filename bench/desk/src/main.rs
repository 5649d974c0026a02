//! The desk in Rust: the published limiter behind a front end of the same design as ours (crates/desk, crates/desk_turns), with buffers of the
//! same sizes. It takes the same lines and prints the same answers, but for the numbered refusals: the published limiter has none, so there
//! are none here, and no bound on the memory.

mod lines;
mod print;

use std::fs::File;
use std::io::{self, BufWriter, Read, Write};
use std::os::fd::AsFd;

use published::{Answer, Limiter};

/// The bytes of the input's buffer, and of the output's.
const INPUT: usize = 1_024;
const OUTPUT: usize = 65_536;

fn main() -> io::Result<()> {
    // As files the two have no buffers but those of this program.
    let input = File::from(io::stdin().as_fd().try_clone_to_owned()?);
    let output = File::from(io::stdout().as_fd().try_clone_to_owned()?);
    let mut desk = Desk {
        limiter: None,
        ended: false,
        number: 0,
        output: BufWriter::with_capacity(OUTPUT, output),
    };
    desk.run(input)
}

struct Desk {
    /// None before line 1 is accepted.
    limiter: Option<Limiter>,
    /// Line 1 was not accepted.
    ended: bool,
    /// The number of the last line that was answered.
    number: u64,
    output: BufWriter<File>,
}

impl Desk {
    /// Answers all lines. Every whole line that has been read is answered, and its answer written, before more is read.
    fn run(&mut self, mut input: File) -> io::Result<()> {
        let mut bytes = vec![0; INPUT];
        let mut held = 0;
        while !self.ended {
            let end = held + input.read(&mut bytes[held..])?;
            if end == held {
                // The end of the input ends a line that has begun.
                if held > 0 {
                    self.answer(&bytes[..held])?;
                }
                return self.output.flush();
            }
            let from = self.whole_lines(&bytes[..end])?;
            // One byte more than a line may have is enough of a longer one.
            held = (end - from).min(lines::LONGEST + 1);
            bytes.copy_within(from..from + held, 0);
            self.output.flush()?;
        }
        Ok(())
    }

    /// Answers the lines that end among these bytes, until the run has ended. Tells where the rest begins.
    fn whole_lines(&mut self, bytes: &[u8]) -> io::Result<usize> {
        let mut from = 0;
        while !self.ended
            && let Some(length) = bytes[from..].iter().position(|&byte| byte == b'\n')
        {
            self.answer(&bytes[from..from + length])?;
            from += length + 1;
        }
        Ok(from)
    }

    /// Answers a line, and prints the answer.
    fn answer(&mut self, line: &[u8]) -> io::Result<()> {
        self.number += 1;
        let answer = match &self.limiter {
            Some(limiter) => lines::ask(limiter, line),
            None => self.open(line),
        };
        // Without an answer it is malformed.
        let (code, wait) = answer.unwrap_or((9, 0));
        print::line(&mut self.output, [self.number, code, wait])
    }

    /// Answers line 1: only a settings line opens the desk.
    #[cold]
    fn open(&mut self, line: &[u8]) -> Option<Answer> {
        self.limiter = lines::settings(line);
        self.ended = self.limiter.is_none();
        (!self.ended).then_some((0, 0))
    }
}
