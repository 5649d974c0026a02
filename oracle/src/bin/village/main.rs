//! A village that comes up after a power cut, by a retry loop over the published Rust: what the program `outage` has to print, written from document 02
//! (request 13) and the lines of document 01, and not from our code.
//!
//! ```text
//! village                               reads an input on standard input, and prints what `outage` has to print for it
//! village PROGRAM VILLAGES SEED         runs PROGRAM on random villages, and compares
//! ```

mod lines;
mod random;
mod run;

use std::io::{self, Read, Write};
use std::process::{Command, ExitCode, Stdio};

fn main() -> ExitCode {
    let arguments: Vec<String> = std::env::args().skip(1).collect();
    let done = match arguments.as_slice() {
        [] => expect(),
        [program, villages, seed] => match (villages.parse(), seed.parse()) {
            (Ok(villages), Ok(seed)) => compare(program, villages, seed),
            _ => Err("village PROGRAM VILLAGES SEED".into()),
        },
        _ => Err("village, or village PROGRAM VILLAGES SEED".into()),
    };
    match done {
        Ok(()) => ExitCode::SUCCESS,
        Err(message) => {
            eprintln!("village: {message}");
            ExitCode::FAILURE
        }
    }
}

/// Prints what the program has to print for standard input.
fn expect() -> Result<(), String> {
    let mut input = Vec::new();
    io::stdin()
        .read_to_end(&mut input)
        .map_err(|error| error.to_string())?;
    io::stdout()
        .write_all(run::printed(&input).as_bytes())
        .map_err(|error| error.to_string())
}

/// Runs the program on random villages, up to the first that differs.
fn compare(program: &str, villages: u64, seed: u64) -> Result<(), String> {
    let mut counts = random::Counts::default();
    for number in 0..villages {
        let input = random::village(seed.wrapping_add(number));
        let wanted = run::printed(&input);
        let answers = answers(program, &input).map_err(|error| format!("{program}: {error}"))?;
        if answers != wanted.as_bytes() {
            return Err(format!(
                "seed {}: the program and the Rust differ\n{}\nwanted:\n{wanted}\nanswered:\n{}",
                seed.wrapping_add(number),
                String::from_utf8_lossy(&input),
                String::from_utf8_lossy(&answers)
            ));
        }
        counts.add(&wanted);
    }
    println!("{villages} villages as the Rust has them: {counts}");
    counts.missing().map_or(Ok(()), |code| {
        Err(format!("no line was answered with {code}"))
    })
}

/// What the program prints for an input.
fn answers(program: &str, input: &[u8]) -> io::Result<Vec<u8>> {
    let mut child = Command::new(program)
        .stdin(Stdio::piped())
        .stdout(Stdio::piped())
        .stderr(Stdio::null())
        .spawn()?;
    // Answers wait in the pipe, which holds more than any village has. A program that has ended reads no more.
    if let Some(mut lines) = child.stdin.take()
        && let Err(error) = lines.write_all(input)
        && error.kind() != io::ErrorKind::BrokenPipe
    {
        return Err(error);
    }
    Ok(child.wait_with_output()?.stdout)
}
