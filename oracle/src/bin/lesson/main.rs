//! Random lessons, as a trainer writes them, and what the program `lesson` has to make of them. The generator chooses what a line means and then how to
//! write it, so it knows the desk lines without reading the lesson. It is written from what docs/DESK.md says of lessons, and not from our code.
//!
//! ```text
//! lesson SEED                           prints a random lesson, and on standard error what has to become of it
//! lesson LESSON DESK LESSONS SEED       runs the program LESSON on random lessons and compares; DESK has to read every line that is written
//! ```

mod forms;
mod lines;
mod random;

use std::collections::BTreeSet;
use std::io::{self, Write};
use std::process::{Command, ExitCode, Output, Stdio};
use std::thread;

use lines::Lesson;

fn main() -> ExitCode {
    let arguments: Vec<String> = std::env::args().skip(1).collect();
    let numbers: Option<Vec<u64>> = arguments
        .iter()
        .skip_while(|word| word.parse::<u64>().is_err())
        .map(|word| word.parse().ok())
        .collect();
    let done = match (arguments.as_slice(), numbers.as_deref()) {
        ([_], Some([seed])) => show(*seed),
        ([program, desk, _, _], Some([lessons, seed])) => compare(program, desk, *lessons, *seed),
        _ => Err("lesson SEED, or lesson LESSON DESK LESSONS SEED".into()),
    };
    match done {
        Ok(()) => ExitCode::SUCCESS,
        Err(message) => {
            eprintln!("lesson: {message}");
            ExitCode::FAILURE
        }
    }
}

/// Prints a lesson.
fn show(seed: u64) -> Result<(), String> {
    let lesson = lines::lesson(seed);
    io::stdout()
        .write_all(&lesson.text)
        .map_err(|error| error.to_string())?;
    eprintln!("{}", lesson.written);
    eprintln!("wrong: {:?}, earlier: {:?}", lesson.wrong, lesson.earlier);
    Ok(())
}

/// Runs the programs on random lessons, up to the first that differs.
fn compare(program: &str, desk: &str, lessons: u64, seed: u64) -> Result<(), String> {
    let [mut lines, mut wrong, mut earlier] = [0; 3];
    for number in 0..lessons {
        let lesson = lines::lesson(seed.wrapping_add(number));
        judge(program, desk, &lesson).map_err(|message| {
            let text = String::from_utf8_lossy(&lesson.text).into_owned();
            format!("seed {}: {message}\n{text}", seed.wrapping_add(number))
        })?;
        lines += lesson.written.lines().count();
        wrong += lesson.wrong.len();
        earlier += lesson.earlier.len();
    }
    println!(
        "{lessons} lessons: {lines} lines written, {wrong} wrong lines and {earlier} earlier moments told, and nothing else"
    );
    if wrong == 0 || earlier == 0 {
        return Err("no line was wrong, or none earlier".into());
    }
    Ok(())
}

/// One lesson: every line that is written, every line that is told, and no other; and the desk reads what was written.
fn judge(program: &str, desk: &str, lesson: &Lesson) -> Result<(), String> {
    let made = run(program, &lesson.text)?;
    if made.stdout != lesson.written.as_bytes() {
        return Err(format!(
            "wanted:\n{}\nwritten:\n{}",
            lesson.written,
            String::from_utf8_lossy(&made.stdout)
        ));
    }
    let said = String::from_utf8_lossy(&made.stderr).into_owned();
    let told = numbers_told(&said);
    let wanted: BTreeSet<u64> = lesson.wrong.union(&lesson.earlier).copied().collect();
    if told != wanted {
        return Err(format!("wanted lines {wanted:?} to be told, told:\n{said}"));
    }
    let answers = run(desk, &made.stdout)?.stdout;
    let answers = String::from_utf8_lossy(&answers).into_owned();
    if let Some(line) = answers.lines().find(|line| line.ends_with(" 9 0")) {
        return Err(format!("the desk does not read a line: {line}"));
    }
    Ok(())
}

/// The numbers of the lines that are told of: `lesson: line N` begins what is told.
fn numbers_told(said: &str) -> BTreeSet<u64> {
    let of_line = |line: &str| {
        let rest = line.strip_prefix("lesson: line ")?;
        rest.split(|byte: char| !byte.is_ascii_digit())
            .next()?
            .parse()
            .ok()
    };
    said.lines().filter_map(of_line).collect()
}

/// Runs a program on some input. Both pipes are emptied while the input is written.
fn run(program: &str, input: &[u8]) -> Result<Output, String> {
    let mut child = Command::new(program)
        .stdin(Stdio::piped())
        .stdout(Stdio::piped())
        .stderr(Stdio::piped())
        .spawn()
        .map_err(|error| format!("{program}: {error}"))?;
    let mut pipe = child.stdin.take().ok_or("no pipe")?;
    let input = input.to_vec();
    let writing = thread::spawn(move || pipe.write_all(&input));
    let output = child
        .wait_with_output()
        .map_err(|error| format!("{program}: {error}"))?;
    // A program that has ended reads no more.
    let _ = writing.join();
    Ok(output)
}
