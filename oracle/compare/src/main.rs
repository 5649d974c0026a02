//! Our limiter and the Rust in one process: every answer and every word after every call, on reproducible random traces.
//! README.md of the oracle says what is compared; `--help` how to run it.

mod branches;
mod by_address;
mod call;
mod check;
mod fault;
mod generate;
mod given;
mod lent;
mod library;
mod options;
mod random;
mod records;
mod reply;
mod rules;
mod run;

use std::process::ExitCode;

use options::options;
use run::Run;

fn main() -> ExitCode {
    let options = match options() {
        Ok(options) => options,
        Err(fault) => {
            eprint!("{fault}");
            return ExitCode::from(2);
        }
    };
    fault::watch(options.seed);
    let mut run = Run::new(options);
    let ended = run.all();
    run.end(ended)
}
