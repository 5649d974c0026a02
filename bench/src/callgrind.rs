//! Instructions, jumps and cache misses, counted by valgrind's callgrind: this program runs itself under it, once for each side of a row.

use core::arch::asm;
use std::env;
use std::process::Command;

/// Callgrind's request to begin or to end collecting: its number is 2 after its tool's base, 'C' 'T'.
const TOGGLE_COLLECT: u64 = (b'C' as u64) << 24 | (b'T' as u64) << 16 | 2;

/// Asks callgrind to begin collecting, or to end. Outside valgrind these instructions do nothing.
pub fn toggle() {
    let request = [TOGGLE_COLLECT, 0, 0, 0, 0, 0];
    // SAFETY: the four turns leave rdi as it was, and the exchange rbx. Valgrind, which knows them, reads the request and sets rdx.
    unsafe {
        asm!(
            "rol rdi, 3",
            "rol rdi, 13",
            "rol rdi, 61",
            "rol rdi, 51",
            "xchg rbx, rbx",
            in("rax") request.as_ptr(),
            inout("rdx") 0_u64 => _,
            options(nostack)
        );
    }
}

/// The instructions that the timed calls of a row take on a side, as the program of valgrind counts them.
pub fn instructions(row: &str, side: &str, calls: usize) -> Result<u64, String> {
    collected(row, side, calls, &[]).map(|counts| counts[0])
}

/// What the timed calls of a row take on a side, as valgrind's models of a predictor and of caches have it.
pub struct Profile {
    pub instructions: u64,
    pub mispredicted: u64,
    /// First-level misses of reads.
    pub misses: u64,
}

/// The profile of a side of a row. Callgrind names 13 events: Ir Dr Dw I1mr D1mr D1mw ILmr DLmr DLmw Bc Bcm Bi Bim.
pub fn profile(row: &str, side: &str, calls: usize) -> Result<Profile, String> {
    let counts = collected(row, side, calls, &["--cache-sim=yes", "--branch-sim=yes"])?;
    let [
        instructions,
        _,
        _,
        _,
        misses,
        _,
        _,
        _,
        _,
        _,
        direct,
        _,
        indirect,
    ] = counts[..]
    else {
        return Err(format!("valgrind counts {} events, not 13", counts.len()));
    };
    Ok(Profile {
        instructions,
        mispredicted: direct + indirect,
        misses,
    })
}

/// The events of the timed calls, in callgrind's order. There is at least one.
fn collected(row: &str, side: &str, calls: usize, words: &[&str]) -> Result<Vec<u64>, String> {
    let program = env::current_exe().map_err(|fault| fault.to_string())?;
    let run = Command::new("valgrind")
        .args(["--tool=callgrind", "--collect-atstart=no"])
        .arg("--callgrind-out-file=/dev/null")
        .args(words)
        .arg(program)
        .args(["--side", side, "--row", row, "--calls", &calls.to_string()])
        .output()
        .map_err(|fault| format!("valgrind: {fault}"))?;
    let said = String::from_utf8_lossy(&run.stderr);
    let collected = said
        .lines()
        .find_map(|line| line.split("Collected :").nth(1));
    let counts = |numbers: &str| {
        let counts = numbers.split_whitespace().map(str::parse);
        counts.collect::<Result<Vec<u64>, _>>().ok()
    };
    collected
        .filter(|_| run.status.success())
        .and_then(counts)
        .filter(|counts| !counts.is_empty())
        .ok_or_else(|| format!("valgrind on {row}, {side}: {said}"))
}
