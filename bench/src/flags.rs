//! The words of the command line.

/// Whether a flag is there.
pub fn given(flag: &str) -> bool {
    std::env::args().any(|word| word == flag)
}

/// The word after a flag.
pub fn word(flag: &str) -> Option<String> {
    std::env::args().skip_while(|word| word != flag).nth(1)
}

/// The number after a flag.
pub fn number(flag: &str) -> Option<usize> {
    word(flag).and_then(|word| word.parse().ok())
}
