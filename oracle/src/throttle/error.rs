//! The one error of the published error.rs that perkey.rs gives: the builder was given what cannot work.

use core::fmt;

/// Why a limiter could not be built.
#[non_exhaustive]
#[derive(Debug, Clone, Copy, PartialEq, Eq, Hash)]
pub enum ThrottleError {
    /// A builder was given a configuration that cannot work.
    InvalidConfig {
        /// The constraint the configuration violated.
        reason: &'static str,
    },
}

impl fmt::Display for ThrottleError {
    fn fmt(&self, f: &mut fmt::Formatter<'_>) -> fmt::Result {
        match self {
            Self::InvalidConfig { reason } => write!(f, "invalid limiter configuration: {reason}"),
        }
    }
}

impl std::error::Error for ThrottleError {}
