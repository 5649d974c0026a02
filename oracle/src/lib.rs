//! The oracle: the published Rust of the per-modem limiter store (docs/src), built over the token bucket of
//! document 01, with that page's numbered refusals in front. It answers as that page numbers answers, and shows the
//! store in that page's word layout, so that another build of the store can be held against it call by call.
//!
//! ```text
//! let rate = Rate { amount: 2, period: 1_000_000_000, burst: Some(4), initial: None };
//! let settings = Settings { rate: Some(rate), max_keys: 2, shards: 1, idle: None, when_full: WhenFull::RefuseNew };
//! let (limiter, answer) = Limiter::set_up(settings, 32);         // 0: accepted
//! limiter.try_(0, Key { hash: 7, key: 7 }, 4);                   // 0 0: granted
//! limiter.try_(0, Key { hash: 7, key: 7 }, 1);                   // 1 500000000: retry
//! limiter.turned_away(Key { hash: 7, key: 7 });                  // 0 1: one try turned away
//! limiter.words();                                               // 32 words
//! ```
//!
//! - [`Limiter`]: the operations, with refusals, answers and words, and the count of 02, request 8, and the list of request 12, which the published Rust lacks.
//! - [`OneShard`]: one shard, with the published parts called by themselves.
//! - [`refusals`]: the numbered refusals over any words at all.
//! - [`Shape`]: how settings divide a memory; [`layout`]: where its words stand.
//! - [`PerKey`], [`Eviction`], [`WhenFull`], [`Decision`]: the published types.

pub mod layout;
pub mod refusals;

mod key;
mod limiter;
mod settings;
mod shape;
mod tally;
mod throttle;

// The published files name each other from the crate's root.
use throttle::{decision, error, eviction, perkey, store};

pub use decision::Decision;
pub use error::ThrottleError;
pub use eviction::{DEFAULT_MAX_KEYS, Eviction, WhenFull};
pub use key::Key;
pub use limiter::{Answer, Limiter};
pub use perkey::{PerKey, PerKeyBuilder};
pub use settings::{Rate, Settings};
pub use shape::Shape;
pub use store::MAX_SHARDS;
pub use store::one_shard::{LoadError, OneShard, Op, Outcome};
