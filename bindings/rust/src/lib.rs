//! A per-key limiter store in memory of a fixed size: a safe interface of the verified library `liblimiter.a`.
//!
//! Every key has a token bucket. The store answers whether a request for some tokens is granted now, later, or never. It has no lock and no clock of its
//! own, and takes no memory after set-up: each call gets the moment and the key with its hash. [`Key::fnv1a`] hashes for callers who have no hash of their
//! own, and the library hashes hardware addresses.
//!
//! ```
//! use core::time::Duration;
//! use limiter::{Key, OwnedStore, Rate, Settings};
//!
//! // 2 tokens a second, at most 4, for up to 100 modems.
//! let settings = Settings::new(Rate::per_second(2).burst(4), 100);
//! let mut store = OwnedStore::new(settings)?;
//!
//! let (now, modem) = (Duration::from_secs(5), Key::fnv1a(7));
//! assert!(store.try_acquire(now, modem, 4)?.is_acquired());
//! let decision = store.try_acquire(now, modem, 1)?;
//! assert_eq!(decision.retry_after(), Some(Duration::from_millis(500)));
//! assert_eq!(decision.moment(), Some(Duration::from_millis(5_500)));
//! # Ok::<(), limiter::Refusal>(())
//! ```
//!
//! # Modems by hardware address
//!
//! Five calls take a [`HardwareAddress`] in place of a [`Key`]: [`try_acquire_modem`](Store::try_acquire_modem),
//! [`reserve_modem`](Store::reserve_modem), [`peek_modem`](Store::peek_modem), [`refund_modem`](Store::refund_modem) and
//! [`remove_modem`](Store::remove_modem). The library hashes the address, and makes its key. [`HardwareAddress::key`] gives both, for the other calls.
//!
//! ```
//! # use core::time::Duration;
//! # use limiter::{HardwareAddress, OwnedStore, Rate, Refusal, Settings};
//! let mut store = OwnedStore::new(Settings::new(Rate::per_second(2), 100))?;
//! let modem: HardwareAddress = "00:1a:2b:3c:4d:5e".parse()?;
//! assert!(store.try_acquire_modem(Duration::from_secs(5), modem, 1)?.is_acquired());
//!
//! let group: HardwareAddress = "01:00:5e:00:00:01".parse()?;
//! let refused = store.try_acquire_modem(Duration::from_secs(5), group, 1);
//! assert_eq!(refused, Err(Refusal::GroupAddress));
//! # Ok::<(), Box<dyn core::error::Error>>(())
//! ```
//!
//! # Limits above the keys
//!
//! A fibre node must not flood its hub. A [`ClassTable`] has up to 64 classes, each with a rate, a bucket and perhaps a parent: a node, and the hub above it. A
//! store that is set up with one ([`OwnedStore::with_classes`], [`Store::set_up_with`]) carries it. A modem asks through its node by
//! [`try_acquire_through`](Store::try_acquire_through): it is granted if its own bucket, the node's and the hub's grant.
//!
//! # Who is still in debt
//!
//! A store that has no slot for a new key forgets another one, and keeps its debt where its bucket was not full. [`Store::debts`] lists the debts of one shard
//! that have not settled into records that are lent to it, and [`Store::all_debts`], with the feature `alloc`, those of all shards.
//!
//! # Whose words
//!
//! A [`Store`] works on words that it owns ([`OwnedStore`]), on words that are lent to it ([`LentStore`]), or, for looks alone, on words that are
//! lent to it to read ([`Look`]). [`Settings::words`] says how many words it takes.
//!
//! # Threads
//!
//! A call that changes the store takes `&mut self`, a look `&self`. Behind an `RwLock` writers try, reserve and refund, and readers look side
//! by side:
//!
//! ```
//! # use core::time::Duration;
//! # use limiter::{Key, OwnedStore, Rate, Settings};
//! use std::sync::RwLock;
//!
//! let store = RwLock::new(OwnedStore::new(Settings::new(Rate::per_second(2), 100))?);
//! let (now, modem) = (Duration::from_secs(5), Key::fnv1a(7));
//! let decision = store.write().expect("no writer panicked").try_acquire(now, modem, 1)?;
//! let tokens = store.read().expect("no writer panicked").available(now, modem)?;
//! # assert!(decision.is_acquired() && tokens == 1);
//! # Ok::<(), limiter::Refusal>(())
//! ```
//!
//! # Room
//!
//! bindings/README.md ("Shards") says how many shards to ask for, and how many [`max_keys`](Settings::max_keys). A modem that finds its shard full is not
//! lost: another is forgotten for it, whose debt is kept, or it has to ask again later.
//!
//! # Features
//!
//! `alloc`, on by default, has [`OwnedStore`] and [`Store::all_debts`]. Without it the crate needs no allocator; it never needs `std`.

#![no_std]

#[cfg(feature = "alloc")]
extern crate alloc;

mod address;
mod answer;
mod classes;
mod debts;
mod converter;
mod desk_line;
mod key;
mod settings;
mod store;

pub use address::{AddressError, HardwareAddress};
pub use answer::{Decision, Refusal, Reservation};
pub use classes::{Class, ClassNumber, ClassTable};
pub use debts::Debt;
pub use converter::{convert_back, convert_forth};
pub use desk_line::DeskLine;
pub use key::Key;
pub use settings::{Rate, Settings, WhenFull};
#[cfg(feature = "alloc")]
pub use store::OwnedStore;
pub use store::{LentStore, Look, NoClasses, Store};
