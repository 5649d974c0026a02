//! Modems by hardware address.

use core::fmt;
use core::str::FromStr;
use core::time::Duration;

use limiter_sys::modem;

use crate::answer::{self, Decision, Refusal, Reservation};
use crate::settings::nanos;
use crate::{Key, Store};

/// The hardware address of a network interface: six bytes, in the order in which it is written.
///
/// It is read from text of six pairs of hexadecimal digits, with `:` or `-` between them, and written with `:`:
///
/// ```
/// use limiter::HardwareAddress;
///
/// let address: HardwareAddress = "00:1A:2b:3c:4d:5e".parse()?;
/// assert_eq!(address.octets(), [0x00, 0x1a, 0x2b, 0x3c, 0x4d, 0x5e]);
/// assert_eq!(address.to_string(), "00:1a:2b:3c:4d:5e");
/// # Ok::<(), limiter::AddressError>(())
/// ```
#[derive(Clone, Copy, PartialEq, Eq, PartialOrd, Ord, Hash)]
pub struct HardwareAddress([u8; 6]);

impl HardwareAddress {
    /// The address of these bytes.
    #[must_use]
    pub const fn new(octets: [u8; 6]) -> Self {
        Self(octets)
    }

    /// Its bytes.
    #[must_use]
    pub const fn octets(self) -> [u8; 6] {
        self.0
    }

    /// Whether it is the address of a group: the lowest bit of the first byte is set. A store refuses such an address, as no modem has one.
    #[must_use]
    pub const fn is_group(self) -> bool {
        self.0[0] & 1 == 1
    }

    /// The key that a store gives the modem of this address: for [`Store::available`], [`Store::turned_away`] and [`Store::try_acquire_through`], and to choose
    /// one of several stores by the hash. The library makes both, the hash by FNV-1a over the six bytes, first byte first, and the key as the number with the
    /// first byte highest.
    ///
    /// ```
    /// # use core::time::Duration;
    /// # use limiter::{HardwareAddress, OwnedStore, Rate, Settings};
    /// let mut store = OwnedStore::new(Settings::new(Rate::per_second(2), 100))?;
    /// let (now, modem) = (Duration::from_secs(5), HardwareAddress::new([0, 0x1a, 0x2b, 0x3c, 0x4d, 0x5e]));
    /// store.try_acquire_modem(now, modem, 1)?;
    /// assert_eq!(store.available(now, modem.key()?)?, 1);
    /// assert_eq!(store.turned_away(modem.key()?)?, 0);
    /// # Ok::<(), limiter::Refusal>(())
    /// ```
    ///
    /// # Errors
    ///
    /// [`Refusal::GroupAddress`]: no modem has the address of a group.
    pub fn key(self) -> Result<Key, Refusal> {
        answer::key(modem::identity(&self.0))
    }
}

impl From<[u8; 6]> for HardwareAddress {
    fn from(octets: [u8; 6]) -> Self {
        Self(octets)
    }
}

impl From<HardwareAddress> for [u8; 6] {
    fn from(address: HardwareAddress) -> Self {
        address.0
    }
}

impl TryFrom<&[u8]> for HardwareAddress {
    type Error = AddressError;

    fn try_from(bytes: &[u8]) -> Result<Self, AddressError> {
        let length = AddressError::Length { bytes: bytes.len() };
        bytes.try_into().map(Self).map_err(|_| length)
    }
}

impl AsRef<[u8]> for HardwareAddress {
    fn as_ref(&self) -> &[u8] {
        &self.0
    }
}

impl FromStr for HardwareAddress {
    type Err = AddressError;

    /// Six pairs of hexadecimal digits, of either case, with `:` between each two pairs, or with `-` between each two.
    fn from_str(text: &str) -> Result<Self, AddressError> {
        let mut octets = [0; 6];
        let mut pairs = text.split(if text.contains('-') { '-' } else { ':' });
        for octet in &mut octets {
            *octet = pairs.next().and_then(byte).ok_or(AddressError::Text)?;
        }
        match pairs.next() {
            None => Ok(Self(octets)),
            Some(_) => Err(AddressError::Text),
        }
    }
}

/// The byte that two hexadecimal digits are.
fn byte(pair: &str) -> Option<u8> {
    let digits = pair.len() == 2 && pair.bytes().all(|digit| digit.is_ascii_hexdigit());
    digits.then(|| u8::from_str_radix(pair, 16).ok())?
}

impl fmt::Display for HardwareAddress {
    fn fmt(&self, f: &mut fmt::Formatter<'_>) -> fmt::Result {
        let [first, rest @ ..] = self.0;
        write!(f, "{first:02x}")?;
        rest.into_iter()
            .try_for_each(|octet| write!(f, ":{octet:02x}"))
    }
}

impl fmt::Debug for HardwareAddress {
    fn fmt(&self, f: &mut fmt::Formatter<'_>) -> fmt::Result {
        write!(f, "HardwareAddress({self})")
    }
}

/// Why something is no hardware address.
#[non_exhaustive]
#[derive(Debug, Clone, Copy, PartialEq, Eq, Hash)]
pub enum AddressError {
    /// The bytes are not six.
    #[non_exhaustive]
    Length {
        /// How many they are.
        bytes: usize,
    },
    /// The text is not six pairs of hexadecimal digits with `:` between them, or with `-`.
    Text,
}

impl fmt::Display for AddressError {
    fn fmt(&self, f: &mut fmt::Formatter<'_>) -> fmt::Result {
        match self {
            Self::Length { bytes } => write!(f, "an address has six bytes, not {bytes}"),
            Self::Text => f.write_str("an address is written aa:bb:cc:dd:ee:ff"),
        }
    }
}

impl core::error::Error for AddressError {}

/// Modems by hardware address. The hash of a modem is FNV-1a over the six bytes, first byte first, and its key the number with the first byte highest; the
/// library makes both.
impl<W: AsRef<[u64]>, C> Store<W, C> {
    /// What the bucket of `modem` would answer to a try; it says nothing of room for a new modem.
    ///
    /// # Errors
    ///
    /// As [`Store::try_acquire_modem`].
    pub fn peek_modem(
        &self,
        now: Duration,
        modem: HardwareAddress,
        cost: u32,
    ) -> Result<Decision, Refusal> {
        let reply = modem::peek(self.raw, self.words(), nanos(now), &modem.0, cost);
        answer::decision(reply)
    }
}

impl<W: AsRef<[u64]> + AsMut<[u64]>, C> Store<W, C> {
    /// Takes `cost` tokens for `modem` if they are there now: [`Store::try_acquire`] for the modem of this address.
    ///
    /// # Errors
    ///
    /// The address of a group, before anything else; then as [`Store::try_acquire`].
    pub fn try_acquire_modem(
        &mut self,
        now: Duration,
        modem: HardwareAddress,
        cost: u32,
    ) -> Result<Decision, Refusal> {
        let words = self.words.as_mut();
        answer::decision(modem::try_acquire(
            self.raw,
            words,
            nanos(now),
            &modem.0,
            cost,
        ))
    }

    /// Takes `cost` tokens for `modem` if they will be there within `max_wait`: [`Store::reserve`] for the modem of this address.
    ///
    /// # Errors
    ///
    /// The address of a group, before anything else; then as [`Store::reserve`].
    pub fn reserve_modem(
        &mut self,
        now: Duration,
        modem: HardwareAddress,
        cost: u32,
        max_wait: Duration,
    ) -> Result<Option<Reservation>, Refusal> {
        let words = self.words.as_mut();
        let (now, max_wait) = (nanos(now), nanos(max_wait));
        answer::reservation(modem::reserve(
            self.raw, words, now, &modem.0, cost, max_wait,
        ))
    }

    /// Gives `cost` tokens back to `modem`; whether it was known.
    ///
    /// # Errors
    ///
    /// The address of a group, before anything else; then as [`Store::refund`].
    pub fn refund_modem(&mut self, modem: HardwareAddress, cost: u32) -> Result<bool, Refusal> {
        answer::known(modem::refund(self.raw, self.words.as_mut(), &modem.0, cost))
    }

    /// Forgets `modem` and the debt that is remembered for its hash; whether there was either.
    ///
    /// # Errors
    ///
    /// As [`Store::refund_modem`].
    pub fn remove_modem(&mut self, modem: HardwareAddress) -> Result<bool, Refusal> {
        answer::known(modem::remove(self.raw, self.words.as_mut(), &modem.0))
    }
}
