//! A store in a file: what `save_and_resume` and `morning_shift` have in common. The file holds a mark, the settings, the words and a checksum over all.
//! bindings/c/save.c reads and writes the same file.

use std::error::Error;
use std::fs;
use std::io::{self, Write};
use std::path::Path;

use limiter::{OwnedStore, Settings};

pub type Fault = Box<dyn Error>;

/// What the file begins with. Another mark means another form of the file. A file that version 0.5 saved has this mark and fewer words: the library refuses it.
const MARK: &[u8; 8] = b"limiter2";

/// FNV-1a. A change within one byte always changes it; any other change does but for one case in 2^64. It has no secret: it finds damage, not a forger.
fn checksum(bytes: &[u8]) -> u64 {
    bytes.iter().fold(0xcbf2_9ce4_8422_2325, |sum: u64, &byte| {
        (sum ^ u64::from(byte)).wrapping_mul(0x0100_0000_01b3)
    })
}

/// Writes the mark, the settings, the words and the checksum, each number as eight bytes, lowest first.
pub fn save(store: &OwnedStore, file: &Path) -> io::Result<()> {
    let numbers = store.settings().numbers();
    let all = numbers.iter().chain(store.words());
    let mut bytes = MARK.to_vec();
    bytes.extend(all.flat_map(|number| number.to_le_bytes()));
    bytes.extend(checksum(&bytes).to_le_bytes());
    replace(file, &bytes)
}

/// Writes the bytes beside the file and puts them in its place when they are on the disk, so that a server that is stopped in between leaves the file as it
/// was.
pub fn replace(file: &Path, bytes: &[u8]) -> io::Result<()> {
    let beside = file.with_extension("new");
    let mut out = fs::File::create(&beside)?;
    out.write_all(bytes)?;
    out.sync_all()?;
    fs::rename(beside, file)
}

/// The store of a file, if it is whole and was saved under these settings.
pub fn resume(settings: Settings, file: &Path) -> Result<OwnedStore, Fault> {
    let bytes = fs::read(file)?;
    let (eights, rest) = bytes.as_chunks::<8>();
    let Some((sum, whole)) = eights.split_last() else {
        return Err("no saved store".into());
    };
    if whole.first() != Some(MARK) || !rest.is_empty() {
        return Err("no saved store".into());
    }
    if u64::from_le_bytes(*sum) != checksum(whole.as_flattened()) {
        return Err("damaged".into());
    }
    let mut numbers = whole[1..].iter().map(|&eight| u64::from_le_bytes(eight));
    let saved = settings.numbers().map(|_| numbers.next());
    if saved != settings.numbers().map(Some) {
        return Err("saved under other settings".into());
    }
    // The last check is the library's: the settings, the number of words, and each shard's count of slots.
    Ok(OwnedStore::resume(settings, numbers.collect())?)
}
