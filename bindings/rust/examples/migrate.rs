//! A box in the field is updated. Its saved file holds the first layout of the words. The store is converted to the present layout, written beside the file,
//! read back, and converted back; only where that gives the words of the old file again is the update reported as done. The old file stays as it is, so a
//! box that is stopped in between starts from it again. No modem's debt is lost.
//!
//! `cargo run --offline --example migrate [OLD NEW]`: without names it makes an old file first, as a box in the field has it.

use std::error::Error;
use std::fs;
use std::io::{self, Write};
use std::path::{Path, PathBuf};
use std::time::Duration;

use limiter::{Decision, Key, OwnedStore, Rate, Settings, convert_back, convert_forth};

/// What a file begins with: one of the first layout, and one of the present layout.
const OLD_MARK: [u8; 8] = *b"limiter1";
const NEW_MARK: [u8; 8] = *b"limiter2";

type Fault = Box<dyn Error>;

fn main() -> Result<(), Fault> {
    let settings = Settings::new(Rate::per_second(2).burst(4), 2_000);
    let mut names = std::env::args_os().skip(1).map(PathBuf::from);
    if let (Some(old), Some(new)) = (names.next(), names.next()) {
        migrate(settings, &old, &new)?;
        println!("migrated");
        return Ok(());
    }
    let folder = std::env::temp_dir().join(format!("limiter-migrate-{}", std::process::id()));
    fs::create_dir_all(&folder)?;
    let (old, new) = (folder.join("old"), folder.join("new"));

    // The old box: modem 7 has taken all that it may, and the box was stopped.
    let (now, modem) = (Duration::from_secs(1_000), Key::fnv1a(7));
    let mut box_in_the_field = OwnedStore::new(settings)?;
    let granted = box_in_the_field.try_acquire(now, modem, 4)?;
    println!("old box: modem 7 asks for four: {}", told(granted));
    let mut words = vec![0; settings.first_layout_words()?];
    convert_back(settings, box_in_the_field.words(), &mut words)?;
    save(OLD_MARK, settings, &words, &old)?;

    migrate(settings, &old, &new)?;
    println!("migrated");

    // The new box: modem 7 still owes what it had.
    let words = load(NEW_MARK, settings, &new)?;
    let mut store = OwnedStore::resume(settings, words.into_boxed_slice())?;
    let denied = store.try_acquire(now, modem, 1)?;
    println!("new box: modem 7 asks for one: {}", told(denied));

    // An old file that is damaged is refused, and so is one in which a modem stands twice.
    let mut words = load(OLD_MARK, settings, &old)?;
    words[0] = 2;
    words.copy_within(3..9, 9);
    save(OLD_MARK, settings, &words, &old)?;
    println!("modem 7 twice: {}", outcome(migrate(settings, &old, &new)));
    let mut bytes = fs::read(&old)?;
    let middle = bytes.len() / 2;
    bytes[middle] ^= 1;
    replace(&old, &bytes)?;
    println!("a bit flipped: {}", outcome(migrate(settings, &old, &new)));
    fs::remove_dir_all(&folder)?;
    Ok(())
}

/// Converts the store of the old file and writes it to the new one. It is done where the new file, read back and converted back, gives the old words.
fn migrate(settings: Settings, old: &Path, new: &Path) -> Result<(), Fault> {
    let source = load(OLD_MARK, settings, old)?;
    let mut target = vec![0; settings.words()?];
    convert_forth(settings, &source, &mut target)?;
    save(NEW_MARK, settings, &target, new)?;
    let written = load(NEW_MARK, settings, new)?;
    let mut again = vec![0; source.len()];
    convert_back(settings, &written, &mut again)?;
    if again == source {
        Ok(())
    } else {
        Err("the new file does not give the old words again".into())
    }
}

fn outcome(migrated: Result<(), Fault>) -> String {
    migrated.map_or_else(|fault| fault.to_string(), |()| "migrated".to_string())
}

/// What a decision says.
fn told(decision: Decision) -> String {
    match decision {
        Decision::Acquired { .. } => "granted".to_string(),
        Decision::Retry { after, .. } => format!("to be tried again in {after:?}"),
        _ => "never".to_string(),
    }
}

/// FNV-1a: it finds damage, not a forger.
fn checksum(bytes: &[u8]) -> u64 {
    bytes.iter().fold(0xcbf2_9ce4_8422_2325, |sum: u64, &byte| {
        (sum ^ u64::from(byte)).wrapping_mul(0x0100_0000_01b3)
    })
}

/// Writes the mark, the settings, the words and the checksum, each number as eight bytes, lowest first, as the example `save_and_resume` does.
fn save(mark: [u8; 8], settings: Settings, words: &[u64], file: &Path) -> io::Result<()> {
    let numbers = settings.numbers();
    let mut bytes = mark.to_vec();
    bytes.extend(
        numbers
            .iter()
            .chain(words)
            .flat_map(|number| number.to_le_bytes()),
    );
    bytes.extend(checksum(&bytes).to_le_bytes());
    replace(file, &bytes)
}

/// Writes the bytes beside the file and puts them in its place when they are on the disk.
fn replace(file: &Path, bytes: &[u8]) -> io::Result<()> {
    let beside = file.with_extension("part");
    let mut out = fs::File::create(&beside)?;
    out.write_all(bytes)?;
    out.sync_all()?;
    fs::rename(beside, file)
}

/// The words of a file, if it is whole and was saved under these settings.
fn load(mark: [u8; 8], settings: Settings, file: &Path) -> Result<Vec<u64>, Fault> {
    let bytes = fs::read(file)?;
    let (eights, rest) = bytes.as_chunks::<8>();
    let Some((sum, whole)) = eights.split_last() else {
        return Err("no saved store".into());
    };
    if whole.first() != Some(&mark) || !rest.is_empty() {
        return Err("no saved store of this layout".into());
    }
    if u64::from_le_bytes(*sum) != checksum(whole.as_flattened()) {
        return Err("damaged".into());
    }
    let mut numbers = whole[1..].iter().map(|&eight| u64::from_le_bytes(eight));
    let saved = settings.numbers().map(|_| numbers.next());
    if saved != settings.numbers().map(Some) {
        return Err("saved under other settings".into());
    }
    Ok(numbers.collect())
}
