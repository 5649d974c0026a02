//! The interface as it is declared here, against the library and against the C header.

use core::ptr::{null, null_mut};

use limiter_sys::*;

const HEADER: &str = include_str!("../../../c/limiter.h");

/// The words of a store for one key.
const ONE: usize = 19;
/// 2 tokens a second, one key, one shard.
const SMALL: LimiterSettings = LimiterSettings {
    period: 1_000_000_000,
    max_keys: 1,
    shards: 1,
    idle: 0,
    closed: 0,
    amount: 2,
    has_burst: 0,
    burst: 0,
    has_initial: 0,
    initial: 0,
    has_idle: 0,
    forget_debt: 0,
    classes: 0,
};

/// A class of 2 tokens a second.
const CLASS: LimiterClass = LimiterClass {
    amount: 2,
    period: 1_000_000_000,
    has_burst: 0,
    burst: 0,
    has_parent: 0,
    parent: 0,
};

/// The nanoseconds of a token.
const HALF: u64 = 500_000_000;

const fn reply(code: u64, number: u64, moment: u64) -> LimiterReply {
    LimiterReply {
        code,
        number,
        moment,
    }
}

#[test]
fn no_words_may_be_null() {
    // SAFETY: no words are lent.
    let replies = unsafe {
        [
            limiter_set_up(SMALL, null_mut(), 0),
            limiter_try(SMALL, null_mut(), 0, 0, 7, 7, 1),
            limiter_reserve(SMALL, null_mut(), 0, 0, 7, 7, 1, 0),
            limiter_peek(SMALL, null(), 0, 0, 7, 7, 1),
            limiter_available(SMALL, null(), 0, 0, 7, 7),
            limiter_turned_away(SMALL, null(), 0, 7, 7),
            limiter_refund(SMALL, null_mut(), 0, 7, 7, 1),
            limiter_remove(SMALL, null_mut(), 0, 7, 7),
            limiter_clear(SMALL, null_mut(), 0),
            limiter_length(SMALL, null(), 0),
            classes::limiter_table_set_up(SMALL, null(), 0, null_mut(), 0),
            classes::limiter_table_clear(SMALL, null(), 0, null_mut(), 0),
            classes::limiter_table_try(SMALL, null(), 0, null_mut(), 0, 0, 7, 7, 0, 1),
            debts::limiter_debts(SMALL, null(), 0, 0, 0, null_mut(), 0),
            converter::limiter_convert_forth(SMALL, null(), 0, null_mut(), 0),
            converter::limiter_convert_back(SMALL, null(), 0, null_mut(), 0),
        ]
    };
    let refused = reply(LIMITER_BAD_MEMORY, 0, 0);
    assert_eq!(replies, [refused; 16]);
}

/// A table is words, six a class; words past a multiple of six are not read. The class's own words stand after the shards: shortfall and stamp.
#[test]
fn a_table_is_words() {
    const WITH_ONE: usize = ONE + 2;
    let (mut words, now) = ([7; WITH_ONE], 5_000_000_000);
    let mut table = [u64::MAX; classes::CLASS_WORDS + 5];
    table[..classes::CLASS_WORDS].copy_from_slice(&CLASS.words());
    for table in [&table[..], &table[..classes::CLASS_WORDS]] {
        let done = classes::set_up(SMALL, table, &mut words);
        assert_eq!((done, words), (reply(LIMITER_DONE, 0, 0), [0; WITH_ONE]));
        let granted = classes::try_acquire(SMALL, table, &mut words, now, 7, 7, 0, 1);
        assert_eq!(granted, reply(LIMITER_DONE, 0, now));
        assert_eq!(words[ONE..], [1_000_000_000, now]);
        let done = classes::clear(SMALL, table, &mut words);
        assert_eq!((done, words), (reply(LIMITER_DONE, 0, 0), [0; WITH_ONE]));
    }
    // Five words are no class.
    let none = &table[..5];
    assert_eq!(
        classes::set_up(SMALL, none, &mut words),
        reply(LIMITER_BAD_MEMORY, 0, 0)
    );
    assert_eq!(
        classes::set_up(SMALL, none, &mut words[..ONE]),
        reply(LIMITER_DONE, 0, 0)
    );
}

#[test]
fn a_reply_is_three_numbers() {
    let (mut words, now) = ([0; ONE], 5_000_000_000);
    assert_eq!(slices::set_up(SMALL, &mut words), reply(LIMITER_DONE, 0, 0));
    let granted = slices::try_acquire(SMALL, &mut words, now, 7, 7, 2);
    assert_eq!(granted, reply(LIMITER_DONE, 0, now));
    let retry = slices::peek(SMALL, &words, now, 7, 7, 1);
    assert_eq!(retry, reply(LIMITER_RETRY, HALF, now + HALF));
    assert_eq!(slices::try_acquire(SMALL, &mut words, now, 7, 7, 1), retry);
    let times = slices::turned_away(SMALL, &words, 7, 7);
    assert_eq!(times, reply(LIMITER_DONE, 1, 0));
    let reserved = slices::reserve(SMALL, &mut words, now, 7, 7, 1, HALF);
    assert_eq!(reserved, reply(LIMITER_DONE, HALF, now + HALF));
    assert_eq!(slices::length(SMALL, &words), reply(LIMITER_DONE, 1, 0));
}

/// The words of the only ledger: its count, its cursor, and the debt, hash and settling moment. Records may be null where none is lent.
#[test]
fn a_list_is_records() {
    const LEDGER: usize = 11;
    let (mut words, now) = ([u64::MAX; ONE], 8);
    words[LEDGER] = 1;
    words[LEDGER + 2..LEDGER + 4].copy_from_slice(&[7, 9]);
    let other = debts::LimiterDebt {
        hash: 1,
        settles_at: 2,
    };
    let mut records = [other; 2];
    let listed = debts::list(SMALL, &words, now, 0, &mut records);
    assert_eq!(listed, reply(LIMITER_DONE, 1, 0));
    let debt = debts::LimiterDebt {
        hash: 7,
        settles_at: 9,
    };
    assert_eq!(records, [debt, other]);
    // SAFETY: no records are lent.
    let none =
        |now| unsafe { debts::limiter_debts(SMALL, words.as_ptr(), ONE, now, 0, null_mut(), 0) };
    assert_eq!(none(8), reply(LIMITER_BAD_RECORDS, 0, 0));
    assert_eq!(none(9), reply(LIMITER_DONE, 0, 0));
}

/// Damaged words: the index of the slots, two places, has none that is empty. A new key of hash 8, whose home is the first of them, takes all
/// its tokens and gets no place. It is found again only if a place names it already.
#[test]
fn the_index_decides_what_is_found() {
    for (places, then) in [
        ([1, 9], reply(LIMITER_RETRY, HALF, HALF)),
        ([9, 9], reply(LIMITER_DONE, 0, 0)),
    ] {
        let mut words = [0; ONE];
        words[15..17].copy_from_slice(&places);
        let granted = slices::try_acquire(SMALL, &mut words, 0, 8, 8, 2);
        assert_eq!(granted, reply(LIMITER_DONE, 0, 0));
        assert_eq!(words[15..17], places);
        assert_eq!(slices::length(SMALL, &words), reply(LIMITER_DONE, 1, 0));
        assert_eq!(slices::peek(SMALL, &words, 0, 8, 8, 1), then);
    }
}

/// The word of a slot that has its count, of the only slot. The count stops at 2^32 - 1; a larger word, which is damaged, is read as that number, and the
/// next try that is turned away stores it. A refund and a grant leave the word as it is.
#[test]
fn the_count_stops() {
    const COUNT: usize = 10;
    const MOST: u64 = 0xffff_ffff;
    let mut words = [0; ONE];
    let granted = slices::try_acquire(SMALL, &mut words, 0, 7, 7, 2);
    assert_eq!(granted, reply(LIMITER_DONE, 0, 0));
    for (word, read, then) in [
        (0, 0, 1),
        (MOST - 1, MOST - 1, MOST),
        (MOST, MOST, MOST),
        (MOST + 1, MOST, MOST),
        (u64::MAX, MOST, MOST),
    ] {
        words[COUNT] = word;
        let times = |words: &[u64]| slices::turned_away(SMALL, words, 7, 7);
        assert_eq!(times(&words), reply(LIMITER_DONE, read, 0));
        let known = slices::refund(SMALL, &mut words, 7, 7, 1);
        assert_eq!(known, reply(LIMITER_DONE, 0, 0));
        let granted = slices::try_acquire(SMALL, &mut words, 0, 7, 7, 1);
        assert_eq!(granted, reply(LIMITER_DONE, 0, 0));
        assert_eq!(words[COUNT], word);
        let retry = slices::try_acquire(SMALL, &mut words, 0, 7, 7, 1);
        assert_eq!(retry, reply(LIMITER_RETRY, HALF, HALF));
        assert_eq!(words[COUNT], then);
        assert_eq!(times(&words), reply(LIMITER_DONE, then, 0));
    }
}

#[test]
fn the_words_to_lend() {
    assert_eq!(limiter_words(SMALL), ONE as u64);
    assert_eq!(limiter_words(LimiterSettings::default()), ONE as u64);
    let keys = |max_keys| limiter_words(LimiterSettings { max_keys, ..SMALL });
    assert_eq!([keys(4_096), keys(65_536)], [53_254, 851_989]);
    assert_eq!([keys(65_537), keys(u64::MAX)], [0, 0]);
    let shards = |shards| limiter_words(LimiterSettings { shards, ..SMALL });
    assert_eq!(
        [shards(64), shards(65), shards(u64::MAX)],
        [1 + 64 * (ONE as u64 - 1), 0, 0]
    );
    let classes = |classes| limiter_words(LimiterSettings { classes, ..SMALL });
    assert_eq!(
        [classes(1), classes(64), classes(65), classes(u32::MAX)],
        [ONE as u64 + 2, ONE as u64 + 128, 0, 0]
    );
}

#[test]
fn the_header_has_the_same_codes() {
    let codes = [
        ("DONE", LIMITER_DONE),
        ("RETRY", LIMITER_RETRY),
        ("IMPOSSIBLE", LIMITER_IMPOSSIBLE),
        ("NONE", LIMITER_NONE),
        ("BAD_AMOUNT", LIMITER_BAD_AMOUNT),
        ("BAD_PERIOD", LIMITER_BAD_PERIOD),
        ("BAD_BURST", LIMITER_BAD_BURST),
        ("BAD_SIZES", LIMITER_BAD_SIZES),
        ("BAD_MEMORY", LIMITER_BAD_MEMORY),
        ("BAD_MOMENT", LIMITER_BAD_MOMENT),
        ("BAD_MAX_WAIT", LIMITER_BAD_MAX_WAIT),
        ("BAD_ADDRESS", LIMITER_BAD_ADDRESS),
        ("GROUP_ADDRESS", LIMITER_GROUP_ADDRESS),
        ("BAD_BUFFER", LIMITER_BAD_BUFFER),
        ("BAD_CLASS", LIMITER_BAD_CLASS),
        ("BAD_CHAIN", LIMITER_BAD_CHAIN),
        ("BAD_SHARD", LIMITER_BAD_SHARD),
        ("BAD_RECORDS", LIMITER_BAD_RECORDS),
        ("TWINS", LIMITER_TWINS),
        ("USED_PAST", LIMITER_USED_PAST),
        ("LONGEST_LINE", LIMITER_LONGEST_LINE as u64),
        ("MOST_CLASSES", LIMITER_MOST_CLASSES as u64),
        ("LONGEST_CHAIN", LIMITER_LONGEST_CHAIN as u64),
    ];
    for (name, code) in codes {
        let line = format!("LIMITER_{name} = {code}");
        assert!(HEADER.contains(&line), "{line}");
    }
    // And no others.
    let entries = HEADER
        .lines()
        .filter(|line| line.trim().starts_with("LIMITER_"));
    assert_eq!(
        entries.filter(|line| line.contains(" = ")).count(),
        codes.len()
    );
}

/// The names of a record's fields, from what `Debug` makes of it.
fn fields(record: &dyn core::fmt::Debug) -> Vec<String> {
    format!("{record:?}")
        .split(['{', ',', '}'])
        .filter_map(|part| part.split_once(": "))
        .map(|(name, _)| name.trim().to_string())
        .collect()
}

/// The names of the fields of a struct of the header, in order.
fn header_fields(name: &str) -> Vec<String> {
    let (_, body) = HEADER
        .split_once(&format!("typedef struct {name} {{"))
        .expect("a struct");
    let (body, _) = body.split_once(&format!("}} {name};")).expect("its end");
    body.lines()
        .filter_map(|line| line.strip_prefix("    uint"))
        .filter_map(|line| line.split_once("_t ")?.1.split_once(';'))
        .map(|(name, _)| name.to_string())
        .collect()
}

#[test]
fn the_header_has_the_same_fields() {
    let identity = modem::identity(&[]);
    let debt = debts::LimiterDebt::default();
    let ours: [(&str, &dyn core::fmt::Debug, usize); 5] = [
        ("settings", &SMALL, size_of::<LimiterSettings>()),
        ("class", &CLASS, size_of::<LimiterClass>()),
        ("reply", &reply(0, 0, 0), size_of::<LimiterReply>()),
        ("identity", &identity, size_of::<LimiterIdentity>()),
        ("debt", &debt, size_of::<debts::LimiterDebt>()),
    ];
    for (name, record, bytes) in ours {
        assert_eq!(header_fields(&format!("limiter_{name}")), fields(record));
        let size = format!("sizeof(limiter_{name}) == {bytes})");
        assert!(HEADER.contains(&size), "{size}");
    }
    assert_eq!(HEADER.matches("typedef struct ").count(), ours.len());
}

/// The version of the crates is that of the header and of the library; the name that is linked by has the first two numbers of it.
#[test]
fn one_version() {
    let version = env!("CARGO_PKG_VERSION");
    let numbers: Vec<u32> = version
        .split('.')
        .map(|number| number.parse().expect("a number"))
        .collect();
    let number = 65_536 * numbers[0] + 256 * numbers[1] + numbers[2];
    assert_eq!(limiter_version_0_9(), number);
    let lines = [
        format!("#define LIMITER_VERSION \"{version}\""),
        format!("#define LIMITER_VERSION_NUMBER {number:#08x}"),
        format!(
            "uint32_t limiter_version_{}_{}(void);",
            numbers[0], numbers[1]
        ),
    ];
    for line in lines {
        assert!(HEADER.contains(&line), "{line}");
    }
}
