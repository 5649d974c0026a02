//! Modems by hardware address: the type, its text, and the five calls against those on keys.

use core::time::Duration;

use limiter::{AddressError, Decision, HardwareAddress, Key, Rate, Refusal, Settings, Store};

const SECOND: Duration = Duration::from_secs(1);

/// An address with its hash and its key. Both were worked out by another program.
const MODEM: HardwareAddress = HardwareAddress::new([0x00, 0x1a, 0x2b, 0x3c, 0x4d, 0x5e]);
const AS_KEY: Key = Key::new(0xa6a1_1141_cd93_5a8b, 0x001a_2b3c_4d5e);

const GROUP: HardwareAddress = HardwareAddress::new([0x01, 0x00, 0x5e, 0x00, 0x00, 0x01]);

fn store() -> Store<Vec<u64>> {
    let settings = Settings::new(Rate::per_second(2).burst(4), 4);
    let words = settings.words().expect("sizes within bounds");
    Store::set_up(settings, vec![7; words]).expect("settings within bounds")
}

#[test]
fn text_and_bytes() {
    let text = "fe:dc:ba:09:87:65";
    let address: HardwareAddress = text.parse().expect("an address");
    assert_eq!(address.octets(), [0xfe, 0xdc, 0xba, 0x09, 0x87, 0x65]);
    assert_eq!(address.to_string(), text);
    assert_eq!(format!("{address:?}"), format!("HardwareAddress({text})"));
    assert_eq!(text.to_uppercase().parse(), Ok(address));
    assert_eq!(text.replace(':', "-").parse(), Ok(address));
    assert_eq!(HardwareAddress::from(<[u8; 6]>::from(address)), address);
    assert_eq!(HardwareAddress::try_from(address.as_ref()), Ok(address));
    assert!(GROUP.is_group() && !address.is_group() && !MODEM.is_group());
    assert!(!HardwareAddress::new([0x80, 1, 1, 1, 1, 1]).is_group());
}

#[test]
fn what_is_no_address() {
    let no_addresses = [
        "",
        "00",
        "00:1a:2b:3c:4d",
        "00:1a:2b:3c:4d:5e:6f",
        "00:1a:2b:3c:4d:5e:",
        ":00:1a:2b:3c:4d:5e",
        "00-1a:2b-3c-4d-5e",
        "00:1a:2b:3c:4d-5e",
        "00-1a-2b-3c-4d-5e-",
        "00.1a.2b.3c.4d.5e",
        "001a2b3c4d5e",
        "0:1a:2b:3c:4d:5e",
        "000:1a:2b:3c:4d:5e",
        "+0:1a:2b:3c:4d:5e",
        "0g:1a:2b:3c:4d:5e",
        " 00:1a:2b:3c:4d:5e",
        "00:1a:2b:3c:4d:é",
    ];
    for text in no_addresses {
        assert_eq!(
            text.parse::<HardwareAddress>(),
            Err(AddressError::Text),
            "{text}"
        );
    }
    for bytes in [0, 5, 7, 65_536] {
        let error = HardwareAddress::try_from(&*vec![0; bytes]).expect_err("not six bytes");
        assert!(matches!(error, AddressError::Length { bytes: told, .. } if told == bytes));
        let error: Box<dyn std::error::Error> = error.into();
        assert_eq!(
            error.to_string(),
            format!("an address has six bytes, not {bytes}")
        );
    }
}

#[test]
fn a_call_by_address_is_the_call_on_its_key() {
    let (mut ours, mut theirs) = (store(), store());
    let now = 5 * SECOND;
    for cost in [3, 2, 0, 5] {
        let told = ours.try_acquire_modem(now, MODEM, cost);
        assert_eq!(told, theirs.try_acquire(now, AS_KEY, cost));
        assert_eq!(
            ours.peek_modem(now, MODEM, cost),
            theirs.peek(now, AS_KEY, cost)
        );
    }
    let reserved = ours.reserve_modem(now, MODEM, 2, SECOND);
    assert!(matches!(reserved, Ok(Some(_))));
    assert_eq!(reserved, theirs.reserve(now, AS_KEY, 2, SECOND));
    assert_eq!(ours.refund_modem(MODEM, 1), theirs.refund(AS_KEY, 1));
    assert_eq!(ours.words(), theirs.words());
    assert_eq!(ours.remove_modem(MODEM), Ok(true));
    assert_eq!(theirs.remove(AS_KEY), Ok(true));
    assert_eq!(ours.words(), theirs.words());
    assert_eq!(ours.remove_modem(MODEM), Ok(false));
}

#[test]
fn an_address_has_the_key_that_its_calls_are_on() {
    assert_eq!(MODEM.key(), Ok(AS_KEY));
    assert_eq!(GROUP.key(), Err(Refusal::GroupAddress));
    let turned = HardwareAddress::new([0x5e, 0x4d, 0x3c, 0x2b, 0x1a, 0x00]);
    let key = turned.key().expect("no group");
    assert_eq!(key.key, 0x5e4d_3c2b_1a00);
    assert_ne!(key.hash, AS_KEY.hash);
    let (mut store, now) = (store(), 5 * SECOND);
    for cost in [3, 2] {
        assert!(store.try_acquire_modem(now, MODEM, cost).is_ok());
    }
    assert_eq!(store.available(now, AS_KEY), Ok(1));
    assert_eq!(store.turned_away(AS_KEY), Ok(1));
}

#[test]
fn groups_are_refused_before_all_else() {
    let mut store = store();
    let (before, late) = (store.words().to_vec(), Duration::MAX);
    let refused = Err(Refusal::GroupAddress);
    assert_eq!(store.try_acquire_modem(late, GROUP, 1), refused);
    assert_eq!(store.peek_modem(late, GROUP, 1), refused);
    assert_eq!(
        store.reserve_modem(late, GROUP, 1, late),
        Err(Refusal::GroupAddress)
    );
    assert_eq!(store.refund_modem(GROUP, 1), Err(Refusal::GroupAddress));
    assert_eq!(store.remove_modem(GROUP), Err(Refusal::GroupAddress));
    assert_eq!(store.words(), before);
    assert_eq!(
        store.try_acquire_modem(late, MODEM, 1),
        Err(Refusal::Moment)
    );
}

#[test]
fn each_modem_has_a_bucket_of_its_own() {
    let mut store = store();
    let near = HardwareAddress::new([0x00, 0x1a, 0x2b, 0x3c, 0x4d, 0x5f]);
    let granted = |answer: Result<Decision, Refusal>| answer.expect("not refused").is_acquired();
    assert!(granted(store.try_acquire_modem(SECOND, MODEM, 4)));
    assert!(!granted(store.try_acquire_modem(SECOND, MODEM, 1)));
    assert!(granted(store.try_acquire_modem(SECOND, near, 4)));
}
