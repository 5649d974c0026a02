//! Desk lines of every kind, with the smallest and the largest numbers, in buffers of every length; and random ones, read back here.

use core::time::Duration;

use limiter::{DeskLine, Refusal};

const MOST: u64 = u64::MAX;
const LAST: Duration = Duration::from_nanos(MOST);

fn recorded() -> [(DeskLine, &'static str); 11] {
    let (now, key, cost, max_wait) = (Duration::ZERO, 0, 0, Duration::ZERO);
    let largest = (LAST, MOST, u32::MAX);
    [
        (DeskLine::Try { now, key, cost }, "a 0 0 0"),
        (
            DeskLine::Try {
                now: largest.0,
                key: largest.1,
                cost: largest.2,
            },
            "a 18446744073709551615 18446744073709551615 4294967295",
        ),
        (DeskLine::Peek { now, key, cost }, "p 0 0 0"),
        (
            DeskLine::Peek {
                now: largest.0,
                key: largest.1,
                cost: largest.2,
            },
            "p 18446744073709551615 18446744073709551615 4294967295",
        ),
        (
            DeskLine::Reserve {
                now,
                key,
                cost,
                max_wait,
            },
            "r 0 0 0 0",
        ),
        (
            DeskLine::Reserve {
                now: Duration::from_millis(500),
                key: 7,
                cost: 3,
                max_wait: Duration::from_secs(1),
            },
            "r 500000000 7 3 1000000000",
        ),
        (
            DeskLine::Reserve {
                now: largest.0,
                key: largest.1,
                cost: largest.2,
                max_wait: LAST,
            },
            "r 18446744073709551615 18446744073709551615 4294967295 18446744073709551615",
        ),
        (DeskLine::Refund { key, cost }, "f 0 0"),
        (
            DeskLine::Refund {
                key: MOST,
                cost: u32::MAX,
            },
            "f 18446744073709551615 4294967295",
        ),
        (DeskLine::Remove { key }, "d 0"),
        (DeskLine::Remove { key: MOST }, "d 18446744073709551615"),
    ]
}

#[test]
fn recorded_lines_in_buffers_of_every_length() {
    for (line, text) in recorded() {
        assert_eq!(line.to_string(), text);
        let size = text.len() + 1;
        for length in 0..size + 3 {
            let mut buffer = vec![0xee; length];
            if length < size {
                assert_eq!(line.write(&mut buffer), Err(Refusal::Buffer));
                assert!(buffer.iter().all(|&byte| byte == 0xee));
            } else {
                assert_eq!(line.write(&mut buffer), Ok(size));
                assert_eq!(&buffer[..size - 1], text.as_bytes());
                assert_eq!(buffer[size - 1], b'\n');
                assert!(buffer[size..].iter().all(|&byte| byte == 0xee));
            }
        }
    }
    let longest = recorded().map(|(_, text)| text.len() + 1);
    assert_eq!(longest.into_iter().max(), Some(DeskLine::LONGEST));
}

/// A time that 64 bits of nanoseconds cannot hold is written as the largest that they can: the desk and a store refuse both.
#[test]
fn a_time_past_64_bits_is_the_largest() {
    let (key, cost) = (7, 3);
    for now in [LAST, LAST + Duration::from_nanos(1), Duration::MAX] {
        let line = DeskLine::Reserve {
            now,
            key,
            cost,
            max_wait: now,
        };
        assert_eq!(line.to_string(), format!("r {MOST} 7 3 {MOST}"));
    }
}

/// A line as another program would read it.
fn read(line: &str) -> Option<DeskLine> {
    let mut fields = line.split(' ');
    let letter = fields.next()?;
    let numbers: Vec<u64> = fields
        .map(|field| field.parse().ok())
        .collect::<Option<_>>()?;
    let small = |n: u64| u32::try_from(n).ok();
    let time = Duration::from_nanos;
    Some(match (letter, &numbers[..]) {
        ("a", &[now, key, cost]) => DeskLine::Try {
            now: time(now),
            key,
            cost: small(cost)?,
        },
        ("p", &[now, key, cost]) => DeskLine::Peek {
            now: time(now),
            key,
            cost: small(cost)?,
        },
        ("r", &[now, key, cost, max_wait]) => DeskLine::Reserve {
            now: time(now),
            key,
            cost: small(cost)?,
            max_wait: time(max_wait),
        },
        ("f", &[key, cost]) => DeskLine::Refund {
            key,
            cost: small(cost)?,
        },
        ("d", &[key]) => DeskLine::Remove { key },
        _ => return None,
    })
}

/// Random numbers of all lengths.
struct Random(u64);

impl Random {
    fn word(&mut self) -> u64 {
        self.0 = self
            .0
            .wrapping_mul(6_364_136_223_846_793_005)
            .wrapping_add(1_442_695_040_888_963_407);
        self.0 ^ (self.0 >> 29)
    }

    fn number(&mut self) -> u64 {
        let bits = self.word() >> 58;
        self.word() >> bits
    }

    fn time(&mut self) -> Duration {
        Duration::from_nanos(self.number())
    }

    fn small(&mut self) -> u32 {
        let bits = self.word() >> 59;
        (self.word() >> 32 >> bits) as u32
    }

    fn line(&mut self) -> DeskLine {
        let (now, max_wait) = (self.time(), self.time());
        let (key, cost) = (self.number(), self.small());
        match (self.word() >> 32) % 5 {
            0 => DeskLine::Try { now, key, cost },
            1 => DeskLine::Peek { now, key, cost },
            2 => DeskLine::Reserve {
                now,
                key,
                cost,
                max_wait,
            },
            3 => DeskLine::Refund { key, cost },
            _ => DeskLine::Remove { key },
        }
    }
}

#[test]
fn random_lines_are_read_back() {
    let mut random = Random(7);
    for _ in 0..100_000 {
        let line = random.line();
        let text = line.to_string();
        assert_eq!(read(&text), Some(line), "{text}");
        assert!(
            !text
                .split(' ')
                .any(|field| field.len() > 1 && field.starts_with('0')),
            "{text}"
        );
    }
}
