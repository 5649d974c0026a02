//! The bucket against a second account of it, kept as the parts that are held (below zero when in debt) in 128-bit numbers.

use super::*;

/// C, A and P, and the parts held at a moment.
#[derive(Clone, Copy)]
struct Model {
    burst: i128,
    amount: i128,
    period: i128,
    held: i128,
    stamp: i128,
}

impl Model {
    fn full(&self) -> i128 {
        self.burst * self.period
    }

    fn held_at(&self, now: i128) -> i128 {
        let stored = self.held.max(-(1 << 62));
        self.full()
            .min(stored + (now - self.stamp).max(0) * self.amount)
    }

    fn available(&self, now: i128) -> i128 {
        self.held_at(now).max(0).div_euclid(self.period)
    }

    /// Whether `wait` is the least after which `cost` tokens are held, if nothing happens in between. A longer one than
    /// 64 bits hold is given as the largest number of 64 bits.
    fn is_wait(&self, cost: i128, now: i128, wait: i128) -> bool {
        let reaches = |wait: i128| cost == 0 || self.held_at(now + wait) >= cost * self.period;
        let held = wait == i128::from(u64::MAX);
        wait >= 0 && (held || reaches(wait)) && (wait == 0 || !reaches(wait - 1))
    }

    fn take(&mut self, parts: i128, now: i128) {
        self.held = (self.held_at(now) - parts).max(-(1 << 62));
        self.stamp = self.stamp.max(now);
    }

    fn refund(&mut self, cost: i128) {
        self.held = self
            .full()
            .min(self.held.max(-(1 << 62)) + cost * self.period);
    }
}

/// Numbers with no pattern that the bucket could lean on.
struct Random(u64);

impl Random {
    fn bits(&mut self) -> u64 {
        self.0 = self
            .0
            .wrapping_mul(6_364_136_223_846_793_005)
            .wrapping_add(1_442_695_040_888_963_407);
        (self.0 ^ self.0 >> 29).wrapping_mul(0xBF58_476D_1CE4_E5B9)
    }

    /// 0 to `most`, of every size, `most` itself often.
    fn up_to(&mut self, most: u64) -> u64 {
        let shift = self.bits() % 64;
        let any = self.bits();
        match any % 5 {
            0 => most,
            _ => (any >> shift).min(most),
        }
    }
}

fn small(number: u64) -> u32 {
    u32::try_from(number).expect("the number was drawn below 2^32")
}

#[test]
fn agrees_with_the_parts_held() {
    let mut random = Random(1);
    for _ in 0..20_000 {
        let burst = small(random.up_to(65_534) + 1);
        let amount = small(random.up_to(65_534) + 1);
        let period = random.up_to((1 << 46) - 1) + 1;
        let config = BucketConfig::new(burst, amount, Duration::from_nanos(period), burst)
            .expect("within the ranges");
        let (shortfall, stamp) = (random.up_to(u64::MAX), random.up_to(u64::MAX));
        let bucket = BucketCore::from_words(config, shortfall, stamp);
        let held = i128::from(burst) * i128::from(period) - i128::from(shortfall);
        let mut model = Model {
            burst: burst.into(),
            amount: amount.into(),
            period: period.into(),
            held,
            stamp: stamp.into(),
        };
        for _ in 0..8 {
            step(&bucket, &mut model, &mut random);
        }
    }
}

/// One random call on both, at a random moment.
fn step(bucket: &BucketCore, model: &mut Model, random: &mut Random) {
    let at = random.up_to(1 << 62);
    let (now, moment) = (i128::from(at), Duration::from_nanos(at));
    let cost = small(random.up_to(u64::from(bucket.capacity())));
    assert_eq!(
        i128::from(bucket.available_at(moment)),
        model.available(now)
    );
    let wait = bucket
        .time_until_at(cost, moment)
        .expect("the cost is at most the burst");
    assert!(model.is_wait(cost.into(), now, i128::from(nanos(wait))));
    let before = bucket.words();
    let taken = i128::from(cost) * model.period;
    match random.bits() % 5 {
        0 => {
            let answer = bucket.acquire_at(cost, moment);
            assert_eq!(answer == Decision::Allowed, wait.is_zero());
            if wait.is_zero() {
                model.take(taken, now);
            } else {
                assert_eq!(
                    (answer, bucket.words()),
                    (Decision::Denied { retry_after: wait }, before)
                );
            }
        }
        1 => {
            let longest = Duration::from_nanos(random.up_to(1 << 46));
            assert_eq!(
                bucket.reserve_at(cost, longest, moment),
                (wait <= longest).then_some(wait)
            );
            if wait <= longest {
                model.take(taken, now);
            } else {
                assert_eq!(bucket.words(), before);
            }
        }
        2 => {
            let tokens = i128::from(bucket.acquire_up_to_at(cost, moment));
            assert_eq!(tokens, model.available(now).min(cost.into()));
            if tokens > 0 {
                model.take(tokens * model.period, now);
            }
        }
        3 => {
            let tokens = random.up_to(u64::MAX);
            bucket.charge_at(tokens.into(), moment);
            model.take(i128::from(tokens) * model.period, now);
        }
        _ => {
            let cost = small(random.up_to(u64::from(u32::MAX)));
            bucket.refund(cost);
            model.refund(cost.into());
        }
    }
    let (shortfall, stamp) = bucket.words();
    let held = model.full() - i128::from(shortfall);
    assert_eq!((held, i128::from(stamp)), (model.held, model.stamp));
}

/// The published loop charges a debt in steps of at most 2^32 - 1 tokens; ours charges it at once. The bucket ends the same.
#[test]
fn charging_in_steps_is_charging_at_once() {
    let mut random = Random(2);
    for _ in 0..2_000 {
        let period = Duration::from_nanos(random.up_to((1 << 20) - 1) + 1);
        let config = BucketConfig::new(9, 7, period, 9).expect("within the ranges");
        let now = Duration::from_nanos(random.up_to(1 << 62));
        let (steps, once) = (BucketCore::new(config, now), BucketCore::new(config, now));
        let mut debt = u128::from(random.up_to(1 << 40));
        once.charge_at(debt, now);
        while debt > 0 {
            let chunk = u32::try_from(debt).unwrap_or(u32::MAX);
            steps.charge_at(u128::from(chunk), now);
            debt -= u128::from(chunk);
        }
        assert_eq!(steps.words(), once.words());
    }
}
