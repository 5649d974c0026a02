//! What is in every number: the driver, and for the Rust the setting of its clock.

use core::hint::black_box;

use published::Answer;

use super::{Rust, Side, Store};
use crate::scenario::{Call, Setup};

/// Nobody: what the driver costs by itself.
pub struct Nobody;

impl Side for Nobody {
    fn new(_setup: &Setup) -> Self {
        Self
    }

    #[inline]
    fn ask(&mut self, call: &Call) -> Answer {
        (black_box(call).now, 0)
    }
}

/// Sets the Rust's clock, and asks nothing.
pub struct ClockOnly(Rust);

impl Side for ClockOnly {
    fn new(setup: &Setup) -> Self {
        Self(Rust::fresh(setup))
    }

    #[inline]
    fn ask(&mut self, call: &Call) -> Answer {
        black_box(&self.0.limiter).set_clock(black_box(call).now);
        (0, 0)
    }
}
