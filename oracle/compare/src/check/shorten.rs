//! A trace that ends in a difference, made shorter.

use std::time::{Duration, Instant};

use super::{Bench, Difference, Start, Step};

impl Bench {
    /// Runs a trace anew; the first difference and the step where it shows.
    fn replay(&mut self, start: &Start, steps: &[Step]) -> Option<(usize, Box<Difference>)> {
        let mut trio = match self.start(start) {
            Ok(trio) => trio,
            Err(difference) => return Some((0, difference)),
        };
        let run = steps.iter().enumerate();
        run.map(|(at, step)| (at, self.step(&mut trio, step)))
            .find_map(|(at, done)| Some((at, done.err()?)))
            .or_else(|| Some((steps.len(), trio.compare_all(steps.last()?).err()?)))
    }

    /// Leaves out calls of a trace that ends in a difference, in halves, quarters and so on, as long as a difference is left.
    /// Stops after some seconds. Gives the calls that are left and the difference that they end in.
    pub fn shorten(
        &mut self,
        start: &Start,
        steps: &[Step],
        difference: Box<Difference>,
    ) -> (Vec<Step>, Box<Difference>) {
        let end = Instant::now() + Duration::from_secs(8);
        let mut left = (steps.to_vec(), difference);
        let mut chunk = steps.len().div_ceil(2);
        while chunk > 0 && Instant::now() < end {
            let mut at = 0;
            while at < left.0.len() && Instant::now() < end {
                let mut fewer = left.0.clone();
                fewer.drain(at..(at + chunk).min(fewer.len()));
                match self.replay(start, &fewer) {
                    Some((place, difference)) => {
                        fewer.truncate(place + 1);
                        left = (fewer, difference);
                    }
                    None => at += chunk,
                }
            }
            chunk /= 2;
        }
        left
    }
}
