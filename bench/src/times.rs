//! The least, the median and the middle half.

/// Of some times, or ratios of times.
pub struct Times {
    pub least: f64,
    pub median: f64,
    pub low: f64,
    pub high: f64,
}

impl Times {
    pub fn of(mut nanos: Vec<f64>) -> Self {
        nanos.sort_by(f64::total_cmp);
        let at = |part: usize| nanos[(nanos.len() - 1) * part / 4];
        Self {
            least: nanos[0],
            median: at(2),
            low: at(1),
            high: at(3),
        }
    }
}
