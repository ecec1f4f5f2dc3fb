//! Times of rounds.

use std::time::Duration;

/// The best of some rounds of one side.
#[derive(Default)]
pub struct Best(Option<Duration>);

impl Best {
    pub fn add(&mut self, time: Duration) {
        self.0 = Some(self.0.map_or(time, |best| best.min(time)));
    }

    /// In nanoseconds per byte or call, of which there are `count`.
    pub fn per(&self, count: usize) -> f64 {
        self.0.unwrap_or_default().as_nanos() as f64 / count as f64
    }
}
