//! What `bench` has seen of the proved way and the plain one, run in turn.

use std::time::Duration;

pub struct Measured {
    pub bytes_in: usize,
    pub bytes_out: usize,
    /// The best times.
    pub proved: Duration,
    pub plain: Duration,
    /// Whether every output was the same, byte for byte.
    pub same: bool,
}

impl Measured {
    pub fn new(bytes_in: usize, bytes_out: usize) -> Measured {
        Measured {
            bytes_in,
            bytes_out,
            proved: Duration::MAX,
            plain: Duration::MAX,
            same: true,
        }
    }

    /// One turn of both.
    pub fn turn(&mut self, proved: Duration, plain: Duration) {
        self.proved = self.proved.min(proved);
        self.plain = self.plain.min(plain);
    }

    pub fn ratio(&self) -> f64 {
        self.proved.as_secs_f64() / self.plain.as_secs_f64()
    }
}
