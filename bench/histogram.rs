//! Times by how often they occurred, 3 % apart.

use std::time::Duration;

/// Buckets of each power of two.
const PARTS: usize = 32;

pub struct Histogram {
    buckets: Vec<u64>,
    count: u64,
    greatest: u64,
}

/// The bucket of a number of nanoseconds. Below `PARTS` each number has its own.
fn bucket(nanos: u64) -> usize {
    let shift = nanos.max(1).ilog2().saturating_sub(PARTS.ilog2());
    shift as usize * PARTS + (nanos >> shift) as usize
}

/// The greatest number of nanoseconds in a bucket.
fn top(bucket: usize) -> u64 {
    let shift = (bucket / PARTS).saturating_sub(1);
    let part = (bucket - shift * PARTS) as u64;
    ((part + 1) << shift).wrapping_sub(1)
}

impl Histogram {
    pub fn new() -> Histogram {
        Histogram {
            buckets: vec![0; bucket(u64::MAX) + 1],
            count: 0,
            greatest: 0,
        }
    }

    pub fn add(&mut self, time: Duration) {
        let nanos = time.as_nanos() as u64;
        self.buckets[bucket(nanos)] += 1;
        self.count += 1;
        self.greatest = self.greatest.max(nanos);
    }

    /// The time in microseconds that so great a part of all times doesn't exceed; 0 if there is none.
    pub fn part(&self, part: f64) -> f64 {
        let wanted = (self.count as f64 * part).ceil() as u64;
        let mut seen = 0;
        let found = self.buckets.iter().position(|count| {
            seen += count;
            seen >= wanted.max(1)
        });
        let nanos = found.map_or(0, |bucket| top(bucket).min(self.greatest));
        nanos as f64 / 1000.0
    }
}
