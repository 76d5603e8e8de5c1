//! The same work as part_bench on Rust's own types: a free list in a `Vec`, and a `HashMap` with a
//! `BTreeMap` of numbers beside it.

use std::collections::{BTreeMap, HashMap};
use std::time::Instant;

const HELD: u32 = 65_536;
const POOL_ROUNDS: u64 = 20_000_000;
const BOOK_ROUNDS: u64 = 2_000_000;

struct Pool {
    slots: Vec<Option<u64>>,
    free: Vec<u32>,
}

impl Pool {
    fn take(&mut self, entry: u64) -> Option<u32> {
        if let Some(key) = self.free.pop() {
            self.slots[key as usize] = Some(entry);
            return Some(key + 2);
        }
        if self.slots.len() >= HELD as usize {
            return None;
        }
        self.slots.push(Some(entry));
        Some(self.slots.len() as u32 + 1)
    }

    fn give(&mut self, tag: u32) -> Option<u64> {
        let key = tag.checked_sub(2)?;
        let entry = self.slots.get_mut(key as usize)?.take()?;
        self.free.push(key);
        Some(entry)
    }
}

fn next_seed(seed: u64) -> u64 {
    seed.wrapping_mul(6_364_136_223_846_793_005)
        .wrapping_add(1_442_695_040_888_963_407)
}

fn pool() {
    let mut pool = Pool { slots: Vec::with_capacity(HELD as usize), free: Vec::with_capacity(HELD as usize) };
    for entry in 0..u64::from(HELD) {
        pool.take(entry);
    }
    let start = Instant::now();
    let (mut seed, mut sum) = (1u64, 0u64);
    for _ in 0..POOL_ROUNDS {
        seed = next_seed(seed);
        let tag = ((seed >> 48) as u32) % HELD + 2;
        let Some(entry) = pool.give(tag) else { continue };
        if let Some(taken) = pool.take(entry ^ seed) {
            sum = sum.wrapping_add(u64::from(taken));
        }
    }
    let each = start.elapsed().as_nanos() as f64 / POOL_ROUNDS as f64;
    println!("Vec free list, give and take: {each:.1} ns a call, sum {sum}");
}

fn book() {
    let mut entries: BTreeMap<u64, u32> = BTreeMap::new();
    let mut tags: HashMap<u32, u64> = HashMap::with_capacity(HELD as usize);
    let mut seq = 0u64;
    for tag in 0..HELD {
        seq += 1;
        entries.insert(seq, tag);
        tags.insert(tag, seq);
    }
    let start = Instant::now();
    let (mut seed, mut sum) = (1u64, 0u64);
    for _ in 0..BOOK_ROUNDS {
        seed = next_seed(seed);
        let tag = ((seed >> 48) as u32) % HELD;
        let Some(found) = tags.remove(&tag) else { continue };
        entries.remove(&found);
        seq += 1;
        entries.insert(seq, tag);
        tags.insert(tag, seq);
        sum = sum.wrapping_add(found);
    }
    let each = start.elapsed().as_nanos() as f64 / BOOK_ROUNDS as f64;
    println!("HashMap and BTreeMap, remove and insert: {each:.1} ns a call, sum {sum}");
}

fn main() {
    pool();
    book();
}
