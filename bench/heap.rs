// Fills and drains the proved heap and the same indexed heap in Rust, and compares the times.
use std::time::Instant;

extern "C" {
    fn fill_and_drain(seed: u64, rounds: u32) -> u64;
}

const CAPACITY: usize = 1024;

#[derive(Clone, Copy, PartialEq, Eq, PartialOrd, Ord)]
struct Key {
    sum: u32,
    estimate: u32,
    entry: u16,
}

struct Heap {
    keys: [Option<Key>; CAPACITY],
    order: [u16; CAPACITY],
    places: [u16; CAPACITY],
    count: usize,
}

impl Heap {
    fn new() -> Self {
        let mut order = [0; CAPACITY];
        for (number, slot) in order.iter_mut().enumerate() {
            *slot = number as u16;
        }
        Heap { keys: [None; CAPACITY], order, places: order, count: 0 }
    }

    fn before(&self, i: usize, j: usize) -> bool {
        let (a, b) = (self.order[i], self.order[j]);
        match (self.keys[a as usize], self.keys[b as usize]) {
            (Some(x), Some(y)) => x < y || (x == y && a < b),
            (Some(_), None) => true,
            (None, Some(_)) => false,
            (None, None) => a < b,
        }
    }

    fn exchange(&mut self, i: usize, j: usize) {
        self.order.swap(i, j);
        self.places[self.order[i] as usize] = i as u16;
        self.places[self.order[j] as usize] = j as u16;
    }

    fn rise(&mut self, mut at: usize) -> usize {
        while at > 0 && self.before(at, (at - 1) / 2) {
            self.exchange(at, (at - 1) / 2);
            at = (at - 1) / 2;
        }
        at
    }

    fn sink(&mut self, mut at: usize) {
        loop {
            let left = 2 * at + 1;
            if left >= self.count {
                return;
            }
            let right = left + 1;
            let child = if right < self.count && self.before(right, left) { right } else { left };
            if !self.before(child, at) {
                return;
            }
            self.exchange(at, child);
            at = child;
        }
    }

    fn put(&mut self, number: usize, key: Key) -> bool {
        if number >= CAPACITY {
            return false;
        }
        let mut at = self.places[number] as usize;
        if at >= self.count {
            self.exchange(at, self.count);
            at = self.count;
            self.count += 1;
        }
        self.keys[number] = Some(key);
        let at = self.rise(at);
        self.sink(at);
        true
    }

    fn take(&mut self) -> Option<usize> {
        if self.count == 0 {
            return None;
        }
        let number = self.order[0] as usize;
        self.exchange(0, self.count - 1);
        self.keys[number] = None;
        self.count -= 1;
        self.sink(0);
        Some(number)
    }
}

#[inline(never)]
fn in_rust(seed: u64, rounds: u32) -> u64 {
    let mut heap = Heap::new();
    let (mut state, mut sum) = (seed, 0u64);
    for _ in 0..rounds {
        for entry in 0..CAPACITY as u16 {
            state = state.wrapping_mul(6364136223846793005).wrapping_add(1442695040888963407);
            let key = Key { sum: ((state >> 40) & 0xffff) as u32, estimate: ((state >> 20) & 0xff) as u32, entry };
            heap.put(entry as usize, key);
        }
        for _ in 0..CAPACITY {
            if let Some(number) = heap.take() {
                sum = sum.wrapping_mul(31).wrapping_add(number as u64);
            }
        }
    }
    sum
}

fn median(mut times: Vec<f64>) -> f64 {
    times.sort_by(|a, b| a.partial_cmp(b).unwrap());
    times[times.len() / 2]
}

fn main() {
    let rounds = 1000;
    let (mut proved, mut rust) = (Vec::new(), Vec::new());
    for run in 0..11u64 {
        let start = Instant::now();
        let a = unsafe { fill_and_drain(run, rounds) };
        proved.push(start.elapsed().as_secs_f64());
        let start = Instant::now();
        let b = in_rust(run, rounds);
        rust.push(start.elapsed().as_secs_f64());
        assert_eq!(a, b, "the orders differ");
    }
    let (proved, rust) = (median(proved), median(rust));
    let each = 1e6 / rounds as f64;
    println!("a fill and drain of {CAPACITY} keys, median of 11 runs of {rounds}:");
    println!("proved {:.1} us, Rust {:.1} us, ratio {:.2}", proved * each, rust * each, proved / rust);
}
