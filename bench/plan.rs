// Plans sites of growing size with blank and the bare ranking, and says how long a load, a start and the whole run take.
use std::time::Instant;

extern "C" {
    fn plan_site(site: *const u8, length: usize, rounds: u32) -> u64;
}

// Factors of two facts; label j + 1 turns factor j from 0 to 1 at cost 1 and keeps the others; all 1 is the goal.
fn site(factors: u8) -> Vec<u8> {
    let mut bytes = vec![b'T', factors, factors];
    for j in 0..factors {
        bytes.extend([b'F', j, 2, 0]);
    }
    for j in 0..factors {
        bytes.extend([b'G', j, 1, b'C', j + 1, 0, 1]);
        for i in 0..factors {
            if i == j {
                bytes.extend([b'M', i, j + 1, 0, 1]);
            } else {
                bytes.extend([b'S', i, j + 1]);
            }
        }
    }
    bytes.push(b'E');
    bytes
}

fn main() {
    for factors in 6..=10 {
        let site = site(factors);
        let rounds = 20;
        let mut times = Vec::new();
        let mut sum = 0;
        for _ in 0..11 {
            let start = Instant::now();
            sum = unsafe { plan_site(site.as_ptr(), site.len(), rounds) };
            times.push(start.elapsed().as_secs_f64() / rounds as f64);
        }
        times.sort_by(|a, b| a.partial_cmp(b).unwrap());
        let (cost, entries, tried) = (sum / 1000000000000, sum / 1000000 % 1000000, sum % 1000000);
        println!("{factors} factors: {:.3} ms, cost {cost}, entries {entries}, tried {tried}", times[5] * 1e3);
    }
}
