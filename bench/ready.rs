// Makes the estimators ready for a task of full size, and says how long each takes.
use std::time::Instant;

extern "C" {
    fn make_ready(site: *const u8, length: usize, which: u8, rounds: u32) -> u64;
}

const FACTORS: u8 = 12;
const FACTS: u8 = 16;
const LABELS: u8 = 63;

// 12 factors of 16 facts and 63 labels. Label k of cost `cost(k)` leads in factor j from x to `to(j, k, x)`.
fn site(cost: impl Fn(u8) -> u16, to: impl Fn(u8, u8, u8) -> u8) -> Vec<u8> {
    let mut bytes = vec![b'T', FACTORS, LABELS];
    for j in 0..FACTORS {
        bytes.extend([b'F', j, FACTS, FACTS - 1]);
    }
    for j in 0..FACTORS {
        bytes.extend([b'G', j, 0]);
    }
    for k in 1..=LABELS {
        let cost = cost(k).to_be_bytes();
        bytes.extend([b'C', k, cost[0], cost[1]]);
    }
    for j in 0..FACTORS {
        for k in 1..=LABELS {
            for x in 0..FACTS {
                bytes.extend([b'M', j, k, x, to(j, k, x) % FACTS]);
            }
        }
    }
    bytes.push(b'E');
    bytes
}

fn measure(name: &str, site: &[u8]) {
    for (which, estimator) in ["longest", "pair", "greater of both"].iter().enumerate() {
        let rounds = 200;
        let mut times = Vec::new();
        let mut sum = 0;
        for _ in 0..11 {
            let start = Instant::now();
            sum = unsafe { make_ready(site.as_ptr(), site.len(), which as u8, rounds) };
            times.push(start.elapsed().as_secs_f64() / rounds as f64);
        }
        times.sort_by(|a, b| a.partial_cmp(b).unwrap());
        println!("{name}: {estimator} ready in {:.3} ms, start at {}", times[5] * 1e3, sum / rounds as u64);
    }
}

fn main() {
    // pairs go round: factor 0 by k, factor 1 by k / 16, so that every pair can be led to every other
    let cheap = site(|_| 1, |j, k, x| if j % 2 == 0 { x + k } else { x + k / 16 });
    measure("all labels of cost 1", &cheap);
    // the same, dear labels first, so that costs are lowered often
    let falling = site(|k| 65535 - 1000 * k as u16, |j, k, x| if j % 2 == 0 { x + k } else { x + k / 16 });
    measure("costs that fall", &falling);
    // every label leads towards 0 in both
    let drawn = site(|k| k as u16 * 97 % 1009, |_, k, x| x.saturating_sub(k % 3));
    measure("labels that lead to fact 0", &drawn);
}
