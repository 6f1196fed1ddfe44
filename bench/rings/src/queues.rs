//! Queues and rings with one owner: a round puts a batch of fragments and takes it. Each figure is
//! the least time of several runs, in nanoseconds for one put and one take.

use crate::plain::{self, Deque, LinkDeque, Ring, WordRing};
use crate::shared::{self, BothSides};
use std::time::Instant;

extern "C" {
    fn flounder_local(slots: usize, rounds: u64, batch: u64) -> u64;
    fn flounder_acked(slots: usize, rounds: u64, batch: u64) -> u64;
    fn flounder_ring(slots: usize, rounds: u64, batch: u64) -> u64;
    fn flounder_duo(slots: usize, rounds: u64, batch: u64) -> u64;
    fn flounder_shared_ring(slots: usize, rounds: u64, batch: u64) -> u64;
    fn flounder_shared_duo(slots: usize, rounds: u64, batch: u64) -> u64;
}

const SLOTS: usize = 64;
const FRAGMENTS: u64 = 100_000;
const RUNS: usize = 600;

type Run = fn(u64, u64) -> u64;

/// A link: its name, how many batches go through it in a round, and a run of so many rounds.
const LINKS: [(&str, u64, Run); 4] = [
    ("queue freed by take", 1, |rounds, batch| unsafe {
        flounder_local(SLOTS, rounds, batch)
    }),
    ("queue freed by tell", 1, |rounds, batch| unsafe {
        flounder_acked(SLOTS, rounds, batch)
    }),
    ("ring of one direction", 1, |rounds, batch| unsafe {
        flounder_ring(SLOTS, rounds, batch)
    }),
    ("ring of two directions", 2, |rounds, batch| unsafe {
        flounder_duo(SLOTS, rounds, batch)
    }),
];

/// The plain queues: their names, and a run of so many rounds.
const PLAIN: [(&str, fn(usize, u64, u64) -> u64); 4] = [
    ("VecDeque", plain::through::<Deque>),
    ("ring of arrays", plain::through::<Ring>),
    ("ring of words", plain::through::<WordRing>),
    ("VecDeque as a link", plain::through::<LinkDeque>),
];

/// Rings over shared words with both sides in one thread, and plain ones of the same steps.
const SHARED: [(&str, u64, Run, Run); 2] = [
    (
        "shared ring",
        1,
        |rounds, batch| unsafe { flounder_shared_ring(SLOTS, rounds, batch) },
        |rounds, batch| plain::through::<BothSides>(SLOTS, rounds, batch),
    ),
    (
        "shared duo",
        2,
        |rounds, batch| unsafe { flounder_shared_duo(SLOTS, rounds, batch) },
        |rounds, batch| shared::both_ways(SLOTS, rounds, batch),
    ),
];

fn nanoseconds(run: impl Fn() -> u64, wanted: u64, fragments: u64) -> f64 {
    let start = Instant::now();
    let sum = run();
    let time = start.elapsed();
    assert_eq!(sum, wanted, "not every fragment came through");
    time.as_nanos() as f64 / fragments as f64
}

pub fn report() {
    println!(
        "{FRAGMENTS} fragments a run, the least of {RUNS} runs, nanoseconds for a put and a take"
    );
    println!("ratios: the plain queue's time over ours, so above 1 we are faster");
    for batch in [1, 16, 32] {
        for (name, ways, run) in LINKS {
            let rounds = FRAGMENTS / batch / ways;
            let fragments = rounds * batch * ways;
            let wanted = plain::through::<Deque>(SLOTS, rounds, batch).wrapping_mul(ways);
            let wanted_plain = plain::through::<Deque>(SLOTS, rounds * ways, batch);
            let mut ours = f64::MAX;
            let mut theirs = [f64::MAX; PLAIN.len()];
            for _ in 0..RUNS {
                ours = ours.min(nanoseconds(|| run(rounds, batch), wanted, fragments));
                for (least, (_, run)) in theirs.iter_mut().zip(PLAIN) {
                    let run = || run(SLOTS, rounds * ways, batch);
                    *least = least.min(nanoseconds(run, wanted_plain, fragments));
                }
            }
            print!("batch {batch:>2}, {name:<22} {ours:6.2}");
            for (time, (name, _)) in theirs.iter().zip(PLAIN) {
                print!("   {name} {time:5.2}, ratio {:.2}", time / ours);
            }
            println!();
        }
    }
    for batch in [1, 16, 32] {
        for (name, ways, run, plain_run) in SHARED {
            let rounds = FRAGMENTS / batch / ways;
            let fragments = rounds * batch * ways;
            let wanted = plain::through::<Deque>(SLOTS, rounds, batch).wrapping_mul(ways);
            let (mut ours, mut theirs) = (f64::MAX, f64::MAX);
            for _ in 0..RUNS / 4 {
                ours = ours.min(nanoseconds(|| run(rounds, batch), wanted, fragments));
                theirs = theirs.min(nanoseconds(|| plain_run(rounds, batch), wanted, fragments));
            }
            println!(
                "batch {batch:>2}, {name:<22} {ours:6.2}   plain {theirs:6.2}, ratio {:.2}",
                theirs / ours
            );
        }
    }
}
