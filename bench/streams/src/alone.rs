//! Both sides in one thread.

use crate::plain::{self, line, sum_of};
use crate::{c_ring, report_rows, SLICE};
use std::time::Instant;

const SLOTS: usize = 64;
/// Few, so that most runs end before other work takes the processor.
const FRAGMENTS: u64 = 16_000;
const RUNS: usize = 900;


extern "C" {
    fn streams_stream(slots: usize, rounds: u64, batch: u64) -> u64;
    fn streams_stream_slices(slots: usize, rounds: u64) -> u64;
    fn streams_rtrb(slots: usize, rounds: u64, batch: u64) -> u64;
    fn streams_rtrb_slices(slots: usize, rounds: u64) -> u64;
    fn streams_duo(slots: usize, rounds: u64, batch: u64) -> u64;
}

#[inline(never)]
fn plain_alone(slots: usize, rounds: u64, batch: u64) -> u64 {
    let (mut producer, mut consumer) = plain::ring(slots);
    let mut sum = 0u64;
    for round in 0..rounds {
        for k in 0..batch {
            producer.put(line(round.wrapping_add(k)));
        }
        for _ in 0..batch {
            if let Some(line) = consumer.take() {
                sum = sum.wrapping_add(sum_of(&line));
            }
        }
    }
    sum
}

#[inline(never)]
fn plain_slices_alone(slots: usize, rounds: u64) -> u64 {
    let (mut producer, mut consumer) = plain::ring(slots);
    let mut sum = 0u64;
    let mut lines = [[0; 8]; SLICE];
    for round in 0..rounds {
        for k in 0..SLICE {
            lines[k] = line(round.wrapping_add(k as u64));
        }
        producer.put_all(&lines);
        let count = consumer.take_all(&mut lines);
        for line in &lines[..count] {
            sum = sum.wrapping_add(sum_of(line));
        }
    }
    sum
}

type Run = fn(usize, u64, u64) -> u64;

/// The name, and a run of so many rounds of a batch.
const ROWS: [(&str, Run); 9] = [
    ("stream", |s, r, b| unsafe { streams_stream(s, r, b) }),
    ("kit's rtrb", |s, r, b| unsafe { streams_rtrb(s, r, b) }),
    ("plain Rust", plain_alone),
    ("plain C", c_ring::alone),
    ("duo", |s, r, b| unsafe { streams_duo(s, r, b) }),
    ("stream, slices", |s, r, _| unsafe { streams_stream_slices(s, r) }),
    ("kit's rtrb, slices", |s, r, _| unsafe { streams_rtrb_slices(s, r) }),
    ("plain Rust, slices", |s, r, _| plain_slices_alone(s, r)),
    ("plain C, slices", |s, r, _| c_ring::slices_alone(s, r)),
];

/// Nanoseconds a fragment of each run of each row; the rows take turns, and another one goes first each time.
fn times(batch: u64) -> Vec<(&'static str, Vec<f64>)> {
    let mut rows: Vec<(&str, Vec<f64>)> = ROWS.map(|(name, _)| (name, Vec::new())).into();
    for run in 0..RUNS {
        for n in 0..ROWS.len() {
            let at = (n + run) % ROWS.len();
            let batch = if at < 5 { batch } else { SLICE as u64 };
            let rounds = FRAGMENTS / batch;
            let wanted = 7 * (0..rounds).flat_map(|r| r..r + batch).sum::<u64>();
            let start = Instant::now();
            let sum = (ROWS[at].1)(SLOTS, rounds, batch);
            let time = start.elapsed().as_nanos() as f64 / FRAGMENTS as f64;
            assert_eq!(sum, wanted, "not every fragment came through: {}", ROWS[at].0);
            rows[at].1.push(time);
        }
    }
    rows
}

pub fn report() {
    println!("one thread, {SLOTS} slots: nanoseconds for a put and a take, the middle of {RUNS} runs (and their middle half),");
    println!("and the time of another row over this one's");
    for batch in [1, SLICE as u64] {
        println!("batches of {batch}, slices of {SLICE}:");
        report_rows(&times(batch), &["kit's rtrb", "plain Rust", "plain C", "plain Rust, slices", "duo"]);
    }
}
