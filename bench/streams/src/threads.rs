//! One side in each of two threads. Each run is a process: of the proved programs, or of this one started anew.

use crate::plain::{self, line, sum_of, Consumer, Producer};
use crate::{c_ring, quarter, report_rows, SLICE};
use std::env;
use std::hint::spin_loop;
use std::path::{Path, PathBuf};
use std::process::Command;
use std::thread;
use std::time::Instant;

const RUNS: usize = 60;
const SLOTS: usize = 64;
const FRAGMENTS: u64 = 96_000;
const PAUSES: [u64; 3] = [0, 20, 100];

/// How many fragments are timed at once. Other work on the machine takes a thread its processor now and then; the median
/// leaves such a stretch out.
pub const STRETCH: u64 = 1_000;

/// The times of the stretches so far, in nanoseconds a stretch.
struct Watch {
    since: Instant,
    taken: u64,
    times: Vec<u64>,
}

impl Watch {
    fn new() -> Watch {
        Watch {
            since: Instant::now(),
            taken: 0,
            times: Vec::new(),
        }
    }

    #[inline]
    fn count(&mut self, more: u64) {
        self.taken += more;
        if self.taken >= STRETCH {
            let now = Instant::now();
            let time = (now - self.since).as_nanos() as u64;
            self.times.push(time * STRETCH / self.taken);
            self.since = now;
            self.taken = 0;
        }
    }
}

fn pause(pauses: u64) {
    for _ in 0..pauses {
        spin_loop();
    }
}

fn puts(mut producer: Producer, count: u64, pauses: u64) {
    let mut next = 0;
    while next < count {
        if producer.put(line(next)) {
            next += 1;
        } else {
            pause(pauses);
        }
    }
}

fn puts_slices(mut producer: Producer, count: u64, pauses: u64) {
    let mut lines = [[0; 8]; SLICE];
    let mut next = 0;
    while next < count {
        for k in 0..SLICE {
            lines[k] = line(next + k as u64);
        }
        while !producer.put_all(&lines) {
            pause(pauses);
        }
        next += SLICE as u64;
    }
}

fn takes(mut consumer: Consumer, count: u64, pauses: u64) -> (u64, Vec<u64>) {
    let mut watch = Watch::new();
    let (mut taken, mut sum) = (0, 0u64);
    while taken < count {
        match consumer.take() {
            Some(line) => {
                sum = sum.wrapping_add(sum_of(&line));
                taken += 1;
                watch.count(1);
            }
            None => pause(pauses),
        }
    }
    (sum, watch.times)
}

fn takes_slices(mut consumer: Consumer, count: u64, pauses: u64) -> (u64, Vec<u64>) {
    let mut watch = Watch::new();
    let (mut taken, mut sum) = (0, 0u64);
    let mut lines = [[0; 8]; SLICE];
    while taken < count {
        let n = consumer.take_all(&mut lines);
        if n == 0 {
            pause(pauses);
            continue;
        }
        for line in &lines[..n] {
            sum = sum.wrapping_add(sum_of(line));
        }
        taken += n as u64;
        watch.count(n as u64);
    }
    (sum, watch.times)
}

/// Runs each in a thread.
fn both<A: Send>(one: impl FnOnce() + Send, two: impl FnOnce() -> A) -> A {
    thread::scope(|scope| {
        scope.spawn(one);
        two()
    })
}

fn plain_run(kind: &str, slots: usize, count: u64, pauses: u64) -> (u64, Vec<u64>) {
    match kind {
        "rust" => {
            let (producer, consumer) = plain::ring(slots);
            both(|| puts(producer, count, pauses), || takes(consumer, count, pauses))
        }
        "rust-slices" => {
            let (producer, consumer) = plain::ring(slots);
            both(
                || puts_slices(producer, count, pauses),
                || takes_slices(consumer, count, pauses),
            )
        }
        _ => {
            let at_once = if kind == "c" { 1 } else { SLICE };
            let ring = c_ring::Ring::new(slots);
            let far = ring;
            let taken = both(
                move || far.puts(count, pauses, at_once),
                || ring.takes(count, pauses, at_once),
            );
            ring.free();
            taken
        }
    }
}

/// The plain program: a run of one kind, by the words that the proved programs take.
pub fn run_plain(mut words: impl Iterator<Item = String>) {
    let kind = words.next().expect("a kind");
    let mut number = || -> u64 {
        let word = words.next().expect("a number");
        word.parse().expect("a number")
    };
    let (slots, count, pauses) = (number() as usize, number(), number());
    let (sum, times) = plain_run(&kind, slots, count, pauses);
    println!("{sum}");
    for time in times {
        println!("{time}");
    }
}

/// What is measured: its name, its program (none: this one), its word there, how many ways fragments go, and whether its
/// blocks lie on cache lines of their own.
struct Row {
    name: &'static str,
    program: Option<&'static str>,
    word: &'static str,
    ways: u64,
    on_lines: bool,
}

const STREAMS: Option<&str> = Some(env!("FLOUNDER_STREAMS"));
const THREADS: Option<&str> = Some(env!("FLOUNDER_THREADS"));

const fn row(name: &'static str, program: Option<&'static str>, word: &'static str) -> Row {
    let ways = if program.is_some() && word.len() == 3 { 2 } else { 1 };
    Row {
        name,
        program,
        word,
        ways,
        on_lines: false,
    }
}

const fn on_lines(name: &'static str, word: &'static str) -> Row {
    Row {
        on_lines: true,
        ..row(name, STREAMS, word)
    }
}

const ROWS: [Row; 11] = [
    row("stream", STREAMS, "stream"),
    on_lines("stream, on lines", "stream"),
    row("kit's rtrb", STREAMS, "rtrb"),
    row("plain Rust", None, "rust"),
    row("plain C", None, "c"),
    row("duo", THREADS, "duo"),
    row("stream, slices", STREAMS, "stream-slices"),
    on_lines("stream, slices, on lines", "stream-slices"),
    row("kit's rtrb, slices", STREAMS, "rtrb-slices"),
    row("plain Rust, slices", None, "rust-slices"),
    row("plain C, slices", None, "c-slices"),
];

/// Nanoseconds a fragment in one run: the median of its stretches.
fn middle(row: &Row, pauses: u64) -> f64 {
    let program = match row.program {
        Some(program) => PathBuf::from(program),
        None => env::current_exe().expect("this program"),
    };
    let numbers = [SLOTS as u64, FRAGMENTS, pauses, 1, 2_048];
    let mut command = Command::new(Path::new(&program));
    if row.program.is_none() {
        command.arg("plain");
    }
    if row.on_lines {
        command.env("LD_PRELOAD", env!("LINES"));
    }
    command.arg(row.word).args(numbers.map(|n| n.to_string()));
    let output = command.output().expect("the program runs");
    let said = String::from_utf8(output.stdout).expect("text");
    let mut numbers = said.lines().map(|line| line.parse::<u64>().expect("a number"));
    let sum = numbers.next().expect("a sum");
    let wanted = row.ways * 7 * (FRAGMENTS * (FRAGMENTS - 1) / 2);
    assert_eq!(sum, wanted, "not every fragment came through: {}", row.name);
    let each = (STRETCH * row.ways) as f64;
    let mut times: Vec<f64> = numbers.map(|time| time as f64 / each).collect();
    quarter(&mut times, 2)
}

/// The times of each row; the rows take turns, and another one goes first each time.
fn times(pauses: u64) -> Vec<(&'static str, Vec<f64>)> {
    let mut rows: Vec<(&str, Vec<f64>)> = ROWS.iter().map(|row| (row.name, Vec::new())).collect();
    for run in 0..RUNS {
        for n in 0..ROWS.len() {
            let at = (n + run) % ROWS.len();
            rows[at].1.push(middle(&ROWS[at], pauses));
        }
    }
    rows
}

pub fn report() {
    println!("two threads, {SLOTS} slots: nanoseconds a fragment, the middle of {RUNS} runs (and their middle half), and the");
    println!("time of another row over this one's");
    for pauses in PAUSES {
        println!("{pauses} pauses:");
        report_rows(&times(pauses), &["kit's rtrb", "plain Rust", "plain C", "plain Rust, slices", "duo"]);
    }
}
