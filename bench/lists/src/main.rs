//! Turns of a waitset with 10 and with 1,024 channels, beside plain lists in the same run: an intrusive list by pointers, and
//! lists by numbers that do more and more of what the waitset does.
//!
//! A turn is a trigger of the next channel, the channel that the turn looks at, and that channel put
//! back into idle. Each figure is the least time of several runs, in nanoseconds a turn. The word `instructions` counts
//! instructions (by valgrind) in place of time.

mod numbers;
mod plain;

use numbers::{BELOW, LAST, NEAR, NO_MORE, REGISTERED};
use std::env;
use std::hint::black_box;
use std::process::Command;
use std::time::Instant;

extern "C" {
    fn flounder_turns(channels: u16, turns: u64) -> u64;
}

const TURNS: u64 = 100_000;
const RUNS: usize = 800;

fn proved(channels: u16, turns: u64) -> u64 {
    // The library keeps no pointer into our memory, and any two numbers are allowed.
    unsafe { flounder_turns(channels, turns) }
}

/// What makes so many turns of so many channels, and gives the sum of those that it looked at.
type Turns = fn(u16, u64) -> u64;

/// The waitset, and what it is beside.
const SIDES: [(&str, Turns); 7] = [
    ("waitset", proved),
    ("list by pointers", plain::turns),
    ("list by numbers", numbers::turns::<NO_MORE>),
    ("and asks whether one is last", numbers::turns::<LAST>),
    ("and whether it is registered", numbers::turns::<REGISTERED>),
    ("and whether there is such a one", numbers::turns::<BELOW>),
    ("and in which of two tables", numbers::turns::<NEAR>),
];

fn nanoseconds(turns: Turns, channels: u16, wanted: u64) -> f64 {
    let start = Instant::now();
    let sum = turns(channels, black_box(TURNS));
    let time = start.elapsed();
    assert_eq!(sum, wanted, "two sides took other channels");
    time.as_nanos() as f64 / TURNS as f64
}

// The least time of each side, a run of each in turn.
fn least(channels: u16) -> [f64; SIDES.len()] {
    let wanted = plain::turns(channels, TURNS);
    let mut found = [f64::MAX; SIDES.len()];
    for _ in 0..RUNS {
        for (least, (_, turns)) in found.iter_mut().zip(SIDES) {
            *least = least.min(nanoseconds(turns, channels, wanted));
        }
    }
    found
}

fn time() {
    println!("{TURNS} turns a run, the least of {RUNS} runs, nanoseconds a turn; a ratio is a list's time over the waitset's");
    let both = [10, 1_024].map(|channels| (channels, least(channels)));
    for (channels, found) in both {
        println!("{channels} channels");
        for ((name, _), time) in SIDES.iter().zip(found) {
            println!("  {name:<32} {time:6.2}   {:.2}", time / found[0]);
        }
    }
    let [(_, few), (_, many)] = both;
    println!("time with 1,024 channels over time with 10: waitset {:.2}, list by pointers {:.2}", many[0] / few[0], many[1] / few[1]);
}

// The instructions of one run of a side, by valgrind.
fn instructions(side: usize, turns: u64) -> f64 {
    let program = env::current_exe().expect("this program");
    let run = Command::new("valgrind")
        .args(["--tool=callgrind", "--callgrind-out-file=/dev/null"])
        .arg(program)
        .args(["once".to_string(), side.to_string(), turns.to_string()])
        .output()
        .expect("valgrind");
    let said = String::from_utf8_lossy(&run.stderr);
    let count = said.split("Collected :").nth(1).expect("a count");
    count.split_whitespace().next().expect("a number").parse().expect("a number")
}

fn count() {
    println!("instructions a turn, 10 channels");
    for (side, (name, _)) in SIDES.iter().enumerate() {
        let more = instructions(side, 2 * TURNS) - instructions(side, TURNS);
        println!("  {name:<32} {:4.0}", more / TURNS as f64);
    }
}

fn main() {
    let words: Vec<String> = env::args().skip(1).collect();
    let words: Vec<&str> = words.iter().map(String::as_str).collect();
    match words[..] {
        ["once", side, turns] => {
            let (side, turns): (usize, u64) = (side.parse().expect("a side"), turns.parse().expect("turns"));
            black_box(SIDES[side].1(10, turns));
        }
        ["instructions"] => count(),
        _ => time(),
    }
}
