//! Cores on threads: `flounder cores` beside a plain program that runs the same files with the same rings and turns, a thread for each core.
//!
//! `cargo run --release -- FLOUNDER` runs all kinds of files with the built program FLOUNDER; a word behind it (`ring`, `circuit`, `hops`, `rule`) runs one.
//! Each run is a process: the sides take turns, each first as often as the others, and have to write the same report. A run's time ends with its report: one
//! that is recorded makes a script behind that, which the time to its end tells. The time of the turns is that of a whole run less that of a run of the same
//! file without turns, which reads it and wires the cores. With the word `recording` the sides are the program, the same recorded, and the program once more,
//! whose ratio tells what noise comes to; a number behind it says how often each runs. "By rounds" is the middle of the ratios of whole runs of one round,
//! which follow one another: what slows the machine for a while slows all of them. With the word `instructions` those of turns over a ring are counted in
//! place of time, by valgrind.

#[allow(dead_code)]
#[path = "../../calls/src/plain.rs"]
mod calls;
mod core;
#[path = "../../cores/src/dispatcher.rs"]
mod dispatcher;
mod files;
#[allow(dead_code)]
#[path = "../../stubs/src/plain.rs"]
mod machine;
#[allow(dead_code)]
#[path = "../../rings/src/plain.rs"]
mod queue;
mod reading;
#[allow(dead_code)]
#[path = "../../stubs/src/receiver.rs"]
mod receiver;
mod run;
#[allow(dead_code)]
#[path = "../../rings/src/shared.rs"]
mod shared;

/// What the modules of other benchmarks know by this name.
mod plain {
    pub use crate::machine::*;
    pub use crate::queue::*;
}

use files::{KINDS, Kind};
use run::Plan;
use std::env;
use std::fs;
use std::io::Read;
use std::path::{Path, PathBuf};
use std::process::{Command, Stdio, exit};
use std::thread;
use std::time::Instant;

/// How many calls a file has, and how often each side runs it: short runs, since other work on the machine takes a thread its processor now and then, and
/// the least of many.
const CALLS: u64 = 4_000;
const RUNS: usize = 60;
const RECORDED_RUNS: usize = 200;

/// More turns than any run takes.
const MANY: u64 = 1_000_000_000_000;

/// How often a plain core pauses that found nothing to do.
const PAUSES: [u64; 2] = [0, 20];

/// The last line of a report.
const ENDS: [&[u8]; 2] = [b"complete\n", b"turns out\n"];

/// A program that runs cores files.
enum Side {
    Proved(PathBuf),
    Again(PathBuf),
    Recorded(PathBuf),
    Plain(u64),
}

/// What a run came to: the milliseconds until its report was written, and until its end; and the report.
struct Outcome {
    told: f64,
    ended: f64,
    report: Vec<u8>,
}

impl Side {
    fn name(&self) -> String {
        match self {
            Side::Proved(_) => "flounder".to_string(),
            Side::Again(_) => "flounder again".to_string(),
            Side::Recorded(_) => "recorded".to_string(),
            Side::Plain(0) => "plain".to_string(),
            Side::Plain(pauses) => format!("plain, {pauses} pauses"),
        }
    }

    fn command(&self, file: &Path, turns: u64) -> Command {
        match self {
            Side::Proved(program) | Side::Again(program) => {
                let mut command = Command::new(program);
                command.arg("cores").arg(file).args(["--turns".to_string(), turns.to_string()]);
                command
            }
            Side::Recorded(program) => {
                let mut command = Side::Proved(program.clone()).command(file, turns);
                command.arg("--script").arg(file.with_extension("flounder"));
                command
            }
            Side::Plain(pauses) => {
                let mut command = Command::new(env::current_exe().expect("this program"));
                command.arg("plain").arg(file).args([turns.to_string(), pauses.to_string()]);
                command
            }
        }
    }

    fn run(&self, file: &Path, turns: u64) -> Outcome {
        let start = Instant::now();
        let mut child = self.command(file, turns).stdout(Stdio::piped()).stderr(Stdio::null()).spawn().expect("the program runs");
        let mut output = child.stdout.take().expect("its output");
        let (mut report, mut part) = (Vec::new(), [0; 65_536]);
        while !ENDS.iter().any(|end| report.ends_with(end)) {
            match output.read(&mut part).expect("its report") {
                0 => break,
                count => report.extend_from_slice(&part[..count]),
            }
        }
        let told = start.elapsed().as_secs_f64() * 1e3;
        child.wait().expect("its end");
        Outcome { told, ended: start.elapsed().as_secs_f64() * 1e3, report }
    }
}

/// The times of a side: without turns, of whole runs, and of these to their ends.
#[derive(Default)]
struct Times {
    reading: Vec<f64>,
    whole: Vec<f64>,
    ended: Vec<f64>,
}

impl Times {
    // Of whole runs, of their turns, and to their ends, the time at this part of all.
    fn at(&mut self, part: f64) -> [f64; 3] {
        let [reading, whole, ended] = [&mut self.reading, &mut self.whole, &mut self.ended].map(|times| {
            times.sort_by(f64::total_cmp);
            times[(part * (times.len() - 1) as f64) as usize]
        });
        [whole, whole - reading, ended]
    }
}

// Runs each side once; all reports have to be the same. What ran before tells in a run's time, by some tenths of a millisecond behind a recorded
// run, which works on for long: so each is behind a run of the first side, which isn't counted.
fn round(sides: &[Side], file: &Path, first: usize, times: &mut [Times]) {
    let mut reports = Vec::new();
    let behind_first = |side: &Side, turns: u64| {
        sides[0].run(file, MANY);
        side.run(file, turns)
    };
    for k in 0..sides.len() {
        let k = (first + k) % sides.len();
        let reading = behind_first(&sides[k], 0);
        let whole = behind_first(&sides[k], MANY);
        times[k].reading.push(reading.told);
        times[k].whole.push(whole.told);
        times[k].ended.push(whole.ended);
        reports.push(whole.report);
    }
    assert!(reports[0].ends_with(b"complete\n"), "a run isn't complete");
    assert!(reports.iter().all(|report| *report == reports[0]), "the reports differ");
}

fn sides(program: &Path, pauses: &[u64]) -> Vec<Side> {
    let plain = pauses.iter().map(|pauses| Side::Plain(*pauses));
    [Side::Proved(program.to_path_buf()), Side::Recorded(program.to_path_buf())].into_iter().chain(plain).collect()
}

// The program without and with recording, and without once more.
fn recorded_sides(program: &Path) -> Vec<Side> {
    let program = program.to_path_buf();
    vec![Side::Proved(program.clone()), Side::Recorded(program.clone()), Side::Again(program)]
}

// A file of this kind, for as long as it is needed.
fn with_file(kind: &Kind, run: impl FnOnce(&Path)) {
    let file = env::temp_dir().join(format!("threads-bench-{}.cores", kind.word));
    fs::write(&file, (kind.text)(CALLS)).expect("a file");
    run(&file);
    fs::remove_file(&file).expect("the file");
    let _ = fs::remove_file(file.with_extension("flounder"));
}

// The middle of the ratios of these times and ours, round by round.
fn by_rounds(times: &[f64], ours: &[f64]) -> f64 {
    let mut ratios: Vec<f64> = times.iter().zip(ours).map(|(time, our)| time / our).collect();
    ratios.sort_by(f64::total_cmp);
    ratios[ratios.len() / 2]
}

// The least times of each side, and the middle ones; each time with the ratio of it and ours.
fn report(kind: &Kind, sides: &[Side], runs: usize, file: &Path) {
    let mut times: Vec<Times> = sides.iter().map(|_| Times::default()).collect();
    for run in 0..runs {
        round(sides, file, run, &mut times);
    }
    println!("{}", kind.name);
    let by_rounds: Vec<f64> = times.iter().map(|side| by_rounds(&side.whole, &times[0].whole)).collect();
    let ours = [0.0, 0.5].map(|part| times[0].at(part));
    for ((side, times), by_rounds) in sides.iter().zip(&mut times).zip(by_rounds) {
        let shown = [0.0, 0.5].map(|part| times.at(part));
        let ratio = |part: usize, of: usize| format!("{:6.2} ms ({:.2})", shown[part][of], shown[part][of] / ours[part][of]);
        println!(
            "{:<17} least: whole {}, turns {}, {:5.2} M calls/s, to its end {}   middle: whole {}, turns {}, to its end {}   whole by rounds ({by_rounds:.2})",
            side.name(),
            ratio(0, 0),
            ratio(0, 1),
            CALLS as f64 / shown[0][1] / 1e3,
            ratio(0, 2),
            ratio(1, 0),
            ratio(1, 1),
            ratio(1, 2),
        );
    }
}

// The instructions of a run, by valgrind, which runs one thread at a time.
fn instructions(side: &Side, file: &Path, turns: u64) -> f64 {
    let asked = side.command(file, turns);
    let run = Command::new("valgrind")
        .args(["--tool=callgrind", "--fair-sched=yes", "--callgrind-out-file=/dev/null"])
        .arg(asked.get_program())
        .args(asked.get_args())
        .output()
        .expect("valgrind");
    let said = String::from_utf8_lossy(&run.stderr);
    let count = said.split("Collected :").nth(1).expect("a count");
    count.trim().split_whitespace().next().expect("a number").parse().expect("a number")
}

/// Turns of each core from so many to so many, as two cores take them one after the other: a slice of valgrind's is longer.
const STRETCHES: [(&str, u64, u64); 2] = [
    ("a turn that makes and writes a call, one in four of which handles one", 20, 60),
    ("a turn that finds a full ring", 160, 260),
];

fn count_instructions(program: &Path, file: &Path) {
    for (name, from, to) in STRETCHES {
        let sides = [Side::Proved(program.to_path_buf()), Side::Plain(0)];
        let [ours, theirs] = sides.map(|side| (instructions(&side, file, to) - instructions(&side, file, from)) / (2 * (to - from)) as f64);
        println!("{name}: proved {ours:5.0} instructions, plain {theirs:5.0}, ratio {:.2}", theirs / ours);
    }
}

// The plain program: a file, turns, pauses.
fn run_plain(words: &[String]) {
    let [file, turns, pauses] = words else {
        panic!("a file, turns and pauses");
    };
    let text = fs::read_to_string(file).expect("a cores file");
    let plan = Plan { limit: turns.parse().expect("a number"), pauses: pauses.parse().expect("a number") };
    print!("{}", run::run(&reading::read(&text), plan));
    // who reads it goes first, as in the program
    thread::yield_now();
}

fn main() {
    let words: Vec<String> = env::args().skip(1).collect();
    let Some((first, rest)) = words.split_first() else {
        eprintln!("threads-bench FLOUNDER [ring|circuit|hops|rule|instructions|recording [RUNS]]");
        exit(1);
    };
    if first == "plain" {
        return run_plain(rest);
    }
    let program = Path::new(first);
    if rest.iter().any(|word| word == "instructions") {
        return with_file(&KINDS[0], |file| count_instructions(program, file));
    }
    let is_recording = rest.iter().any(|word| word == "recording");
    let (sides, usual) = if is_recording { (recorded_sides(program), RECORDED_RUNS) } else { (sides(program, &PAUSES), RUNS) };
    let runs = rest.iter().find_map(|word| word.parse().ok()).unwrap_or(usual);
    let asked = |kind: &Kind| rest.iter().any(|word| word == kind.word);
    println!("{CALLS} calls a file, {runs} runs of each side; in brackets a side's time over that of the first");
    for kind in KINDS {
        if asked(&kind) || !KINDS.iter().any(asked) {
            with_file(&kind, |file| report(&kind, &sides, runs, file));
        }
    }
}
