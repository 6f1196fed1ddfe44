//! Whole cores beside plain Rust in one run: calls over rings and over circuits between two cores, turns that find nothing, and fragments that a core
//! passes on, with 10 to 1,000 bindings at one dispatcher or at as many. The two sides take turns; each figure is the least of several runs.
//!
//! `cargo run --release` prints all; a word of a row's name prints that row, and the word `instructions` counts instructions (by valgrind) in place of time.

#[allow(dead_code)]
#[path = "../../calls/src/plain.rs"]
mod calls;
mod cores;
mod dispatcher;
#[allow(dead_code)]
#[path = "../../stubs/src/plain.rs"]
mod plain;
#[allow(dead_code)]
#[path = "../../stubs/src/receiver.rs"]
mod receiver;
mod ring;

use calls::{ArgType, Call, Interface, Scalar, Type, Value};
use cores::Shape;
use plain::{Op, Stub};
use receiver::TakeOp;
use std::env;
use std::ffi::c_void;
use std::hint::black_box;
use std::process::Command;

extern "C" {
    // A `&[u8]` crosses as a pointer and a length. The answer is a sum over what was handled.
    fn cores_bench(
        text: *const u8,
        len: usize,
        call: *const u8,
        call_len: usize,
        work: u64,
        bindings: usize,
        first: usize,
        dispatchers: usize,
        slots: usize,
        rounds: u64,
    ) -> u64;
    fn clock_gettime(clock: i32, time: *mut [i64; 2]) -> i32;
    fn __libc_malloc(size: usize) -> *mut c_void;
    fn __libc_realloc(old: *mut c_void, size: usize) -> *mut c_void;
}

// So many requests for memory there were; nothing here runs in two threads.
static mut REQUESTS: u64 = 0;

#[no_mangle]
unsafe extern "C" fn malloc(size: usize) -> *mut c_void {
    REQUESTS += 1;
    __libc_malloc(size)
}

#[no_mangle]
unsafe extern "C" fn realloc(old: *mut c_void, size: usize) -> *mut c_void {
    REQUESTS += 1;
    __libc_realloc(old, size)
}

type Plain = fn(&Stub, Shape, u64) -> u64;

/// What is timed: its number for the proved side, how many events each binding has in a round, and the slots of a ring.
struct Work {
    name: &'static str,
    number: u64,
    plain: Plain,
    events: u64,
    slots: usize,
}

const WORK: [Work; 4] = [
    Work { name: "rings: call, write, two turns, ack, turn", number: 0, plain: cores::by_rings, events: 6, slots: 8 },
    Work { name: "circuits: call, write, forward, mack, forward, turn", number: 2, plain: cores::by_circuits, events: 6, slots: 64 },
    Work { name: "onward: a fragment passed on", number: 3, plain: cores::onward, events: 1, slots: 64 },
    Work { name: "quiet: a turn that finds nothing", number: 1, plain: cores::quietly, events: 1, slots: 8 },
];

// Bindings, how many of them make calls, and dispatchers.
const SHAPES: [(usize, usize, usize); 6] =
    [(10, 10, 1), (1_000, 10, 1), (1_000, 1_000, 1), (10, 10, 10), (1_000, 10, 1_000), (1_000, 1_000, 1_000)];

const EVENTS: u64 = 600_000;
const RUNS: usize = 15;

const TEXT: &str = "interface i { message ping(uint32 v); }";
const CALL: &str = "ping(7)";

fn stub() -> Stub {
    let types = Interface { messages: vec![vec![ArgType::Fixed(Type::Scalar(Scalar::Unsigned(4)))]] };
    let call = Call { msg: 0, args: vec![Value::Int(7)] };
    Stub::new(types, call, vec![Op::Emit(4), Op::End], vec![TakeOp::Read(4), TakeOp::Done])
}

fn proved(work: &Work, shape: Shape, rounds: u64) -> u64 {
    let Shape { bindings, first, dispatchers, slots } = shape;
    // The library asks nothing of the texts, and reads them during the call alone.
    unsafe { cores_bench(TEXT.as_ptr(), TEXT.len(), CALL.as_ptr(), CALL.len(), work.number, bindings, first, dispatchers, slots, rounds) }
}

// The processor's time of this thread so far, which other work on the machine doesn't add to.
fn now() -> f64 {
    let mut time = [0; 2];
    assert_eq!(unsafe { clock_gettime(3, &mut time) }, 0, "no clock");
    time[0] as f64 * 1e9 + time[1] as f64
}

fn nanoseconds(run: &dyn Fn(u64) -> u64, rounds: u64) -> (f64, u64) {
    let start = now();
    let sum = black_box(run(black_box(rounds)));
    (now() - start, sum)
}

/// The least times of what is made before the rounds (with one of them), and of that with all rounds.
struct Times {
    before: f64,
    all: f64,
}

impl Times {
    fn new() -> Times {
        Times { before: f64::MAX, all: f64::MAX }
    }

    // One run more: its sum.
    fn add(&mut self, run: &dyn Fn(u64) -> u64, rounds: u64) -> u64 {
        self.before = self.before.min(nanoseconds(run, 1).0);
        let (time, sum) = nanoseconds(run, rounds + 1);
        self.all = self.all.min(time);
        sum
    }
}

// Requests for memory in so many rounds.
fn requests(run: &dyn Fn(u64) -> u64, rounds: u64) -> u64 {
    let count = |rounds| unsafe {
        let before = REQUESTS;
        black_box(run(rounds));
        REQUESTS - before
    };
    count(rounds + 1) - count(1)
}

fn report(work: &Work, stub: &Stub, (bindings, calling, dispatchers): (usize, usize, usize)) {
    let shape = Shape { bindings, first: bindings - calling, dispatchers, slots: work.slots };
    let rounds = EVENTS / (calling as u64 * work.events);
    let ours = |rounds| proved(work, shape, rounds);
    let theirs = |rounds| (work.plain)(stub, shape, rounds);
    let (mut a, mut b) = (Times::new(), Times::new());
    for _ in 0..RUNS {
        assert_eq!(a.add(&ours, rounds), b.add(&theirs, rounds), "the two sides handled other calls");
    }
    let events = (rounds * calling as u64 * work.events) as f64;
    let (a, b) = ((a.all - a.before) / events, (b.all - b.before) / events);
    let asked = requests(&ours, rounds) as f64 / events;
    println!(
        "{bindings:>6} bindings, {calling:>5} of them call, {dispatchers:>5} dispatchers: proved {a:7.1} ns an event ({:6.2} M/s)   plain {b:7.1}   ratio {:.2}   requests for memory {asked:.2}",
        1e3 / a,
        b / a
    );
}

/// One run of a side, for a count of its instructions: work, side, bindings, calling, dispatchers, rounds.
fn run_once(words: &[String]) {
    let numbers: Vec<usize> = words.iter().map(|word| word.parse().expect("a number")).collect();
    let [work, side, bindings, calling, dispatchers, rounds] = numbers[..] else {
        panic!("six numbers");
    };
    let work = &WORK[work];
    let shape = Shape { bindings, first: bindings - calling, dispatchers, slots: work.slots };
    black_box(if side == 0 { proved(work, shape, rounds as u64) } else { (work.plain)(&stub(), shape, rounds as u64) });
}

// The instructions of such a run, by valgrind.
fn instructions(numbers: [usize; 6]) -> f64 {
    let program = env::current_exe().expect("this program");
    let run = Command::new("valgrind")
        .args(["--tool=callgrind", "--callgrind-out-file=/dev/null"])
        .arg(program)
        .arg("once")
        .args(numbers.map(|number| number.to_string()))
        .output()
        .expect("valgrind");
    let said = String::from_utf8_lossy(&run.stderr);
    let count = said.split("Collected :").nth(1).expect("a count");
    count.trim().split_whitespace().next().expect("a number").parse().expect("a number")
}

fn count_instructions() {
    for (number, work) in WORK.iter().enumerate() {
        println!("{}", work.name);
        for (bindings, calling, dispatchers) in SHAPES {
            let rounds = 1 + 10_000 / calling;
            let [ours, theirs] = [0, 1].map(|side| {
                let more = instructions([number, side, bindings, calling, dispatchers, 1 + rounds]);
                let once = instructions([number, side, bindings, calling, dispatchers, 1]);
                (more - once) / (rounds * calling) as f64 / work.events as f64
            });
            println!("{bindings:>6} bindings, {calling:>5} of them call, {dispatchers:>5} dispatchers: proved {ours:4.0} instructions an event   plain {theirs:4.0}");
        }
    }
}

fn main() {
    let words: Vec<String> = env::args().skip(1).collect();
    match words.first().map(String::as_str) {
        Some("once") => return run_once(&words[1..]),
        Some("instructions") => return count_instructions(),
        _ => {}
    }
    let stub = stub();
    println!("{EVENTS} events a run, the least of {RUNS} runs, by the processor's time");
    for work in &WORK {
        if words.is_empty() || words.iter().any(|word| work.name.contains(word.as_str())) {
            println!("{}", work.name);
            for shape in SHAPES {
                report(work, &stub, shape);
            }
        }
    }
}
