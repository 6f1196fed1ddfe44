//! Whole worlds beside plain Rust in one run: events a second within a core, over rings between two cores, and over circuits of three links, with 10 to
//! 1,000 bindings at one dispatcher a side or at as many. The two sides take turns; each figure is the least of several runs.
//!
//! `cargo run --release` prints all; a word of a row's name prints that row, the word `instructions` counts instructions (by valgrind) in place of
//! time, and the word `memory` tells what a binding takes.

#[allow(dead_code)]
#[path = "../../calls/src/plain.rs"]
mod calls;
#[allow(dead_code)]
#[path = "../../stubs/src/plain.rs"]
mod plain;
#[allow(dead_code)]
#[path = "../../stubs/src/receiver.rs"]
mod receiver;
#[path = "../../cores/src/ring.rs"]
mod ring;
mod rounds;
mod world;

use calls::{ArgType, Call, Interface, Scalar, Type, Value};
use plain::{Op, Stub};
use receiver::TakeOp;
use rounds::{Joint, Shape};
use std::env;
use std::ffi::c_void;
use std::hint::black_box;
use std::process::Command;

extern "C" {
    // A `&[u8]` crosses as a pointer and a length. The answer is a sum over what was handled.
    fn world_bench(
        text: *const u8,
        len: usize,
        call: *const u8,
        call_len: usize,
        joint: u64,
        bindings: usize,
        first: usize,
        dispatchers: usize,
        slots: u32,
        as_scripts: bool,
        rounds: u64,
    ) -> u64;
    fn clock_gettime(clock: i32, time: *mut [i64; 2]) -> i32;
    fn malloc_usable_size(place: *mut c_void) -> usize;
    fn __libc_malloc(size: usize) -> *mut c_void;
    fn __libc_calloc(count: usize, size: usize) -> *mut c_void;
    fn __libc_realloc(old: *mut c_void, size: usize) -> *mut c_void;
    fn __libc_free(old: *mut c_void);
}

/// What is counted of memory; nothing here runs in two threads.
struct Counts {
    requests: u64,
    /// Whether bytes are counted: what is taken now, and the most at once.
    bytes: bool,
    taken: i64,
    most: i64,
}

static mut COUNTS: Counts = Counts { requests: 0, bytes: false, taken: 0, most: 0 };

unsafe fn takes(place: *mut c_void) {
    if COUNTS.bytes {
        COUNTS.taken += malloc_usable_size(place) as i64;
        COUNTS.most = COUNTS.most.max(COUNTS.taken);
    }
}

unsafe fn gives(place: *mut c_void) {
    if COUNTS.bytes {
        COUNTS.taken -= malloc_usable_size(place) as i64;
    }
}

#[no_mangle]
unsafe extern "C" fn malloc(size: usize) -> *mut c_void {
    COUNTS.requests += 1;
    let place = __libc_malloc(size);
    takes(place);
    place
}

#[no_mangle]
unsafe extern "C" fn calloc(count: usize, size: usize) -> *mut c_void {
    COUNTS.requests += 1;
    let place = __libc_calloc(count, size);
    takes(place);
    place
}

#[no_mangle]
unsafe extern "C" fn realloc(old: *mut c_void, size: usize) -> *mut c_void {
    COUNTS.requests += 1;
    gives(old);
    let place = __libc_realloc(old, size);
    takes(place);
    place
}

#[no_mangle]
unsafe extern "C" fn free(old: *mut c_void) {
    gives(old);
    __libc_free(old);
}

/// What is timed: how many events each binding has in a round, and the slots of a queue or ring.
struct Work {
    name: &'static str,
    joint: Joint,
    events: u64,
    slots: u32,
}

const WORK: [Work; 3] = [
    Work { name: "local: call, write, turn", joint: Joint::Local, events: 3, slots: 8 },
    Work { name: "ump: call, write, two turns, ack, turn", joint: Joint::Ump, events: 6, slots: 8 },
    Work { name: "hop: call, write, three forwards, turn, three times mack and forward", joint: Joint::Hop, events: 12, slots: 64 },
];

// Bindings, how many of them make calls, and dispatchers of each side.
const SHAPES: [(usize, usize, usize); 6] = [(10, 10, 1), (1_000, 10, 1), (1_000, 1_000, 1), (10, 10, 10), (1_000, 10, 100), (1_000, 1_000, 100)];

// A turn of a dispatcher looks at the ring that it looked at longest ago. So where not all bindings at a dispatcher make calls, those that do don't come up in
// a round of theirs alone.
fn applies(work: &Work, (bindings, calling, dispatchers): (usize, usize, usize)) -> bool {
    work.joint != Joint::Ump || calling == bindings || dispatchers > calling
}

const EVENTS: u64 = 600_000;
const RUNS: usize = 15;

const TEXT: &str = "interface i { message ping(uint32 v); }";
const CALL: &str = "ping(7)";

// Longer calls, of which the memory is told.
const LONGER: [(&str, &str); 3] = [
    ("eight words", "interface i { message words(uint64 a, uint64 b, uint64 c, uint64 d, uint64 e, uint64 f, uint64 g, uint64 h); }"),
    ("a text of up to 500 bytes", "interface i { message text(string s[500]); }"),
    ("a text of up to 4,096 bytes", "interface i { message text(string s[4096]); }"),
];

fn stub() -> Stub {
    let types = Interface { messages: vec![vec![ArgType::Fixed(Type::Scalar(Scalar::Unsigned(4)))]] };
    let call = Call { msg: 0, args: vec![Value::Int(7)] };
    Stub::new(types, call, vec![Op::Emit(4), Op::End], vec![TakeOp::Read(4), TakeOp::Done])
}

/// How the proved side does events: as scripts do those that they repeat, or each by `replay`.
#[derive(Clone, Copy, PartialEq)]
enum Way {
    AsScripts,
    Replay,
}

fn proved(text: &str, call: &str, shape: Shape, way: Way, rounds: u64) -> u64 {
    let Shape { joint, bindings, first, dispatchers, slots } = shape;
    let (text, call, joint, as_scripts) = (text.as_bytes(), call.as_bytes(), joint as u64, way == Way::AsScripts);
    // The library asks nothing of the texts, and reads them during the call alone.
    let sum = unsafe { world_bench(text.as_ptr(), text.len(), call.as_ptr(), call.len(), joint, bindings, first, dispatchers, slots, as_scripts, rounds) };
    assert_ne!(sum, 0, "something was refused");
    sum
}

// The processor's time of this thread so far, which other work on the machine doesn't add to.
fn now() -> f64 {
    let mut time = [0; 2];
    assert_eq!(unsafe { clock_gettime(3, &mut time) }, 0, "no clock");
    time[0] as f64 * 1e9 + time[1] as f64
}

fn nanoseconds(run: &dyn Fn(u64) -> u64, rounds: u64) -> (f64, u64) {
    let start = now();
    let sum = black_box(run(black_box(rounds)));
    (now() - start, sum)
}

/// The least times of what is made before the rounds (with one of them), and of that with all rounds.
struct Times {
    before: f64,
    all: f64,
}

impl Times {
    const fn new() -> Times {
        Times { before: f64::MAX, all: f64::MAX }
    }

    // One run more: its sum.
    fn add(&mut self, run: &dyn Fn(u64) -> u64, rounds: u64) -> u64 {
        self.before = self.before.min(nanoseconds(run, 1).0);
        let (time, sum) = nanoseconds(run, rounds + 1);
        self.all = self.all.min(time);
        sum
    }
}

// Requests for memory in so many rounds.
fn requests(run: &dyn Fn(u64) -> u64, rounds: u64) -> u64 {
    let count = |rounds| unsafe {
        let before = COUNTS.requests;
        black_box(run(rounds));
        COUNTS.requests - before
    };
    count(rounds + 1) - count(1)
}

fn shape_of(work: &Work, (bindings, calling, dispatchers): (usize, usize, usize)) -> Shape {
    Shape { joint: work.joint, bindings, first: bindings - calling, dispatchers, slots: work.slots }
}

fn report(work: &Work, stub: &Stub, numbers: (usize, usize, usize)) {
    let shape = shape_of(work, numbers);
    let (bindings, calling, dispatchers) = numbers;
    let rounds = EVENTS / (calling as u64 * work.events);
    let ours = |rounds| proved(TEXT, CALL, shape, Way::AsScripts, rounds);
    let replayed = |rounds| proved(TEXT, CALL, shape, Way::Replay, rounds);
    let theirs = |rounds| rounds::run(stub, shape, rounds);
    let sides: [&dyn Fn(u64) -> u64; 3] = [&ours, &replayed, &theirs];
    let mut times = [const { Times::new() }; 3];
    for _ in 0..RUNS {
        for (times, side) in times.iter_mut().zip(sides) {
            assert_eq!(times.add(side, rounds), 1 + 8 * (rounds + 1) * calling as u64, "not each call was handled");
        }
    }
    let events = (rounds * calling as u64 * work.events) as f64;
    let [ours_takes, replay_takes, plain_takes] = times.map(|times| (times.all - times.before) / events);
    let asked = requests(&ours, rounds) as f64 / events;
    println!(
        "{bindings:>6} bindings, {calling:>5} of them call, {dispatchers:>4} dispatchers: as scripts do {ours_takes:6.1} ns an event, replayed {replay_takes:6.1}, plain {plain_takes:6.1}   ratio {:.2}, {:.2}   requests for memory {asked:.2}",
        plain_takes / ours_takes,
        plain_takes / replay_takes
    );
}

// The most bytes that were taken at once.
fn most(run: &dyn Fn() -> u64) -> i64 {
    unsafe {
        COUNTS.bytes = true;
        (COUNTS.taken, COUNTS.most) = (0, 0);
        black_box(run());
        COUNTS.bytes = false;
        COUNTS.most
    }
}

// What each of 990 bindings more takes, beside ten.
fn each(world: &dyn Fn(usize) -> u64) -> f64 {
    (most(&|| world(1_000)) - most(&|| world(10))) as f64 / 990.0
}

fn report_memory(work: &Work, stub: &Stub) {
    let shape = |bindings| shape_of(work, (bindings, bindings, 1));
    let ours = each(&|bindings| proved(TEXT, CALL, shape(bindings), Way::AsScripts, 0));
    let theirs = each(&|bindings| rounds::run(stub, shape(bindings), 0));
    println!("{}, {} slots: a binding takes {ours:.0} bytes   plain {theirs:.0}", work.name, work.slots);
    for (name, text) in LONGER {
        println!("    calls of {name}: {:.0} bytes", each(&|bindings| proved(text, "", shape(bindings), Way::AsScripts, 0)));
    }
}

/// One run of a side, for a count of its instructions: work, side, bindings, calling, dispatchers, rounds.
fn run_once(words: &[String]) {
    let numbers: Vec<usize> = words.iter().map(|word| word.parse().expect("a number")).collect();
    let [work, side, bindings, calling, dispatchers, rounds] = numbers[..] else {
        panic!("six numbers");
    };
    let shape = shape_of(&WORK[work], (bindings, calling, dispatchers));
    black_box(match side {
        0 => proved(TEXT, CALL, shape, Way::AsScripts, rounds as u64),
        1 => proved(TEXT, CALL, shape, Way::Replay, rounds as u64),
        _ => rounds::run(&stub(), shape, rounds as u64),
    });
}

// The instructions of such a run, by valgrind.
fn instructions(numbers: [usize; 6]) -> f64 {
    let program = env::current_exe().expect("this program");
    let run = Command::new("valgrind")
        .args(["--tool=callgrind", "--callgrind-out-file=/dev/null"])
        .arg(program)
        .arg("once")
        .args(numbers.map(|number| number.to_string()))
        .output()
        .expect("valgrind");
    let said = String::from_utf8_lossy(&run.stderr);
    let count = said.split("Collected :").nth(1).expect("a count");
    count.trim().split_whitespace().next().expect("a number").parse().expect("a number")
}

fn count_instructions() {
    for (number, work) in WORK.iter().enumerate() {
        println!("{}", work.name);
        for (bindings, calling, dispatchers) in SHAPES.into_iter().filter(|shape| applies(work, *shape)) {
            let rounds = 1 + 10_000 / calling;
            let [ours, replayed, theirs] = [0, 1, 2].map(|side| {
                let more = instructions([number, side, bindings, calling, dispatchers, 1 + rounds]);
                let once = instructions([number, side, bindings, calling, dispatchers, 1]);
                (more - once) / (rounds * calling) as f64 / work.events as f64
            });
            println!("{bindings:>6} bindings, {calling:>5} of them call, {dispatchers:>4} dispatchers: as scripts do {ours:4.0} instructions an event, replayed {replayed:4.0}, plain {theirs:4.0}");
        }
    }
}

fn main() {
    let words: Vec<String> = env::args().skip(1).collect();
    let stub = stub();
    match words.first().map(String::as_str) {
        Some("once") => return run_once(&words[1..]),
        Some("instructions") => return count_instructions(),
        Some("memory") => return WORK.iter().for_each(|work| report_memory(work, &stub)),
        _ => {}
    }
    println!("{EVENTS} events a run, the least of {RUNS} runs, by the processor's time");
    for work in &WORK {
        if words.is_empty() || words.iter().any(|word| work.name.contains(word.as_str())) {
            println!("{}", work.name);
            for shape in SHAPES.into_iter().filter(|shape| applies(work, *shape)) {
                report(work, &stub, shape);
            }
        }
    }
}
