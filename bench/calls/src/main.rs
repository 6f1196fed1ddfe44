//! Fragments of calls made and read: the proved crates beside plain Rust, in one run.
//!
//! Runs of the two sides take turns. Each figure is that of the least time, in millions of calls a second:
//! other work of the machine only makes a run longer.

mod plain;

use plain::{ArgType, Call, Interface, Scalar, Type, Value};
use std::hint::black_box;
use std::time::Instant;

// A `&[u8]` crosses as a pointer and a length. The answer is a sum over what was made.
type Proved = unsafe extern "C" fn(*const u8, usize, *const u8, usize, bool, u64) -> u64;

extern "C" {
    fn calls_bench_make(text: *const u8, len: usize, call: *const u8, call_len: usize, second: bool, count: u64) -> u64;
    fn calls_bench_read(text: *const u8, len: usize, call: *const u8, call_len: usize, second: bool, count: u64) -> u64;
    fn calls_bench_both(text: *const u8, len: usize, call: *const u8, call_len: usize, second: bool, count: u64) -> u64;
}

type Plain = fn(&Interface, bool, &Call, u64) -> u64;

const WORK: [(&str, Proved, Plain); 3] = [
    ("make", calls_bench_make, plain::make),
    ("read", calls_bench_read, plain::read_again),
    ("make and read", calls_bench_both, plain::both),
];

const CALLS: u64 = 2_000;
const RUNS: usize = 401;

/// A message and a call of it, as text and as plain values.
struct Row {
    name: &'static str,
    interface: &'static str,
    call: String,
    types: Interface,
    value: Call,
}

fn one_message(args: Vec<ArgType>) -> Interface {
    Interface { messages: vec![args] }
}

fn unsigned(bytes: usize) -> ArgType {
    ArgType::Fixed(Type::Scalar(Scalar::Unsigned(bytes)))
}

fn rows() -> [Row; 3] {
    let text = "x".repeat(49);
    let numbers: Vec<i128> = (1..=8).map(|k| k * 0x0123_4567_89ab).collect();
    let listed = |numbers: &[i128]| numbers.iter().map(i128::to_string).collect::<Vec<_>>().join(", ");
    let pair = || Type::Struct(vec![Type::Scalar(Scalar::Unsigned(1)), Type::Scalar(Scalar::Signed(8))]);
    let pairs: Vec<i128> = (1..=7).collect();
    [
        Row {
            name: "uint8, 49-byte string, uint16",
            interface: "interface i { message m(uint8 a, string s, uint16 b); }",
            call: format!("m(1, \"{text}\", 5)"),
            types: one_message(vec![unsigned(1), ArgType::Text(2047), unsigned(2)]),
            value: Call { msg: 0, args: vec![Value::Int(1), Value::Text(text.into_bytes()), Value::Int(5)] },
        },
        Row {
            name: "eight uint64",
            interface: "interface i { message m(uint64 a, uint64 b, uint64 c, uint64 d, uint64 e, uint64 f, uint64 g, uint64 h); }",
            call: format!("m({})", listed(&numbers)),
            types: one_message((0..8).map(|_| unsigned(8)).collect()),
            value: Call { msg: 0, args: numbers.iter().map(|n| Value::Int(*n)).collect() },
        },
        Row {
            name: "seven structs of uint8, int64",
            interface: "interface i { typedef struct { uint8 a; int64 b; } t; message m(t x[n]); }",
            call: format!("m([{}])", pairs.iter().map(|n| format!("{{{n}, -{n}}}")).collect::<Vec<_>>().join(", ")),
            types: one_message(vec![ArgType::Sized(1024, pair())]),
            value: Call {
                msg: 0,
                args: vec![Value::List(
                    pairs.iter().map(|n| Value::Fields(vec![Value::Int(*n), Value::Int(-n)])).collect(),
                )],
            },
        },
    ]
}

fn proved(work: Proved, row: &Row, second: bool, count: u64) -> u64 {
    let (text, call) = (row.interface.as_bytes(), row.call.as_bytes());
    // The library asks nothing of the texts, and reads them during the call alone.
    unsafe { work(text.as_ptr(), text.len(), call.as_ptr(), call.len(), second, count) }
}

fn seconds(run: impl Fn() -> u64, wanted: u64) -> f64 {
    let start = Instant::now();
    let sum = black_box(run());
    let time = start.elapsed().as_secs_f64();
    assert_eq!(sum, wanted, "the two sides made other calls");
    time
}

fn main() {
    println!("{CALLS} calls a run, the least of {RUNS} runs, millions of calls a second");
    for row in rows() {
        for second in [false, true] {
            println!("{}, plan {}", row.name, if second { 2 } else { 1 });
            for (name, ours, theirs) in WORK {
                let wanted = theirs(&row.types, second, &row.value, CALLS);
                let (mut a, mut b) = (f64::MAX, f64::MAX);
                for _ in 0..RUNS {
                    a = a.min(seconds(|| proved(ours, &row, second, CALLS), wanted));
                    b = b.min(seconds(|| theirs(black_box(&row.types), second, black_box(&row.value), CALLS), wanted));
                }
                let speed = |time: f64| CALLS as f64 / time / 1e6;
                println!("{name:>16}: proved {:6.3}   plain Rust {:6.3}   ratio {:.2}", speed(a), speed(b), b / a);
            }
        }
    }
}
