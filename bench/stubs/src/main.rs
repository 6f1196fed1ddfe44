//! Stub code: a call's fragments given by runs of send code and taken by receive runs, beside the proved encoder and
//! reader and beside plain Rust, in one run. Last, a call from one end of a binding to the other over a queue.
//!
//! The sides take turns. Each figure is that of the least time, in nanoseconds for a call: other work of the machine only
//! makes a stretch longer.

#[allow(dead_code)]
#[path = "../../calls/src/plain.rs"]
mod calls;
mod ends;
mod plain;
mod receiver;

use calls::{ArgType, Call, Interface, Scalar, Type, Value};
use plain::{Op, Stub};
use receiver::TakeOp;
use std::env;
use std::hint::black_box;
use std::time::Instant;

// A `&[u8]` crosses as a pointer and a length. The answer is a sum over what was given.
type Proved = unsafe extern "C" fn(*const u8, usize, *const u8, usize, bool, u64) -> u64;

extern "C" {
    fn stubs_bench_give(text: *const u8, len: usize, call: *const u8, call_len: usize, second: bool, count: u64) -> u64;
    fn stubs_bench_send(text: *const u8, len: usize, call: *const u8, call_len: usize, second: bool, count: u64) -> u64;
    fn stubs_bench_encode(text: *const u8, len: usize, call: *const u8, call_len: usize, second: bool, count: u64) -> u64;
    fn stubs_bench_give_at_end(text: *const u8, len: usize, call: *const u8, call_len: usize, second: bool, count: u64) -> u64;
    fn stubs_bench_send_at_end(text: *const u8, len: usize, call: *const u8, call_len: usize, second: bool, count: u64) -> u64;
    fn stubs_bench_take(text: *const u8, len: usize, call: *const u8, call_len: usize, second: bool, count: u64) -> u64;
    fn stubs_bench_receive(text: *const u8, len: usize, call: *const u8, call_len: usize, second: bool, count: u64) -> u64;
    fn stubs_bench_assemble(text: *const u8, len: usize, call: *const u8, call_len: usize, second: bool, count: u64) -> u64;
    fn stubs_bench_assemble_again(text: *const u8, len: usize, call: *const u8, call_len: usize, second: bool, count: u64) -> u64;
    fn stubs_bench_read(text: *const u8, len: usize, call: *const u8, call_len: usize, second: bool, count: u64) -> u64;
    fn stubs_bench_pass(text: *const u8, len: usize, call: *const u8, call_len: usize, second: bool, count: u64) -> u64;
    fn stubs_bench_feed(text: *const u8, len: usize, call: *const u8, call_len: usize, second: bool, count: u64) -> u64;
}

/// One side of a comparison.
#[derive(Clone, Copy)]
enum Side {
    Proved(Proved),
    Plain(fn(&Stub, u64) -> u64),
}

/// What is timed: our side, and those that it is compared with. They all give the same fragments, or take the same calls.
struct Work {
    name: &'static str,
    ours: Side,
    others: &'static [(&'static str, Side)],
}

const WORK: [Work; 9] = [
    Work {
        name: "a tape to fragments",
        ours: Side::Proved(stubs_bench_give),
        others: &[("plain machine", Side::Plain(plain::give))],
    },
    Work {
        name: "a tape, at an end",
        ours: Side::Proved(stubs_bench_give_at_end),
        others: &[("plain machine", Side::Plain(plain::give))],
    },
    Work {
        name: "a call, at an end",
        ours: Side::Proved(stubs_bench_send_at_end),
        others: &[("plain machine", Side::Plain(plain::send)), ("plain encoder", Side::Plain(plain::encode))],
    },
    Work {
        name: "a call to fragments",
        ours: Side::Proved(stubs_bench_send),
        others: &[
            ("plain machine", Side::Plain(plain::send)),
            ("proved encoder", Side::Proved(stubs_bench_encode)),
            ("plain encoder", Side::Plain(plain::encode)),
        ],
    },
    Work {
        name: "fragments to a tape",
        ours: Side::Proved(stubs_bench_take),
        others: &[("plain machine", Side::Plain(receiver::take))],
    },
    Work {
        name: "fragments to a call",
        ours: Side::Proved(stubs_bench_receive),
        others: &[
            ("plain machine", Side::Plain(receiver::receive)),
            ("proved reader", Side::Proved(stubs_bench_read)),
            ("plain reader", Side::Plain(receiver::read)),
        ],
    },
    Work {
        name: "fragments, at an end",
        ours: Side::Proved(stubs_bench_assemble),
        others: &[
            ("plain machine", Side::Plain(receiver::receive)),
            ("proved reader", Side::Proved(stubs_bench_read)),
            ("plain reader", Side::Plain(receiver::read)),
        ],
    },
    Work {
        name: "in memory of before",
        ours: Side::Proved(stubs_bench_assemble_again),
        others: &[("plain machine", Side::Plain(receiver::receive_again))],
    },
    Work {
        name: "a call, end to end",
        ours: Side::Proved(stubs_bench_pass),
        others: &[("plain ends", Side::Plain(ends::pass)), ("proved runs", Side::Proved(stubs_bench_feed))],
    },
];

// How many fragments a timed stretch gives or takes, and how many stretches there are.
const FRAGS: u64 = 2_000;
const RUNS: usize = 401;

/// A message and a call of it, as text and for the plain side.
struct Row {
    name: &'static str,
    interface: &'static str,
    call: String,
    frags: u64,
    stub: Stub,
}

fn fixed(scalar: Scalar) -> ArgType {
    ArgType::Fixed(Type::Scalar(scalar))
}

fn ints(numbers: impl IntoIterator<Item = i128>) -> Vec<Value> {
    numbers.into_iter().map(Value::Int).collect()
}

fn listed<T: ToString>(items: impl IntoIterator<Item = T>) -> String {
    items.into_iter().map(|item| item.to_string()).collect::<Vec<_>>().join(", ")
}

fn one_message(args: Vec<ArgType>, values: Vec<Value>, send: Vec<Op>, receive: Vec<TakeOp>) -> Stub {
    Stub::new(Interface { messages: vec![args] }, Call { msg: 0, args: values }, send, receive)
}

fn scalars() -> Row {
    let numbers: [i128; 8] = [7, 1, -300, 70_000, 0x0123_4567_89ab_cdef, -5, 250, 40_000];
    let types = [
        Scalar::Unsigned(1),
        Scalar::Bool,
        Scalar::Signed(2),
        Scalar::Unsigned(4),
        Scalar::Unsigned(8),
        Scalar::Signed(8),
        Scalar::Unsigned(1),
        Scalar::Unsigned(2),
    ];
    let send = vec![
        Op::Emit(1),
        Op::Emit(1),
        Op::Emit(2),
        Op::Emit(4),
        Op::Emit(8),
        Op::Emit(8),
        Op::Emit(1),
        Op::Pad(1),
        Op::Emit(2),
        Op::End,
    ];
    let receive = vec![
        TakeOp::Read(1),
        TakeOp::Bool,
        TakeOp::Read(2),
        TakeOp::Read(4),
        TakeOp::Read(8),
        TakeOp::Read(8),
        TakeOp::Read(1),
        TakeOp::Skip(1),
        TakeOp::Read(2),
        TakeOp::Done,
    ];
    Row {
        name: "eight scalars of 1 to 8 bytes",
        interface: "interface i { message m(uint8 a, bool b, int16 c, uint32 d, uint64 e, int64 f, uint8 g, uint16 h); }",
        call: format!("m({})", listed(numbers)),
        frags: 1,
        stub: one_message(types.map(fixed).into(), ints(numbers), send, receive),
    }
}

// Numbers of 8 bytes, each an argument of its own: a few fragments.
fn words(name: &'static str, interface: &'static str, count: usize, frags: u64) -> Row {
    let numbers = || (1..=count as i128).map(|k| k * 0x0012_3456_789a);
    let send = std::iter::repeat_n(Op::Emit(8), count).chain([Op::End]).collect();
    let receive = std::iter::repeat_n(TakeOp::Read(8), count).chain([TakeOp::Done]).collect();
    Row {
        name,
        interface,
        call: format!("m({})", listed(numbers())),
        frags,
        stub: one_message((0..count).map(|_| fixed(Scalar::Unsigned(8))).collect(), ints(numbers()), send, receive),
    }
}

fn eight_words() -> Row {
    words("eight uint64", "interface i { message m(uint64 a, uint64 b, uint64 c, uint64 d, uint64 e, uint64 f, uint64 g, uint64 h); }", 8, 2)
}

fn sixteen_words() -> Row {
    let interface = "interface i { message m(uint64 a, uint64 b, uint64 c, uint64 d, uint64 e, uint64 f, uint64 g, uint64 h,
        uint64 i, uint64 j, uint64 k, uint64 l, uint64 m, uint64 n, uint64 o, uint64 p); }";
    words("sixteen uint64", interface, 16, 3)
}

fn one_byte() -> Row {
    Row {
        name: "one byte",
        interface: "interface i { message m(uint8 a); }",
        call: "m(7)".into(),
        frags: 1,
        stub: one_message(
            vec![fixed(Scalar::Unsigned(1))],
            vec![Value::Int(7)],
            vec![Op::Emit(1), Op::End],
            vec![TakeOp::Read(1), TakeOp::Done],
        ),
    }
}

fn text(name: &'static str, interface: &'static str, bytes: u64, frags: u64) -> Row {
    let text: Vec<u8> = (0..bytes).map(|k| b'a' + (k % 26) as u8).collect();
    let send = vec![Op::Align, Op::Length, Op::Each, Op::Emit(1), Op::Back, Op::End];
    let receive = vec![TakeOp::Align, TakeOp::Length(bytes), TakeOp::Each, TakeOp::Text, TakeOp::Back, TakeOp::Done];
    Row {
        name,
        interface,
        call: format!("m(\"{}\")", String::from_utf8_lossy(&text)),
        frags,
        stub: one_message(vec![ArgType::Text(bytes)], vec![Value::Text(text)], send, receive),
    }
}

fn string() -> Row {
    text("a string of 2,047 bytes", "interface i { message m(string s); }", 2_047, 37)
}

fn long_string() -> Row {
    text("a string of 4,096 bytes", "interface i { message m(string s[4096]); }", 4_096, 74)
}

fn numbers() -> Row {
    let numbers = || (1..=512).map(|k: i128| k * 0x0012_3456_789a);
    let send = vec![Op::Align, Op::Length, Op::Each, Op::Emit(8), Op::Back, Op::End];
    let receive =
        vec![TakeOp::Align, TakeOp::Length(512), TakeOp::Each, TakeOp::Read(8), TakeOp::Back, TakeOp::Done];
    Row {
        name: "an array of 512 uint64",
        interface: "interface i { message m(uint64 x[n, 512]); }",
        call: format!("m([{}])", listed(numbers())),
        frags: 74,
        stub: one_message(
            vec![ArgType::Sized(512, Type::Scalar(Scalar::Unsigned(8)))],
            vec![Value::List(ints(numbers()))],
            send,
            receive,
        ),
    }
}

fn structs() -> Row {
    let fields = |k: i128| [k % 200, k * 1_000_003, -k, k % 60_000, k % 7];
    let pair = Type::Array(2, Box::new(Type::Scalar(Scalar::Unsigned(2))));
    let scalar = |scalar| Type::Scalar(scalar);
    let ty = Type::Struct(vec![scalar(Scalar::Unsigned(1)), scalar(Scalar::Unsigned(8)), scalar(Scalar::Signed(4)), pair]);
    let send = vec![
        Op::Align,
        Op::Length,
        Op::Each,
        Op::Emit(1),
        Op::Pad(7),
        Op::Emit(8),
        Op::Emit(4),
        Op::Times(2),
        Op::Emit(2),
        Op::Back,
        Op::Back,
        Op::End,
    ];
    let receive = vec![
        TakeOp::Align,
        TakeOp::Length(100),
        TakeOp::Each,
        TakeOp::Read(1),
        TakeOp::Skip(7),
        TakeOp::Read(8),
        TakeOp::Read(4),
        TakeOp::Times(2),
        TakeOp::Read(2),
        TakeOp::Back,
        TakeOp::Back,
        TakeOp::Done,
    ];
    let value = |k| {
        let [a, b, c, d, e] = fields(k);
        let [a, b, c] = [a, b, c].map(Value::Int);
        Value::Fields(vec![a, b, c, Value::List(ints([d, e]))])
    };
    let written = |k| {
        let [a, b, c, d, e] = fields(k);
        format!("{{{a}, {b}, {c}, [{d}, {e}]}}")
    };
    Row {
        name: "an array of 100 structs of uint8, uint64, int32, uint16[2]",
        interface: "interface i {
            typedef uint16 pair[2];
            typedef struct { uint8 a; uint64 b; int32 c; pair d; } t;
            message m(t x[n, 100]);
        }",
        call: format!("m([{}])", listed((1..=100).map(written))),
        frags: 43,
        stub: one_message(
            vec![ArgType::Sized(100, ty)],
            vec![Value::List((1..=100).map(value).collect())],
            send,
            receive,
        ),
    }
}

/// The sum over the fragments of so many calls, or over the calls.
fn run(side: Side, row: &Row, count: u64) -> u64 {
    match side {
        Side::Proved(work) => {
            let (text, call) = (row.interface.as_bytes(), row.call.as_bytes());
            // The library asks nothing of the texts, and reads them during the call alone.
            unsafe { work(text.as_ptr(), text.len(), call.as_ptr(), call.len(), false, count) }
        }
        Side::Plain(work) => work(black_box(&row.stub), count),
    }
}

fn seconds(side: Side, row: &Row, count: u64) -> f64 {
    let start = Instant::now();
    black_box(run(side, row, count));
    start.elapsed().as_secs_f64()
}

// The least times that a side took: for a stretch, and for its texts alone, which the proved side reads once in a stretch.
#[derive(Clone, Copy)]
struct Least {
    stretch: f64,
    texts: f64,
}

impl Least {
    fn none(side: Side) -> Least {
        let texts = match side {
            Side::Proved(_) => f64::MAX,
            Side::Plain(_) => 0.0,
        };
        Least { stretch: f64::MAX, texts }
    }

    fn time(&mut self, side: Side, row: &Row, count: u64) {
        self.stretch = self.stretch.min(seconds(side, row, count));
        if let Side::Proved(_) = side {
            self.texts = self.texts.min(seconds(side, row, 0));
        }
    }

    // What a call takes, without the texts.
    fn nanoseconds(self, count: u64) -> f64 {
        (self.stretch - self.texts) * 1e9 / count as f64
    }
}

fn main() {
    println!("the least of {RUNS} stretches, nanoseconds for a call; a ratio above 1 says that stub code is faster");
    // one row by a word of its name, or all
    let word = env::args().nth(1).unwrap_or_default();
    for row in [one_byte(), scalars(), eight_words(), sixteen_words(), string(), long_string(), numbers(), structs()].into_iter().filter(|row| row.name.contains(&word)) {
        println!("{}", row.name);
        let count = FRAGS / row.frags;
        for work in WORK {
            let sides: Vec<Side> = [work.ours].into_iter().chain(work.others.iter().map(|other| other.1)).collect();
            let wanted = run(sides[0], &row, count);
            assert_ne!(wanted, 0, "the texts were refused");
            let mut least: Vec<Least> = sides.iter().map(|side| Least::none(*side)).collect();
            for _ in 0..RUNS {
                for (side, least) in sides.iter().zip(&mut least) {
                    least.time(*side, &row, count);
                }
            }
            for side in &sides {
                assert_eq!(run(*side, &row, count), wanted, "the sides gave other fragments, or took other calls");
            }
            let times: Vec<f64> = least.into_iter().map(|least| least.nanoseconds(count)).collect();
            println!("{:>24}: stub code {:9.1}", work.name, times[0]);
            for ((name, _), time) in work.others.iter().zip(&times[1..]) {
                println!("{:>24}  {name} {time:9.1}   ratio {:.2}", "", time / times[0]);
            }
        }
    }
}
