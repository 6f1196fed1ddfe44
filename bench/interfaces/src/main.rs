//! Reading a 64 KiB interface text of 250 messages: the proved crates beside plain Rust, in one run.
//!
//! Both sides cut the text into tokens, read the tree and check it. First they are compared on spoiled
//! texts; then runs of the two take turns, and each figure is the median, in MB/s (10^6 bytes a second).

mod plain;

use plain::Fault;
use std::hint::black_box;
use std::time::Instant;

// A `&[u8]` crosses as a pointer and a length. The answer is 0 or a fault's number; `found` is a count
// or the fault's offset.
extern "C" {
    fn interfaces_bench_lex(text: *const u8, len: usize, found: &mut usize) -> u8;
    fn interfaces_bench_parse(text: *const u8, len: usize, found: &mut usize) -> u8;
    fn interfaces_bench_check(text: *const u8, len: usize, found: &mut usize) -> u8;
}

type Call = unsafe extern "C" fn(*const u8, usize, &mut usize) -> u8;
type Answer = Result<usize, Fault>;

const MESSAGES: usize = 250;
const RUNS: usize = 401;
const SPOILED: usize = 100_000;

fn proved(call: Call, text: &[u8]) -> Answer {
    let mut found = 0;
    // The library asks nothing of the text, reads it during the call alone, and writes one number.
    match unsafe { call(text.as_ptr(), text.len(), &mut found) } {
        0 => Ok(found),
        number => Err((number, found)),
    }
}

const TYPES: &str = r#"interface block "a block device, with many messages" {
    alias lba uint64;
    typedef enum { success, bad_request, io_error, read_only, } status;
    typedef uint8 uuid[16];
    typedef struct {
        uint32 block_size;
        uint64 blocks;
        uuid id;
        bool read_only;
    } geometry;     // 40 bytes, aligned to 8
    typedef struct { lba first; uint32 count; status last; } extent;
    typedef extent extents[16];
    typedef struct { uint64 seconds; uint32 nanoseconds; } time;
"#;

fn message(i: usize) -> String {
    let rest = [
        "lba first, uint32 count, geometry shape, status result, uint8 data[n, 1024], string label[32]",
        "time since, time until, extent where, extents others, uint16 tag, uint32 flags, errval last",
        "uuid id, bool force, string label[64], uint64 token, uint32 sizes[n, 128], char kind, lba upto",
        "size offset, size length, int32 delta, iref service, intptr near, uintptr far, int8 a, int16 b",
    ][i % 4];
    format!("    /* the {i}th request of a client, or an answer to one of these, with all that it needs */\n    message request_number_{i:03}({rest});\n")
}

/// A text of at most 65,536 bytes, filled up by a comment at its end.
fn interface() -> Vec<u8> {
    let mut text = TYPES.to_owned();
    for i in 0..MESSAGES {
        text += &message(i);
    }
    text += "};\n//";
    assert!(text.len() <= 65_536, "{} bytes", text.len());
    let mut text = text.into_bytes();
    text.resize(65_536, b'.');
    text
}

/// Numbers from a seed.
struct Numbers(u64);

impl Numbers {
    fn below(&mut self, limit: usize) -> usize {
        self.0 ^= self.0 << 13;
        self.0 ^= self.0 >> 7;
        self.0 ^= self.0 << 17;
        (self.0 >> 11) as usize % limit
    }
}

const WORDS: [&str; 20] = [
    "cap", "string", "uint8", "uint64", "nope", "lba", "status", "extents", "f", "f_call", "g_response",
    "request_number_001", "alias", "0", "1", "1024", "1025", "4096", "4097", "1000001",
];

/// A short text, spoiled at a few places: bytes and words changed, parts left out or said twice.
fn spoiled(text: &[u8], numbers: &mut Numbers) -> Vec<u8> {
    let mut spoiled = text.to_vec();
    for _ in 0..numbers.below(3) {
        let at = numbers.below(spoiled.len());
        let end = (at + 1 + numbers.below(30)).min(spoiled.len());
        match numbers.below(6) {
            0 => spoiled[at] = b"{}()[],;/*\"\n a1_\x80"[numbers.below(17)],
            1 => drop(spoiled.drain(at..end)),
            2 => {
                let part = spoiled[at..end].to_vec();
                let to = numbers.below(spoiled.len());
                spoiled.splice(to..to, part);
            }
            3 => {
                // one word in the place of another
                let words = words(&spoiled);
                let (from, to) = (words[numbers.below(words.len())], words[numbers.below(words.len())]);
                let word = spoiled[from.0..from.1].to_vec();
                spoiled.splice(to.0..to.1, word);
            }
            _ => {
                let words = words(&spoiled);
                let to = words[numbers.below(words.len())];
                let word = WORDS[numbers.below(WORDS.len())];
                spoiled.splice(to.0..to.1, word.bytes());
            }
        }
    }
    spoiled
}

fn words(text: &[u8]) -> Vec<(usize, usize)> {
    let is_word = |b: u8| b.is_ascii_alphanumeric() || b == b'_';
    let mut words = Vec::new();
    let mut at = 0;
    while at < text.len() {
        let len = text[at..].iter().take_while(|&&b| is_word(b)).count();
        if len > 0 {
            words.push((at, at + len));
        }
        at += len + 1;
    }
    words
}

/// Both sides answer the same, whatever the text.
fn compare() {
    let mut text = TYPES.to_owned();
    for i in 0..4 {
        text += &message(i);
    }
    text += "    rpc f(in uint8 x, out string s[9], out uint8 y[n, 7]);\n    rpc g(in lba a, out lba b);\n};";
    let mut numbers = Numbers(0x9e37_79b9_7f4a_7c15);
    let mut seen = [0usize; 256];
    for _ in 0..SPOILED {
        let text = spoiled(text.as_bytes(), &mut numbers);
        let wanted = plain::count_messages(&text);
        assert_eq!(proved(interfaces_bench_check, &text), wanted, "{}", String::from_utf8_lossy(&text));
        seen[wanted.err().map_or(0, |fault| usize::from(fault.0))] += 1;
    }
    let faults: Vec<String> =
        (1..256).filter(|&n| seen[n] > 0).map(|n| format!("E{n} {}", seen[n])).collect();
    println!("{SPOILED} spoiled texts, the same answers: accepted {}, {}", seen[0], faults.join(", "));
}

fn seconds(run: impl Fn() -> Answer) -> f64 {
    let start = Instant::now();
    black_box(run()).unwrap();
    start.elapsed().as_secs_f64()
}

fn median(mut times: Vec<f64>) -> f64 {
    times.sort_by(f64::total_cmp);
    times[times.len() / 2]
}

fn main() {
    compare();
    let text = interface();
    println!("{} bytes, {MESSAGES} messages; medians of {RUNS} runs, MB/s", text.len());
    let steps: [(&str, Call, fn(&[u8]) -> Answer); 3] = [
        ("tokens", interfaces_bench_lex, plain::count_tokens),
        ("tokens and tree", interfaces_bench_parse, plain::count_declarations),
        ("whole interface", interfaces_bench_check, plain::count_messages),
    ];
    for (name, ours, theirs) in steps {
        assert_eq!(proved(ours, &text), theirs(&text));
        let (mut a, mut b) = (Vec::new(), Vec::new());
        for _ in 0..RUNS {
            a.push(seconds(|| proved(ours, black_box(&text))));
            b.push(seconds(|| theirs(black_box(&text))));
        }
        let (a, b) = (median(a), median(b));
        let speed = |time: f64| text.len() as f64 / time / 1e6;
        println!(
            "{name:>16}: proved {:7.1} ({:5.3} ms)   plain Rust {:7.1}   ratio {:.2}",
            speed(a),
            a * 1e3,
            speed(b),
            b / a
        );
    }
}
