//! Rings between two threads: fragments a second, and the time of a round trip. The proved rings run
//! in a program of their own, the plain ones in this program started anew: each run is a process, which starts
//! its threads and measures in the same way.

use crate::ordering;
use crate::plain::{fragment, sum_of};
use crate::shared::{self, Receiver, Sender, Side, Sight};
use std::env;
use std::hint::{black_box, spin_loop};
use std::path::Path;
use std::process::Command;
use std::thread;
use std::time::Instant;

/// How often each side runs, in turn; a multiple of twice the places.
const RUNS: usize = 200;

/// How often a side pauses between two polls that find nothing.
pub const PAUSES: [u64; 3] = [0, 20, 100];

/// Where a table stands in its cache lines makes a third of the time, and the allocator decides it. So a run takes
/// some memory ahead of the ring, more by 16 bytes from run to run, and tables stand in each of the four places that
/// blocks of this allocator have equally often. (A block of 128 KiB is mapped by itself: its place is always one.)
pub const PLACES: usize = 4;
pub const AHEAD: usize = 2_048;

/// Fragments, or round trips, of a run, and how many of them are timed at once: few, since other work
/// on the machine takes a thread its processor now and then, and a stretch in which that happens is
/// left out by the median.
const FRAGMENTS: u64 = 50_000;
const TRIPS: u64 = 20_000;
pub const STRETCH: u64 = 1_000;

#[derive(Clone, Copy)]
pub struct Plan {
    pub slots: usize,
    /// Fragments (each way, on a ring of two directions), or round trips.
    pub count: u64,
    /// How often a side pauses where it finds no room or nothing there.
    pub pauses: u64,
    /// After how many fragments a reader tells.
    pub tell_each: u64,
    /// How many bytes are taken ahead of the ring.
    pub ahead: usize,
}

/// The times of the stretches so far, in nanoseconds.
pub struct Watch {
    since: Instant,
    taken: u64,
    pub times: Vec<u64>,
}

impl Watch {
    pub fn new() -> Watch {
        Watch {
            since: Instant::now(),
            taken: 0,
            times: Vec::new(),
        }
    }

    /// One more was taken.
    pub fn count(&mut self) {
        self.taken += 1;
        if self.taken < STRETCH {
            return;
        }
        let now = Instant::now();
        self.times.push((now - self.since).as_nanos() as u64);
        self.since = now;
        self.taken = 0;
    }
}

/// What a run gives: a sum over what was taken, and the times.
pub struct Taken {
    pub sum: u64,
    pub times: Vec<u64>,
}

/// What is measured: its name, the word by which the proved program does it, how many fragments (or
/// trips) pass for each that is counted, and our plain run.
pub struct Kind {
    pub name: &'static str,
    pub word: &'static str,
    pub ways: u64,
    pub run: fn(Plan) -> Taken,
}

const RING: Kind = Kind {
    name: "ring",
    word: "ring",
    ways: 1,
    run: |plan| {
        let (tx, rx) = shared::ring(plan.slots);
        let (_, taken) = both(|| put_all(tx, plan), || take_all(rx, plan));
        taken
    },
};

const DUO: Kind = Kind {
    name: "duo",
    word: "duo",
    ways: 2,
    run: |plan| {
        let (one, two) = shared::duo(plan.slots);
        let (there, back) = both(|| exchange(one, plan), || exchange(two, plan));
        Taken {
            sum: there.sum.wrapping_add(back.sum),
            times: there.times,
        }
    },
};

const RING_TRIPS: Kind = Kind {
    name: "two rings",
    word: "ring-trips",
    ways: 1,
    run: |plan| {
        let (tx, far_rx) = shared::ring(plan.slots);
        let (far_tx, rx) = shared::ring(plan.slots);
        let near = TwoRings { tx, rx };
        let far = TwoRings {
            tx: far_tx,
            rx: far_rx,
        };
        let (taken, _) = both(|| call_all(near, plan), || answer_all(far, plan));
        taken
    },
};

const DUO_TRIPS: Kind = Kind {
    name: "one duo",
    word: "duo-trips",
    ways: 1,
    run: |plan| {
        let (one, two) = shared::duo(plan.slots);
        let (taken, _) = both(|| call_all(one, plan), || answer_all(two, plan));
        taken
    },
};

/// Runs each in a thread.
pub fn both<A, B: Send>(one: impl FnOnce() -> A, two: impl FnOnce() -> B + Send) -> (A, B) {
    thread::scope(|scope| {
        let other = scope.spawn(two);
        let first = one();
        (first, other.join().expect("the thread ends"))
    })
}

pub fn pause(plan: Plan) {
    for _ in 0..plan.pauses {
        spin_loop();
    }
}

fn put_all(mut tx: Sender, plan: Plan) {
    let mut next = 0;
    while next < plan.count {
        if tx.put(&fragment(next)) {
            next += 1;
        } else {
            pause(plan);
        }
    }
}

fn take_all(mut rx: Receiver, plan: Plan) -> Taken {
    let mut watch = Watch::new();
    let (mut taken, mut untold, mut sum) = (0, 0, 0u64);
    while taken < plan.count {
        match rx.take() {
            Sight::Data(words) => {
                sum = sum.wrapping_add(sum_of(&words));
                taken += 1;
                untold += 1;
                watch.count();
            }
            _ => pause(plan),
        }
        if untold >= plan.tell_each {
            rx.tell();
            untold = 0;
        }
    }
    let times = watch.times;
    Taken { sum, times }
}

/// What a side of round trips puts into and takes from.
trait Ends {
    fn put(&mut self, words: &[u64; 8]);

    /// Takes what is there, and tells it.
    fn take(&mut self) -> Sight;
}

/// The ring there, and the ring back.
struct TwoRings {
    tx: Sender,
    rx: Receiver,
}

impl Ends for TwoRings {
    #[inline]
    fn put(&mut self, words: &[u64; 8]) {
        self.tx.put(words);
    }

    #[inline]
    fn take(&mut self) -> Sight {
        let sight = self.rx.take();
        if let Sight::Data(_) = sight {
            self.rx.tell();
        }
        sight
    }
}

impl Ends for Side {
    #[inline]
    fn put(&mut self, words: &[u64; 8]) {
        Side::put(self, words);
    }

    /// What is taken is told by what is put next.
    #[inline]
    fn take(&mut self) -> Sight {
        Side::take(self)
    }
}

/// Polls until data comes.
#[inline]
fn wait_for_data(ends: &mut impl Ends, plan: Plan) -> [u64; 8] {
    loop {
        match ends.take() {
            Sight::Data(words) => return words,
            _ => pause(plan),
        }
    }
}

/// Puts one fragment at a time, and polls until one has come back.
fn call_all(mut ends: impl Ends, plan: Plan) -> Taken {
    let mut watch = Watch::new();
    let mut sum = 0u64;
    for word in 0..plan.count {
        ends.put(&fragment(word));
        sum = sum.wrapping_add(sum_of(&wait_for_data(&mut ends, plan)));
        watch.count();
    }
    let times = watch.times;
    Taken { sum, times }
}

/// Puts back what comes.
fn answer_all(mut ends: impl Ends, plan: Plan) {
    for _ in 0..plan.count {
        let words = wait_for_data(&mut ends, plan);
        ends.put(&words);
    }
}

fn exchange(mut side: Side, plan: Plan) -> Taken {
    let mut watch = Watch::new();
    let (mut sent, mut taken, mut sum) = (0, 0, 0u64);
    while sent < plan.count || taken < plan.count {
        if sent < plan.count && side.put(&fragment(sent)) {
            sent += 1;
        }
        match side.take() {
            Sight::Data(words) => {
                sum = sum.wrapping_add(sum_of(&words));
                taken += 1;
                watch.count();
            }
            Sight::Acknowledgement => {}
            Sight::Empty => pause(plan),
        }
        side.tell();
    }
    let times = watch.times;
    Taken { sum, times }
}

/// What a program says of one run.
pub fn run(program: &Path, first: &[&str], kind: &Kind, plan: Plan) -> Taken {
    let words = [
        plan.slots as u64,
        plan.count,
        plan.pauses,
        plan.tell_each,
        plan.ahead as u64,
    ];
    let output = Command::new(program)
        .args(first)
        .arg(kind.word)
        .args(words.map(|word| word.to_string()))
        .output()
        .expect("the program runs");
    let said = String::from_utf8(output.stdout).expect("text");
    let mut numbers = said.lines().map(|line| -> u64 {
        line.parse()
            .unwrap_or_else(|_| panic!("the program says {line}"))
    });
    let sum = numbers.next().expect("a sum");
    let times = numbers.collect();
    Taken { sum, times }
}

/// The plain program: a run of one kind, by the words that the proved program takes.
pub fn run_plain(mut words: impl Iterator<Item = String>) {
    let word = words.next().expect("a kind");
    let kind = [&RING, &DUO, &RING_TRIPS, &DUO_TRIPS]
        .into_iter()
        .chain(ordering::kinds())
        .find(|kind| kind.word == word)
        .expect("a kind");
    let mut number = || -> u64 {
        words
            .next()
            .and_then(|word| word.parse().ok())
            .expect("a number")
    };
    let plan = Plan {
        slots: number() as usize,
        count: number(),
        pauses: number(),
        tell_each: number(),
        ahead: number() as usize,
    };
    let ahead: Vec<u8> = black_box(Vec::with_capacity(plan.ahead));
    let taken = (kind.run)(plan);
    drop(ahead);
    println!("{}", taken.sum);
    for time in taken.times {
        println!("{time}");
    }
}

/// The times of a fragment or a trip in each run: the proved ring's and the plain one's, in turn.
fn times(kind: &Kind, plan: Plan) -> Vec<[f64; 2]> {
    let ours = Path::new(env!("FLOUNDER_THREADS"));
    let theirs = env::current_exe().expect("this program");
    let each = (STRETCH * kind.ways) as f64;
    let middle = |taken: Taken| {
        let mut times: Vec<f64> = taken.times.iter().map(|time| *time as f64 / each).collect();
        quarter(&mut times, 2)
    };
    let pair = |k: usize| {
        let plan = Plan {
            ahead: AHEAD + 16 * (k % PLACES),
            ..plan
        };
        let proved = || run(ours, &[], kind, plan);
        let plain = || run(&theirs, &["plain"], kind, plan);
        // each goes first as often as the other
        let (proved, plain) = if k / PLACES % 2 == 0 {
            let proved = proved();
            (proved, plain())
        } else {
            let plain = plain();
            (proved(), plain)
        };
        assert_eq!(proved.sum, plain.sum, "not every fragment came through");
        [middle(proved), middle(plain)]
    };
    (0..RUNS).map(pair).collect()
}

/// The first, second or third quarter of some times.
pub fn quarter(times: &mut [f64], part: usize) -> f64 {
    times.sort_by(f64::total_cmp);
    times[part * (times.len() - 1) / 4]
}

/// The plain ring's middle time over ours, of the pairs of runs that are chosen.
pub fn ratio(pairs: impl Iterator<Item = [f64; 2]>) -> f64 {
    let (mut ours, mut theirs): (Vec<f64>, Vec<f64>) =
        pairs.map(|[ours, theirs]| (ours, theirs)).unzip();
    quarter(&mut theirs, 2) / quarter(&mut ours, 2)
}

/// How far chance moves the ratio: the middle nineteen of twenty ratios of as many pairs, drawn from these.
pub fn bounds(pairs: &[[f64; 2]]) -> (f64, f64) {
    const DRAWS: usize = 1_000;
    let mut state = 1u64;
    let mut draw = || {
        // a linear congruential generator (Knuth's MMIX), whose upper bits are good enough here
        state = state
            .wrapping_mul(6_364_136_223_846_793_005)
            .wrapping_add(1_442_695_040_888_963_407);
        pairs[(state >> 33) as usize % pairs.len()]
    };
    let mut ratios: Vec<f64> = (0..DRAWS)
        .map(|_| ratio((0..pairs.len()).map(|_| draw())))
        .collect();
    ratios.sort_by(f64::total_cmp);
    (ratios[DRAWS / 40], ratios[DRAWS - 1 - DRAWS / 40])
}

/// One line: the middle run of each side, the middle half of its runs, and the ratios: beside the plain ring with as
/// many pauses, and beside the one that polls without pauses. Gives the plain ring's middle time.
fn line(kind: &Kind, plan: Plan, unpaused: Option<f64>) -> f64 {
    let pairs = times(kind, plan);
    let spread = |side: usize| {
        let mut times: Vec<f64> = pairs.iter().map(|pair| pair[side]).collect();
        [1, 2, 3].map(|part| quarter(&mut times, part))
    };
    let shown = |[low, middle, high]: [f64; 3]| format!("{middle:5.0} ({low:.0} to {high:.0})");
    let (ours, theirs) = (spread(0), spread(1));
    let unpaused = unpaused.unwrap_or(theirs[1]);
    let (low, high) = bounds(&pairs);
    println!(
        "{:<9} {:>4} slots, {:>3} pauses:   proved {}   plain {}   ratio {:.2} ({low:.2} to {high:.2}), beside no pauses {:.2}",
        kind.name,
        plan.slots,
        plan.pauses,
        shown(ours),
        shown(theirs),
        ratio(pairs.iter().copied()),
        unpaused / ours[1],
    );
    unpaused
}

/// A line for each number of pauses.
fn lines(kind: &Kind, slots: usize, count: u64) {
    let mut unpaused = None;
    for pauses in PAUSES {
        let plan = Plan {
            slots,
            count,
            pauses,
            tell_each: 1,
            ahead: AHEAD,
        };
        unpaused = Some(line(kind, plan, unpaused));
    }
}

/// The rows of one kind, where its word is given, else all.
pub fn report(word: Option<&str>) {
    println!("between two threads: nanoseconds a fragment, the middle of {RUNS} runs (and the middle half of them)");
    println!("ratios: the plain ring's time over ours, so above 1 we are faster (and how far chance moves them)");
    let chosen = |kind: &&Kind| word.map_or(true, |word| word == kind.word);
    for kind in [&RING, &DUO].into_iter().filter(chosen) {
        for slots in [64, 1_024] {
            lines(kind, slots, FRAGMENTS);
        }
    }
    println!("nanoseconds a round trip");
    for kind in [&RING_TRIPS, &DUO_TRIPS].into_iter().filter(chosen) {
        lines(kind, 64, TRIPS);
    }
}
