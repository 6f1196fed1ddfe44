//! What the ordering of a ring's accesses costs, and what an all sequentially consistent ring gains by several
//! fragments at a time: plain rings alone, in one thread and between two.

use crate::orders::Sparing;
use crate::orders::{duo, ring, Form, Mixed, Receiver, Released, Sender, Sequential, Side, Slots};
use crate::plain::sum_of;
use crate::threads::{self, both, bounds, pause, quarter, ratio, Kind, Plan, Taken, Watch};
use crate::threads::{AHEAD, PAUSES, PLACES, STRETCH};
use std::env;
use std::mem::size_of_val;
use std::time::Instant;

const SLOTS: usize = 64;

/// How many fragments a run in one thread moves, and how often it runs.
const ALONE: u64 = 9_600;
const ALONE_RUNS: usize = 1_000;

/// How often each runs between two threads, in turn; a multiple of the places.
const RUNS: usize = 200;

/// Fragments of a run between two threads (each way, on a ring of two directions): few, so that it ends before other
/// work takes a processor.
const COUNT: u64 = 6_400;

extern "C" {
    fn sched_getaffinity(thread: i32, size: usize, processors: *mut [u64; 16]) -> i32;
    fn sched_setaffinity(thread: i32, size: usize, processors: *const [u64; 16]) -> i32;
}

/// Keeps this thread on one of the processors that it may run on: the first, or the second. Else both threads of a
/// run may come to one processor while others have work.
fn stay_on(number: usize) {
    let mut mask = [0u64; 16];
    let size = size_of_val(&mask);
    unsafe { sched_getaffinity(0, size, &mut mask) };
    let has = |at: &usize| mask[at / 64] >> (at % 64) & 1 == 1;
    let at = (0..64 * mask.len()).filter(has).nth(number);
    let at = at.expect("two processors");
    let mut only = [0; 16];
    only[at / 64] = 1 << (at % 64);
    unsafe { sched_setaffinity(0, size, &only) };
}

/// Runs each in a thread on a processor of its own.
fn apart<A, B: Send>(one: impl FnOnce() -> A, two: impl FnOnce() -> B + Send) -> (A, B) {
    let first = || {
        stay_on(0);
        one()
    };
    let second = || {
        stay_on(1);
        two()
    };
    both(first, second)
}

/// A ring with its steps. Its run between two threads has its name as its word.
struct Variant {
    kind: Kind,
    /// After how many fragments a reader tells.
    tell_each: u64,
    /// How many fragments pass at once at most.
    at_once: u64,
    /// How many payload words of a fragment are used.
    used: u64,
    /// A run in one thread: so many rounds of a batch, told after each so many.
    alone: fn(u64, u64, u64) -> u64,
}

/// A ring of one direction: `PUTS` fragments are put at once, and one look finds `LOOKS`. Where it doesn't find them,
/// the next one is looked at, if `ELSE_ONE`.
const fn ring_of<F: Form, const PUTS: usize, const LOOKS: usize, const ELSE_ONE: bool>(
    name: &'static str,
    tell_each: u64,
) -> Variant {
    Variant {
        kind: Kind {
            name,
            word: name,
            ways: 1,
            run: |plan| {
                let (tx, rx) = ring::<F>(plan.slots);
                let (put, take) = (put_all::<F, PUTS>, take_all::<F, LOOKS, ELSE_ONE>);
                apart(|| put(tx, plan), || take(rx, plan)).1
            },
        },
        tell_each,
        at_once: most(PUTS, LOOKS),
        used: F::USED as u64,
        alone: ring_alone::<F, PUTS, LOOKS>,
    }
}

/// The same of a ring of two directions, of which a side puts `TURN` and takes `TURN` in each turn. A side that doesn't
/// find `LOOKS` looks at the next one: what only acknowledges comes singly.
const fn duo_of<F: Form, const PUTS: usize, const LOOKS: usize, const TURN: u64>(
    name: &'static str,
) -> Variant {
    Variant {
        kind: Kind {
            name,
            word: name,
            ways: 2,
            run: |plan| {
                let (one, two) = duo::<F>(plan.slots);
                let exchange = exchange::<F, PUTS, LOOKS, TURN>;
                let (there, back) = apart(|| exchange(one, plan), || exchange(two, plan));
                Taken {
                    sum: there.sum.wrapping_add(back.sum),
                    times: there.times,
                }
            },
        },
        tell_each: 1,
        at_once: most(PUTS, LOOKS),
        used: F::USED as u64,
        alone: duo_alone::<F, PUTS, LOOKS>,
    }
}

/// Round trips over a ring of two directions: one fragment there, and one back.
const fn trips_of<F: Form>(name: &'static str) -> Variant {
    Variant {
        kind: Kind {
            name,
            word: name,
            ways: 1,
            run: |plan| {
                let (one, two) = duo::<F>(plan.slots);
                apart(|| call_all(one, plan), || answer_all(two, plan)).0
            },
        },
        tell_each: 1,
        at_once: 1,
        used: F::USED as u64,
        alone: duo_alone::<F, 1, 1>,
    }
}

const fn most(one: usize, two: usize) -> u64 {
    if one < two {
        two as u64
    } else {
        one as u64
    }
}

/// The first is the one that the others are compared with.
static RINGS: [Variant; 21] = [
    ring_of::<Sequential, 1, 1, false>("ring, all sequentially consistent", 1),
    ring_of::<Released, 1, 1, false>("ring, acquire and release", 1),
    ring_of::<Sequential, 4, 1, false>("ring, 4 control words together", 1),
    ring_of::<Sequential, 16, 1, false>("ring, 16 control words together", 1),
    ring_of::<Sequential, 1, 4, false>("ring, one look and tell for 4", 1),
    ring_of::<Sequential, 1, 16, false>("ring, one look and tell for 16", 1),
    ring_of::<Sequential, 1, 16, true>("ring, one look and tell for 16, else for 1", 1),
    ring_of::<Sequential, 1, 1, false>("ring, a tell for 4", 4),
    ring_of::<Sequential, 1, 1, false>("ring, a tell for 16", 16),
    ring_of::<Sequential, 4, 4, false>("ring, all three of 4", 4),
    ring_of::<Sequential, 16, 16, false>("ring, all three of 16", 16),
    ring_of::<Sequential, 16, 16, true>("ring, all three of 16, else for 1", 16),
    ring_of::<Sparing<7>, 1, 1, false>("ring, only words that differ, 7 do", 1),
    ring_of::<Sparing<1>, 1, 1, false>("ring, only words that differ, 1 does", 1),
    ring_of::<Sparing<1>, 16, 1, false>("ring, the same, 16 control words together", 1),
    ring_of::<Slots, 1, 1, false>("ring, relaxed payload apart", 1),
    ring_of::<Slots, 1, 1, false>("ring, relaxed payload apart, a tell for 16", 16),
    ring_of::<Slots, 16, 16, false>("ring, relaxed payload apart, all three of 16", 16),
    ring_of::<Mixed, 1, 1, false>("ring, relaxed payload", 1),
    ring_of::<Mixed, 16, 16, false>("ring, relaxed payload, all three of 16", 16),
    ring_of::<Released, 16, 16, false>("ring, acquire and release, all three of 16", 16),
];

static DUOS: [Variant; 12] = [
    duo_of::<Sequential, 1, 1, 1>("duo, all sequentially consistent"),
    duo_of::<Released, 1, 1, 1>("duo, acquire and release"),
    duo_of::<Sequential, 1, 1, 16>("duo, turns of 16"),
    duo_of::<Sequential, 4, 1, 4>("duo, 4 control words together"),
    duo_of::<Sequential, 16, 1, 16>("duo, 16 control words together"),
    duo_of::<Sequential, 1, 4, 4>("duo, one look for 4, else for 1"),
    duo_of::<Sequential, 1, 16, 16>("duo, one look for 16, else for 1"),
    duo_of::<Sequential, 16, 16, 16>("duo, both of 16"),
    duo_of::<Sparing<7>, 1, 1, 1>("duo, only words that differ, 7 do"),
    duo_of::<Sparing<1>, 1, 1, 1>("duo, only words that differ, 1 does"),
    duo_of::<Mixed, 1, 1, 1>("duo, relaxed payload"),
    duo_of::<Released, 16, 16, 16>("duo, acquire and release, both of 16"),
];

static TRIPS: [Variant; 4] = [
    trips_of::<Sequential>("trips, all sequentially consistent"),
    trips_of::<Released>("trips, acquire and release"),
    trips_of::<Sparing<1>>("trips, only words that differ, 1 does"),
    trips_of::<Mixed>("trips, relaxed payload"),
];

/// What runs between two threads, by its word.
pub fn kinds() -> impl Iterator<Item = &'static Kind> {
    let variants = RINGS.iter().chain(&DUOS).chain(&TRIPS);
    variants.map(|variant| &variant.kind)
}

fn put_all<F: Form, const PUTS: usize>(mut tx: Sender<F>, plan: Plan) {
    let mut next = 0;
    while next < plan.count {
        if tx.put::<PUTS>(next) {
            next += PUTS as u64;
        } else {
            pause(plan);
        }
    }
}

fn take_all<F: Form, const LOOKS: usize, const ELSE_ONE: bool>(
    mut rx: Receiver<F>,
    plan: Plan,
) -> Taken {
    let mut watch = Watch::new();
    let (mut taken, mut told, mut sum) = (0, 0, 0u64);
    while taken < plan.count {
        let mut each = |words: &[u64; 8]| {
            sum = sum.wrapping_add(sum_of(words));
            taken += 1;
            watch.count();
        };
        if !rx.take::<LOOKS>(&mut each) && !(ELSE_ONE && rx.take::<1>(&mut each)) {
            pause(plan);
        }
        if taken - told >= plan.tell_each {
            rx.tell();
            told = taken;
        }
    }
    let times = watch.times;
    Taken { sum, times }
}

fn exchange<F: Form, const PUTS: usize, const LOOKS: usize, const TURN: u64>(
    mut side: Side<F>,
    plan: Plan,
) -> Taken {
    let mut watch = Watch::new();
    let (mut sent, mut taken, mut sum) = (0, 0, 0u64);
    while sent < plan.count || taken < plan.count {
        let enough = plan.count.min(sent + TURN);
        while sent < enough && side.put::<PUTS>(sent) {
            sent += PUTS as u64;
        }
        let mut each = |words: &[u64; 8]| {
            sum = sum.wrapping_add(sum_of(words));
            taken += 1;
            watch.count();
        };
        for _ in 0..TURN / LOOKS as u64 {
            if !side.take::<LOOKS>(&mut each) && !(LOOKS > 1 && side.take::<1>(&mut each)) {
                pause(plan);
                break;
            }
        }
        side.tell();
    }
    let times = watch.times;
    Taken { sum, times }
}

/// Polls until a fragment comes, and gives the sum of its words.
#[inline]
fn wait<F: Form>(side: &mut Side<F>, plan: Plan) -> u64 {
    let mut sum = 0;
    while !side.take::<1>(|words| sum = sum_of(words)) {
        pause(plan);
    }
    sum
}

/// Puts one fragment at a time, and polls until one has come back.
fn call_all<F: Form>(mut side: Side<F>, plan: Plan) -> Taken {
    let mut watch = Watch::new();
    let mut sum = 0u64;
    for number in 0..plan.count {
        side.put::<1>(number);
        sum = sum.wrapping_add(wait(&mut side, plan));
        watch.count();
    }
    let times = watch.times;
    Taken { sum, times }
}

/// Puts a fragment back for each that comes.
fn answer_all<F: Form>(mut side: Side<F>, plan: Plan) {
    for number in 0..plan.count {
        wait(&mut side, plan);
        side.put::<1>(number);
    }
}

/// Batches through a ring whose sides are in one thread.
#[inline(never)]
fn ring_alone<F: Form, const PUTS: usize, const LOOKS: usize>(
    rounds: u64,
    batch: u64,
    tell_each: u64,
) -> u64 {
    let (mut tx, mut rx) = ring::<F>(SLOTS);
    let (mut sum, mut untold) = (0u64, 0);
    for round in 0..rounds {
        for k in (0..batch).step_by(PUTS) {
            tx.put::<PUTS>(round + k);
        }
        for _ in (0..batch).step_by(LOOKS) {
            rx.take::<LOOKS>(|words| sum = sum.wrapping_add(sum_of(words)));
            untold += LOOKS as u64;
            if untold >= tell_each {
                rx.tell();
                untold = 0;
            }
        }
    }
    sum
}

/// The same through a ring of two directions, as many each way.
#[inline(never)]
fn duo_alone<F: Form, const PUTS: usize, const LOOKS: usize>(
    rounds: u64,
    batch: u64,
    _tell_each: u64,
) -> u64 {
    let (mut one, mut two) = duo::<F>(SLOTS);
    let mut sum = 0u64;
    let mut pass = |from: &mut Side<F>, to: &mut Side<F>, round: u64| {
        for k in (0..batch).step_by(PUTS) {
            from.put::<PUTS>(round + k);
        }
        for _ in (0..batch).step_by(LOOKS) {
            to.take::<LOOKS>(|words| sum = sum.wrapping_add(sum_of(words)));
        }
    };
    for round in 0..rounds / 2 {
        pass(&mut one, &mut two, round);
        pass(&mut two, &mut one, round);
    }
    sum
}

/// The sum of what passes in so many rounds.
fn wanted(variant: &Variant, rounds: u64, batch: u64) -> u64 {
    let ways = variant.kind.ways;
    let numbers = (0..rounds / ways).flat_map(|round| round..round + batch);
    ways * variant.used * numbers.sum::<u64>()
}

/// Nanoseconds a fragment of each variant in one thread: the least of all runs, which take turns.
fn least_alone(variants: &[&Variant], batch: u64) -> Vec<f64> {
    let rounds = ALONE / batch;
    let sums: Vec<u64> = variants.iter().map(|v| wanted(v, rounds, batch)).collect();
    let mut least = vec![f64::MAX; variants.len()];
    for _ in 0..ALONE_RUNS {
        for ((variant, least), sum) in variants.iter().zip(&mut least).zip(&sums) {
            let start = Instant::now();
            let taken = (variant.alone)(rounds, batch, variant.tell_each);
            let time = start.elapsed().as_nanos() as f64 / ALONE as f64;
            assert_eq!(taken, *sum, "not every fragment came through");
            *least = least.min(time);
        }
    }
    least
}

fn report_alone(variants: &[Variant]) {
    for batch in [1, 16, 32] {
        let fitting: Vec<&Variant> = variants.iter().filter(|v| v.at_once <= batch).collect();
        let times = least_alone(&fitting, batch);
        for (variant, time) in fitting.iter().zip(&times) {
            let name = variant.kind.name;
            let ratio = times[0] / time;
            println!("batch {batch:>2}, {name:<44} {time:6.2}, ratio {ratio:5.2}");
        }
    }
}

/// The middle time of a fragment in one run between two threads, which is a process of this program.
fn middle(variant: &Variant, plan: Plan) -> f64 {
    let program = env::current_exe().expect("this program");
    let plan = Plan {
        tell_each: variant.tell_each,
        ..plan
    };
    let taken = threads::run(&program, &["plain"], &variant.kind, plan);
    let sum = variant.kind.ways * variant.used * (plan.count * (plan.count - 1) / 2);
    assert_eq!(taken.sum, sum, "not every fragment came through");
    let each = (STRETCH * variant.kind.ways) as f64;
    let mut times: Vec<f64> = taken.times.iter().map(|time| *time as f64 / each).collect();
    quarter(&mut times, 2)
}

/// The times of each variant in so many runs, which take turns; another one goes first each time.
fn times(variants: &[Variant], pauses: u64) -> Vec<Vec<f64>> {
    let mut times = vec![Vec::new(); variants.len()];
    for k in 0..RUNS {
        let plan = Plan {
            slots: SLOTS,
            count: COUNT,
            pauses,
            tell_each: 1,
            ahead: AHEAD + 16 * (k % PLACES),
        };
        for n in 0..variants.len() {
            let at = (n + k / PLACES) % variants.len();
            times[at].push(middle(&variants[at], plan));
        }
    }
    times
}

/// A line for each variant: its middle run, the middle half of its runs, and the first one's time over it, also that of
/// the first one without pauses, which is given, if not measured here.
fn report_between(variants: &[Variant], pauses: u64, unpaused: Option<f64>) -> f64 {
    let times = times(variants, pauses);
    let unpaused = unpaused.unwrap_or_else(|| quarter(&mut times[0].clone(), 2));
    for (variant, own) in variants.iter().zip(&times) {
        let pairs: Vec<[f64; 2]> = own.iter().zip(&times[0]).map(|(a, b)| [*a, *b]).collect();
        let [low, middle, high] = [1, 2, 3].map(|part| quarter(&mut own.clone(), part));
        let (least, greatest) = bounds(&pairs);
        println!(
            "{pauses:>3} pauses, {:<44} {middle:5.0} ({low:.0} to {high:.0}), ratio {:.2} ({least:.2} to {greatest:.2}), beside no pauses {:.2}",
            variant.kind.name,
            ratio(pairs.iter().copied()),
            unpaused / middle,
        );
    }
    unpaused
}

/// Lines for each number of pauses.
fn report_pauses(variants: &[Variant]) {
    let mut unpaused = None;
    for pauses in PAUSES {
        unpaused = Some(report_between(variants, pauses, unpaused));
    }
}

/// The rows of the word (`alone` in one thread, `between` two threads, round `trips`), else all.
pub fn report(word: Option<&str>) {
    let chosen = |name: &str| word.is_none_or(|word| word == name);
    println!("nanoseconds a fragment, or a round trip");
    println!("ratios: the time of all sequentially consistent steps over a row's");
    if chosen("alone") {
        println!("in one thread, {ALONE} fragments a run, the least of {ALONE_RUNS} runs");
        report_alone(&RINGS);
        report_alone(&DUOS);
    }
    println!(
        "between two threads, {SLOTS} slots, the middle of {RUNS} runs (and their middle half)"
    );
    if chosen("between") {
        report_pauses(&RINGS);
        report_pauses(&DUOS);
    }
    if chosen("trips") {
        report_pauses(&TRIPS);
    }
}
