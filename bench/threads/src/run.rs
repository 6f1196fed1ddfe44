//! A cores file run in plain Rust: a thread for each core, and the report.

use crate::calls::{Call, Value};
use crate::core::{Core, End, Lane, Way, Wire};
use crate::dispatcher::{Dispatcher, List};
use crate::reading::{Joined, Setup};
use crate::shared;
use std::fmt::Write;
use std::hint::spin_loop;
use std::sync::atomic::{AtomicU64, Ordering::SeqCst};
use std::thread;

/// A count of the cores that have finished, to which one that stops adds so much.
const STOP: u64 = 1 << 32;

/// The cores of a file, while they are made.
struct Making<'a> {
    setup: &'a Setup,
    cores: Vec<Core<'a>>,
    /// Of each dispatcher its place at its core.
    places: Vec<usize>,
}

impl<'a> Making<'a> {
    fn new(setup: &'a Setup) -> Making<'a> {
        let mut made = Making { setup, cores: (0..setup.cores).map(|_| Core::new(setup)).collect(), places: Vec::new() };
        for core in &setup.dispatchers {
            made.places.push(made.cores[*core].dispatchers.len());
            made.cores[*core].dispatchers.push(Dispatcher::new());
        }
        made
    }

    // A ring between two cores: the place of its side at each.
    fn add_ring(&mut self, cores: [usize; 2], slots: usize) -> [usize; 2] {
        let (one, two) = shared::duo(slots);
        let places = cores.map(|core| self.cores[core].sides.len());
        self.cores[cores[0]].sides.push(one);
        self.cores[cores[1]].sides.push(two);
        places
    }

    fn add_end(&mut self, core: usize, binding: usize, side: usize, wire: Wire) -> usize {
        let dispatcher = self.setup.bindings[binding].sides[side].dispatcher;
        let core = &mut self.cores[core];
        let e = core.ends.len();
        let list = if let Wire::Ring(_) = wire { List::Polled } else { List::Idle };
        let place = self.places[dispatcher];
        let channel = core.dispatchers[place].add(e, list);
        core.ends.push(End::new(self.setup, binding, side, wire, place, channel));
        e
    }

    // The lane at one core of a link to another.
    fn lane(&self, core: usize, other: usize) -> usize {
        let own = self.setup.links.iter().filter(|(a, b, _)| *a == core || *b == core);
        let mut lanes = own.enumerate().filter(|(_, (a, b, _))| *a == other || *b == other);
        lanes.next().expect("a link").0
    }

    fn side(&self, core: usize, other: usize) -> usize {
        self.cores[core].lanes[self.lane(core, other)].side()
    }

    // A circuit over these cores, under one number on all its links.
    fn add_circuit(&mut self, binding: usize, route: &[usize]) {
        let circuit = 2 * binding as u16 + 1;
        let (first, last) = (route[0], route[route.len() - 1]);
        for (side, core, next) in [(0, first, route[1]), (1, last, route[route.len() - 2])] {
            let wire = Wire::Circuit { side: self.side(core, next), circuit };
            let (e, lane) = (self.add_end(core, binding, side, wire), self.lane(core, next));
            self.cores[core].lanes[lane].enter(circuit, Way::End(e));
        }
        for hop in route.windows(3) {
            for (from, to) in [(hop[0], hop[2]), (hop[2], hop[0])] {
                let (lane, onward) = (self.lane(hop[1], from), self.side(hop[1], to));
                self.cores[hop[1]].lanes[lane].enter(circuit, Way::Onward(onward, circuit));
            }
        }
    }
}

fn wire(setup: &Setup) -> Vec<Core<'_>> {
    let mut made = Making::new(setup);
    for (a, b, slots) in &setup.links {
        let sides = made.add_ring([*a, *b], *slots);
        for (core, side) in [*a, *b].into_iter().zip(sides) {
            made.cores[core].lanes.push(Lane::new(side));
        }
    }
    for (n, binding) in setup.bindings.iter().enumerate() {
        match &binding.joined {
            Joined::Circuit(route) => made.add_circuit(n, route),
            Joined::Ring(slots) => {
                let cores = [0, 1].map(|side| setup.dispatchers[binding.sides[side].dispatcher]);
                let sides = made.add_ring(cores, *slots);
                for side in [0, 1] {
                    made.add_end(cores[side], n, side, Wire::Ring(sides[side]));
                }
            }
        }
    }
    made.cores
}

/// How a run goes: so many turns are counted, and a core that found nothing pauses so often.
#[derive(Clone, Copy)]
pub struct Plan {
    pub limit: u64,
    pub pauses: u64,
}

fn turn(core: &mut Core, plan: Plan) {
    if !core.turn() {
        for _ in 0..plan.pauses {
            spin_loop();
        }
    }
}

// A core's whole run: whether it finished.
fn core_run(core: &mut Core, cores: u64, plan: Plan, ended: &AtomicU64) -> bool {
    let mut turns = 0;
    while !core.is_finished() {
        if turns == plan.limit {
            ended.fetch_add(STOP, SeqCst);
            return false;
        }
        if ended.load(SeqCst) >= STOP {
            return false;
        }
        turn(core, plan);
        turns += 1;
    }
    ended.fetch_add(1, SeqCst);
    while ended.load(SeqCst) < cores {
        turn(core, plan);
    }
    true
}

fn put_call(out: &mut String, setup: &Setup, call: &Call) {
    out.push_str(&setup.messages[usize::from(call.msg)].name);
    for (k, value) in call.args.iter().enumerate() {
        out.push_str(if k == 0 { "(" } else { ", " });
        match value {
            Value::Int(number) => write!(out, "{number}").unwrap(),
            _ => unreachable!("arguments here are numbers"),
        }
    }
    out.push_str(")\n");
}

fn report(setup: &Setup, cores: &[Core], complete: bool) -> String {
    let mut ends: Vec<&End> = cores.iter().flat_map(|core| &core.ends).collect();
    ends.sort_by_key(|end| (&setup.bindings[end.binding].name, end.side));
    let mut out = String::new();
    for end in ends {
        let name = &setup.bindings[end.binding].name;
        for call in &end.handled {
            write!(out, "handle {name}.{} ", ["c", "s"][end.side]).unwrap();
            put_call(&mut out, setup, call);
        }
    }
    out.push_str(if complete { "complete\n" } else { "turns out\n" });
    out
}

/// Runs a file: its report.
pub fn run(setup: &Setup, plan: Plan) -> String {
    let mut cores = wire(setup);
    let (count, ended) = (cores.len() as u64, AtomicU64::new(0));
    let complete = thread::scope(|scope| {
        let ended = &ended;
        let threads: Vec<_> = cores.iter_mut().map(|core| scope.spawn(move || core_run(core, count, plan, ended))).collect();
        threads.into_iter().fold(true, |all, thread| all & thread.join().expect("the thread ends"))
    });
    report(setup, &cores, complete)
}
