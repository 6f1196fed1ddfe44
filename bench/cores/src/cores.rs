//! Cores in plain Rust: ends with the machines of the stubs' benchmark, dispatchers with their three lists, tables of circuits, arrival queues. They
//! refuse what the proved cores refuse of what happens here; their circuits are entered by hand and not by monitors.

use crate::calls::{Call, Frag, Value};
use crate::dispatcher::{Dispatcher, List};
use crate::plain::{Run, Stub, flatten};
use crate::receiver::{Fed, Taking, sum_of_call, unflatten};
use crate::ring::{Duo, Sight};
use std::collections::VecDeque;

const ARRIVALS: usize = 16;

/// By what an end is joined to the other of its binding.
#[derive(Clone, Copy)]
pub enum Wire {
    Ring(usize),
    Circuit { ring: usize, circuit: u16 },
}

pub struct End<'a> {
    stub: &'a Stub,
    run: Option<Run<'a>>,
    next: Option<Frag>,
    taking: Taking<'a>,
    failed: bool,
    wire: Wire,
    arrivals: VecDeque<Frag>,
    dispatcher: usize,
    channel: usize,
}

/// Where a circuit leads.
#[derive(Clone, Copy)]
pub enum Way {
    End(usize),
    Link(usize, u16),
}

/// One core: side `side` of each of its rings.
pub struct Core<'a> {
    side: usize,
    ends: Vec<End<'a>>,
    dispatchers: Vec<Dispatcher>,
    pub routes: Vec<Vec<Option<Way>>>,
}

fn with_circuit(frag: &Frag, circuit: u16) -> Frag {
    Frag { words: frag.words, control: frag.control & !(0xffff << 32) | u64::from(circuit) << 32 }
}

// Without epoch, circuit and the number told.
fn bare(frag: &Frag) -> Frag {
    Frag { words: frag.words, control: frag.control & 0xffff_fffe }
}

// Whether a call's arguments are numbers of 64 bits, as many as the message has.
fn fits(stub: &Stub, call: &Call) -> bool {
    match stub.types.messages.get(usize::from(call.msg)) {
        None => false,
        Some(types) => {
            types.len() == call.args.len()
                && call.args.iter().all(|value| match value {
                    Value::Int(number) => i64::try_from(*number).is_ok() || u64::try_from(*number).is_ok(),
                    _ => true,
                })
        }
    }
}

impl<'a> Core<'a> {
    pub fn new(side: usize, dispatchers: usize, links: usize) -> Core<'a> {
        Core {
            side,
            ends: Vec::new(),
            dispatchers: (0..dispatchers).map(|_| Dispatcher::new()).collect(),
            routes: vec![vec![None; 2_050]; links],
        }
    }

    pub fn add_end(&mut self, dispatcher: usize, stub: &'a Stub, wire: Wire) -> usize {
        let e = self.ends.len();
        let list = if let Wire::Ring(_) = wire { List::Polled } else { List::Idle };
        let channel = self.dispatchers[dispatcher].add(e, list);
        let taking = Taking::new(&stub.receive, stub.tape.len());
        let arrivals = VecDeque::with_capacity(ARRIVALS);
        self.ends.push(End { stub, run: None, next: None, taking, failed: false, wire, arrivals, dispatcher, channel });
        e
    }

    #[inline(never)]
    pub fn call(&mut self, e: usize, call: &Call) -> bool {
        let end = &mut self.ends[e];
        if end.run.is_some() || end.failed || !fits(end.stub, call) {
            return false;
        }
        let mut run = Run::start(&end.stub.send, call.msg, flatten(&end.stub.types, call));
        end.next = run.next();
        end.run = Some(run);
        true
    }

    #[inline(never)]
    pub fn write(&mut self, e: usize, rings: &mut [Duo]) -> bool {
        let end = &mut self.ends[e];
        let (Some(run), Some(frag)) = (&mut end.run, &end.next) else {
            return false;
        };
        let (ring, circuit) = match end.wire {
            Wire::Ring(ring) => (ring, 0),
            Wire::Circuit { ring, circuit } => (ring, circuit),
        };
        if !rings[ring].put(self.side, &with_circuit(frag, circuit)) {
            return false;
        }
        end.next = run.next();
        if end.next.is_none() {
            end.run = None;
        }
        true
    }

    // A fragment that was seen is given to an end: what its call comes to, once it is whole.
    fn give(end: &mut End, frag: &Frag) -> Option<Call> {
        match end.taking.feed(&bare(frag)) {
            Fed::Refused => {
                end.failed = true;
                None
            }
            Fed::Part => None,
            Fed::Whole => Some(unflatten(&end.stub.types, 0, end.taking.tape())),
        }
    }

    /// A turn of a dispatcher: a sum over the call that was handled.
    #[inline(never)]
    pub fn turn(&mut self, dispatcher: usize, rings: &mut [Duo]) -> u64 {
        let at = &mut self.dispatchers[dispatcher];
        let Some(c) = at.first(List::Pending) else {
            if let Some(c) = at.first(List::Polled) {
                self.examine(dispatcher, c, rings);
            }
            return 0;
        };
        let end = &mut self.ends[at.end(c)];
        let call = match end.wire {
            Wire::Ring(ring) => {
                let call = match rings[ring].peek(self.side) {
                    Sight::Data(frag) => Core::give(end, &frag),
                    _ => None,
                };
                rings[ring].take(self.side);
                at.put_back(c, List::Polled);
                call
            }
            Wire::Circuit { .. } => {
                let call = end.arrivals.front().copied().and_then(|frag| Core::give(end, &frag));
                end.arrivals.pop_front();
                at.put_back(c, if end.arrivals.is_empty() { List::Idle } else { List::Pending });
                call
            }
        };
        call.map_or(0, |call| sum_of_call(&call))
    }

    fn examine(&mut self, dispatcher: usize, c: usize, rings: &mut [Duo]) {
        let at = &mut self.dispatchers[dispatcher];
        let Wire::Ring(ring) = self.ends[at.end(c)].wire else {
            return;
        };
        match rings[ring].peek(self.side) {
            Sight::Data(_) => at.put_back(c, List::Pending),
            Sight::Acknowledgement => {
                rings[ring].take(self.side);
                at.put_back(c, List::Polled);
            }
            Sight::Empty => at.put_back(c, List::Polled),
        }
    }

    #[inline(never)]
    pub fn ack(&self, e: usize, rings: &mut [Duo]) {
        if let Wire::Ring(ring) = self.ends[e].wire {
            rings[ring].tell(self.side);
        }
    }

    /// A forward of what stands first on a link to an end of this core.
    #[inline(never)]
    pub fn arrive(&mut self, link: usize, ring: &mut Duo, side: usize) {
        let frag = match ring.peek(side) {
            Sight::Empty => return,
            Sight::Acknowledgement => {
                ring.take(side);
                return;
            }
            Sight::Data(frag) => frag,
        };
        let circuit = (frag.control >> 32) as u16;
        if let Some(Way::End(e)) = self.routes[link][usize::from(circuit)] {
            let end = &mut self.ends[e];
            if end.arrivals.len() < ARRIVALS {
                end.arrivals.push_back(with_circuit(&frag, 0));
                ring.take(side);
                self.dispatchers[end.dispatcher].trigger(end.channel);
            }
        }
    }

    /// A forward of what stands first on a link to another link.
    #[inline(never)]
    pub fn pass(&self, link: usize, rings: &mut [Duo]) {
        if let Sight::Data(frag) = rings[link].peek(1) {
            let circuit = (frag.control >> 32) as u16;
            if let Some(Way::Link(next, number)) = self.routes[link][usize::from(circuit)] {
                if rings[next].put(0, &with_circuit(&frag, number)) {
                    rings[link].take(1);
                }
            }
        }
    }
}

/// How many bindings there are, the first that makes calls, at how many dispatchers of each core they are, and how many slots a ring has.
#[derive(Clone, Copy)]
pub struct Shape {
    pub bindings: usize,
    pub first: usize,
    pub dispatchers: usize,
    pub slots: usize,
}

fn rings(shape: Shape, count: usize) -> Vec<Duo> {
    (0..count).map(|_| Duo::new(shape.slots)).collect()
}

fn bound(stub: &Stub, shape: Shape) -> ([Core<'_>; 2], Vec<Duo>) {
    let mut cores = [Core::new(0, shape.dispatchers, 0), Core::new(1, shape.dispatchers, 0)];
    for k in 0..shape.bindings {
        for core in &mut cores {
            core.add_end(k % shape.dispatchers, stub, Wire::Ring(k));
        }
    }
    (cores, rings(shape, shape.bindings))
}

/// Six events of each binding in turn.
pub fn by_rings(stub: &Stub, shape: Shape, rounds: u64) -> u64 {
    let ([mut one, mut two], mut rings) = bound(stub, shape);
    let mut sum: u64 = 0;
    for _ in 0..rounds {
        for k in shape.first..shape.bindings {
            let dispatcher = k % shape.dispatchers;
            one.call(k, &stub.value);
            one.write(k, &mut rings);
            let ready = two.turn(dispatcher, &mut rings);
            let handled = two.turn(dispatcher, &mut rings);
            two.ack(k, &mut rings);
            sum = sum.wrapping_add(ready).wrapping_add(handled);
            one.turn(dispatcher, &mut rings);
        }
    }
    sum
}

/// Turns that find nothing.
pub fn quietly(stub: &Stub, shape: Shape, rounds: u64) -> u64 {
    let ([mut one, _], mut rings) = bound(stub, shape);
    for _ in 0..rounds {
        for k in shape.first..shape.bindings {
            one.turn(k % shape.dispatchers, &mut rings);
        }
    }
    rounds
}

// The number of a circuit that the lower core opened.
fn number(k: usize) -> u16 {
    2 * k as u16 + 1
}

/// Six events of each circuit in turn: call, write, forward, acknowledgement, forward the other way, turn.
pub fn by_circuits(stub: &Stub, shape: Shape, rounds: u64) -> u64 {
    let (mut one, mut two) = (Core::new(0, shape.dispatchers, 1), Core::new(1, shape.dispatchers, 1));
    for k in 0..shape.bindings {
        for core in [&mut one, &mut two] {
            let e = core.add_end(k % shape.dispatchers, stub, Wire::Circuit { ring: 0, circuit: number(k) });
            core.routes[0][usize::from(number(k))] = Some(Way::End(e));
        }
    }
    let mut rings = rings(shape, 1);
    let mut sum: u64 = 0;
    for _ in 0..rounds {
        for k in shape.first..shape.bindings {
            one.call(k, &stub.value);
            one.write(k, &mut rings);
            two.arrive(0, &mut rings[0], 1);
            rings[0].tell(1);
            one.arrive(0, &mut rings[0], 0);
            sum = sum.wrapping_add(two.turn(k % shape.dispatchers, &mut rings));
        }
    }
    sum
}

fn sum_of_sight(sight: Sight) -> u64 {
    match sight {
        Sight::Data(frag) => frag.words.iter().fold(0, |sum, word| sum.wrapping_add(*word)),
        _ => 0,
    }
}

/// Fragments that a middle core passes on.
pub fn onward(_: &Stub, shape: Shape, rounds: u64) -> u64 {
    let mut core = Core::new(1, shape.dispatchers, 2);
    for k in 0..shape.bindings {
        core.routes[0][usize::from(number(k))] = Some(Way::Link(1, number(k)));
    }
    let mut rings = rings(shape, 2);
    let mut sum: u64 = 0;
    for round in 0..rounds {
        for k in shape.first..shape.bindings {
            let frag = Frag { words: [round; 7], control: 2 + (u64::from(number(k)) << 32) };
            rings[0].put(0, &frag);
            core.pass(0, &mut rings);
            sum = sum.wrapping_add(sum_of_sight(rings[1].take(1)));
            for ring in &mut rings {
                ring.tell(1);
            }
            for ring in &mut rings {
                ring.take(0);
            }
        }
    }
    sum
}
