//! A world in plain Rust: cores with ends, dispatchers with their three lists, queues within a core, rings between two, circuits of several links. What
//! is asked are events by names, as in the proved world, and what comes of each is an answer. Its circuits are entered by hand: it has no monitors, no
//! rules, and no faults but those of what is asked here.

use crate::calls::{Call, Frag, Value};
use crate::plain::{flatten, Run, Stub};
use crate::receiver::{unflatten, Fed, Taking};
use crate::ring::{Duo, Sight};
use std::collections::VecDeque;

const ARRIVALS: usize = 16;

#[derive(Clone, Copy)]
pub enum Side {
    Client,
    Server,
}

#[derive(Clone, Copy)]
pub struct EndId {
    pub binding: usize,
    pub side: Side,
}

/// A core, and a dispatcher's place there.
#[derive(Clone, Copy)]
pub struct DispatcherId {
    pub core: usize,
    pub place: usize,
}

pub enum Event {
    Call(EndId, Call),
    Write(EndId),
    Turn(DispatcherId),
    Acknowledge(EndId),
    /// A core forwards what stands first on its link to a neighbour.
    Forward(usize, usize),
    MonitorAcknowledge(usize, usize),
}

// The benchmark looks at the calls alone.
#[allow(dead_code)]
pub enum Answer {
    Accepted,
    Written,
    Handle(EndId, Call),
    Part(EndId),
    Ready(EndId),
    Quiet(EndId),
    Forwarded,
    Done,
    Nothing,
    Full,
    Refused(u8),
}

#[derive(Clone, Copy, PartialEq)]
enum List {
    Idle,
    Pending,
    Polled,
}

#[derive(Clone, Copy)]
struct Node {
    before: usize,
    after: usize,
    list: List,
}

const NONE: usize = usize::MAX;

/// A dispatcher: its ends in three lists, joined by their places.
struct Dispatcher {
    ends: Vec<usize>,
    nodes: Vec<Node>,
    first: [usize; 3],
    last: [usize; 3],
}

impl Dispatcher {
    fn new() -> Dispatcher {
        Dispatcher { ends: Vec::new(), nodes: Vec::new(), first: [NONE; 3], last: [NONE; 3] }
    }

    fn add(&mut self, end: usize, list: List) -> usize {
        let channel = self.ends.len();
        self.ends.push(end);
        self.nodes.push(Node { before: NONE, after: NONE, list });
        self.push(channel, list);
        channel
    }

    fn push(&mut self, c: usize, list: List) {
        let last = self.last[list as usize];
        self.nodes[c] = Node { before: last, after: NONE, list };
        match last {
            NONE => self.first[list as usize] = c,
            last => self.nodes[last].after = c,
        }
        self.last[list as usize] = c;
    }

    fn remove(&mut self, c: usize) {
        let Node { before, after, list } = self.nodes[c];
        match before {
            NONE => self.first[list as usize] = after,
            before => self.nodes[before].after = after,
        }
        match after {
            NONE => self.last[list as usize] = before,
            after => self.nodes[after].before = before,
        }
    }

    #[inline]
    fn put_back(&mut self, c: usize, list: List) {
        self.remove(c);
        self.push(c, list);
    }

    #[inline]
    fn trigger(&mut self, c: usize) {
        if self.nodes[c].list == List::Idle {
            self.put_back(c, List::Pending);
        }
    }
}

/// By what an end is joined to the other of its binding.
#[derive(Clone, Copy)]
enum Wire {
    /// The queue that it puts into, and the one that it takes from; and the other end, at the same core.
    Queues { to: usize, from: usize, peer: usize },
    Ring { ring: usize, side: usize },
    Circuit { link: usize, circuit: u16 },
}

struct End<'a> {
    name: EndId,
    stub: &'a Stub,
    run: Option<Run<'a>>,
    next: Option<Frag>,
    taking: Taking<'a>,
    failed: bool,
    wire: Wire,
    arrivals: VecDeque<Frag>,
    dispatcher: usize,
    channel: usize,
}

/// Where a circuit leads: to an end, or on over a link.
#[derive(Clone, Copy)]
enum Way {
    End(usize),
    Link(usize, u16),
}

/// A core's side of the ring of a link, and the circuits there.
struct Link {
    ring: usize,
    side: usize,
    circuits: Vec<Option<Way>>,
}

struct Core<'a> {
    ends: Vec<End<'a>>,
    dispatchers: Vec<Dispatcher>,
    /// By neighbour.
    to: [Option<usize>; 16],
    links: Vec<Link>,
}

struct Queue {
    slots: usize,
    frags: VecDeque<Frag>,
}

pub struct World<'a> {
    cores: Vec<Core<'a>>,
    rings: Vec<Duo>,
    queues: Vec<Queue>,
    /// Core and place of the client's end, and of the server's.
    bindings: Vec<[(usize, usize); 2]>,
}

fn with_circuit(frag: &Frag, circuit: u16) -> Frag {
    Frag { words: frag.words, control: frag.control & !(0xffff << 32) | u64::from(circuit) << 32 }
}

// Without epoch, circuit and the number told.
fn bare(frag: &Frag) -> Frag {
    Frag { words: frag.words, control: frag.control & 0xffff_fffe }
}

// Whether a call's arguments are numbers of 64 bits, as many as the message has.
fn fits(stub: &Stub, call: &Call) -> bool {
    match stub.types.messages.get(usize::from(call.msg)) {
        None => false,
        Some(types) => {
            types.len() == call.args.len()
                && call.args.iter().all(|value| match value {
                    Value::Int(number) => i64::try_from(*number).is_ok() || u64::try_from(*number).is_ok(),
                    _ => true,
                })
        }
    }
}

impl<'a> End<'a> {
    fn call(&mut self, call: &Call) -> Answer {
        if self.failed {
            return Answer::Refused(64);
        }
        if self.run.is_some() {
            return Answer::Refused(40);
        }
        if !fits(self.stub, call) {
            return Answer::Refused(42);
        }
        let mut run = Run::start(&self.stub.send, call.msg, flatten(&self.stub.types, call));
        self.next = run.next();
        self.run = Some(run);
        Answer::Accepted
    }

    // A fragment of the call is written.
    fn wrote(&mut self) -> Answer {
        if let Some(run) = &mut self.run {
            self.next = run.next();
        }
        if self.next.is_none() {
            self.run = None;
        }
        Answer::Written
    }

    // A fragment that was taken: what its call comes to, once it is whole.
    fn give(&mut self, frag: &Frag) -> Answer {
        match self.taking.feed(&bare(frag)) {
            Fed::Refused => {
                self.failed = true;
                Answer::Refused(64)
            }
            Fed::Part => Answer::Part(self.name),
            Fed::Whole => Answer::Handle(self.name, unflatten(&self.stub.types, 0, self.taking.tape())),
        }
    }
}

impl<'a> Core<'a> {
    fn new(dispatchers: usize) -> Core<'a> {
        Core { ends: Vec::new(), dispatchers: (0..dispatchers).map(|_| Dispatcher::new()).collect(), to: [None; 16], links: Vec::new() }
    }

    fn add_end(&mut self, name: EndId, dispatcher: usize, stub: &'a Stub, wire: Wire) -> usize {
        let place = self.ends.len();
        let list = if let Wire::Ring { .. } = wire { List::Polled } else { List::Idle };
        let channel = self.dispatchers[dispatcher].add(place, list);
        let taking = Taking::new(&stub.receive, stub.tape.len());
        let arrivals = VecDeque::with_capacity(ARRIVALS);
        self.ends.push(End { name, stub, run: None, next: None, taking, failed: false, wire, arrivals, dispatcher, channel });
        place
    }

    fn add_link(&mut self, neighbour: usize, ring: usize, side: usize) {
        self.to[neighbour] = Some(self.links.len());
        self.links.push(Link { ring, side, circuits: vec![None; 2_050] });
    }

    #[inline]
    fn trigger(&mut self, place: usize) {
        let End { dispatcher, channel, .. } = self.ends[place];
        self.dispatchers[dispatcher].trigger(channel);
    }

    #[inline(never)]
    fn write(&mut self, place: usize, rings: &mut [Duo], queues: &mut [Queue]) -> Answer {
        let end = &mut self.ends[place];
        let Some(frag) = &end.next else {
            return Answer::Nothing;
        };
        let put = match end.wire {
            Wire::Queues { to, .. } => {
                let queue = &mut queues[to];
                let room = queue.frags.len() < queue.slots;
                if room {
                    queue.frags.push_back(*frag);
                }
                room
            }
            Wire::Ring { ring, side } => rings[ring].put(side, frag),
            Wire::Circuit { link, circuit } => {
                let link = &self.links[link];
                rings[link.ring].put(link.side, &with_circuit(frag, circuit))
            }
        };
        if !put {
            return Answer::Full;
        }
        let answer = end.wrote();
        if let Wire::Queues { peer, .. } = end.wire {
            self.trigger(peer);
        }
        answer
    }

    #[inline(never)]
    fn turn(&mut self, dispatcher: usize, rings: &mut [Duo], queues: &mut [Queue]) -> Answer {
        let Some(at) = self.dispatchers.get_mut(dispatcher) else {
            return Answer::Refused(92);
        };
        let c = at.first[List::Pending as usize];
        if c == NONE {
            return self.examine(dispatcher, rings);
        }
        let end = &mut self.ends[at.ends[c]];
        match end.wire {
            Wire::Queues { from, .. } => {
                let frags = &mut queues[from].frags;
                let Some(frag) = frags.pop_front() else {
                    return Answer::Nothing;
                };
                at.put_back(c, if frags.is_empty() { List::Idle } else { List::Pending });
                end.give(&frag)
            }
            Wire::Ring { ring, side } => {
                let answer = match rings[ring].peek(side) {
                    Sight::Data(frag) => end.give(&frag),
                    _ => Answer::Nothing,
                };
                rings[ring].take(side);
                at.put_back(c, List::Polled);
                answer
            }
            Wire::Circuit { .. } => {
                let Some(frag) = end.arrivals.pop_front() else {
                    return Answer::Nothing;
                };
                at.put_back(c, if end.arrivals.is_empty() { List::Idle } else { List::Pending });
                end.give(&frag)
            }
        }
    }

    // No channel is pending: the first that is polled is looked at.
    fn examine(&mut self, dispatcher: usize, rings: &mut [Duo]) -> Answer {
        let at = &mut self.dispatchers[dispatcher];
        let c = at.first[List::Polled as usize];
        if c == NONE {
            return Answer::Nothing;
        }
        let end = &self.ends[at.ends[c]];
        let Wire::Ring { ring, side } = end.wire else {
            return Answer::Nothing;
        };
        match rings[ring].peek(side) {
            Sight::Data(_) => {
                at.put_back(c, List::Pending);
                return Answer::Ready(end.name);
            }
            Sight::Acknowledgement => {
                rings[ring].take(side);
            }
            Sight::Empty => {}
        }
        at.put_back(c, List::Polled);
        Answer::Quiet(end.name)
    }

    #[inline(never)]
    fn forward(&mut self, link: usize, rings: &mut [Duo]) -> Answer {
        let Link { ring, side, .. } = self.links[link];
        let frag = match rings[ring].peek(side) {
            Sight::Empty => return Answer::Nothing,
            Sight::Acknowledgement => {
                rings[ring].take(side);
                return Answer::Done;
            }
            Sight::Data(frag) => frag,
        };
        let circuit = (frag.control >> 32) as u16;
        match self.links[link].circuits.get(usize::from(circuit)).copied().flatten() {
            None => Answer::Refused(67),
            Some(Way::End(place)) => {
                let end = &mut self.ends[place];
                if end.arrivals.len() >= ARRIVALS {
                    return Answer::Full;
                }
                end.arrivals.push_back(with_circuit(&frag, 0));
                rings[ring].take(side);
                self.trigger(place);
                Answer::Forwarded
            }
            Some(Way::Link(next, number)) => {
                let next = &self.links[next];
                if !rings[next.ring].put(next.side, &with_circuit(&frag, number)) {
                    return Answer::Full;
                }
                rings[ring].take(side);
                Answer::Forwarded
            }
        }
    }
}

// What a side of a ring has taken is told, where that is half of its slots.
fn tell(ring: &mut Duo, side: usize) -> Answer {
    ring.tell(side);
    Answer::Done
}

impl<'a> World<'a> {
    /// A world of so many cores, each with so many dispatchers.
    pub fn new(cores: usize, dispatchers: usize) -> World<'a> {
        World { cores: (0..cores).map(|_| Core::new(dispatchers)).collect(), rings: Vec::new(), queues: Vec::new(), bindings: Vec::new() }
    }

    pub fn add_link(&mut self, near: usize, far: usize, slots: usize) {
        let ring = self.rings.len();
        self.rings.push(Duo::new(slots));
        self.cores[near].add_link(far, ring, 0);
        self.cores[far].add_link(near, ring, 1);
    }

    fn names(&self) -> [EndId; 2] {
        let binding = self.bindings.len();
        [EndId { binding, side: Side::Client }, EndId { binding, side: Side::Server }]
    }

    pub fn bind_locally(&mut self, client: DispatcherId, server: DispatcherId, stub: &'a Stub, slots: usize) {
        let [c, s] = self.names();
        let q = self.queues.len();
        self.queues.extend((0..2).map(|_| Queue { slots, frags: VecDeque::with_capacity(slots) }));
        let core = &mut self.cores[client.core];
        let place = core.ends.len();
        core.add_end(c, client.place, stub, Wire::Queues { to: q, from: q + 1, peer: place + 1 });
        core.add_end(s, server.place, stub, Wire::Queues { to: q + 1, from: q, peer: place });
        self.bindings.push([(client.core, place), (client.core, place + 1)]);
    }

    pub fn bind_by_ring(&mut self, client: DispatcherId, server: DispatcherId, stub: &'a Stub, slots: usize) {
        let [c, s] = self.names();
        let ring = self.rings.len();
        self.rings.push(Duo::new(slots));
        let one = self.cores[client.core].add_end(c, client.place, stub, Wire::Ring { ring, side: 0 });
        let two = self.cores[server.core].add_end(s, server.place, stub, Wire::Ring { ring, side: 1 });
        self.bindings.push([(client.core, one), (server.core, two)]);
    }

    // A circuit has one number on all links here.
    pub fn bind_by_circuit(&mut self, client: DispatcherId, server: DispatcherId, route: &[usize], stub: &'a Stub) {
        let [c, s] = self.names();
        let circuit = 2 * self.bindings.len() as u16 + 1;
        let last = route.len() - 1;
        let link = |world: &World<'a>, at: usize, to: usize| world.cores[route[at]].to[route[to]].expect("a link");
        let (first_link, last_link) = (link(self, 0, 1), link(self, last, last - 1));
        let one = self.cores[client.core].add_end(c, client.place, stub, Wire::Circuit { link: first_link, circuit });
        let two = self.cores[server.core].add_end(s, server.place, stub, Wire::Circuit { link: last_link, circuit });
        let number = usize::from(circuit);
        self.cores[route[0]].links[first_link].circuits[number] = Some(Way::End(one));
        self.cores[route[last]].links[last_link].circuits[number] = Some(Way::End(two));
        for at in 1..last {
            let (back, on) = (link(self, at, at - 1), link(self, at, at + 1));
            let links = &mut self.cores[route[at]].links;
            links[back].circuits[number] = Some(Way::Link(on, circuit));
            links[on].circuits[number] = Some(Way::Link(back, circuit));
        }
        self.bindings.push([(client.core, one), (server.core, two)]);
    }

    #[inline]
    fn place(&self, end: EndId) -> Option<(usize, usize)> {
        Some(self.bindings.get(end.binding)?[end.side as usize])
    }

    #[inline]
    fn link(&self, core: usize, neighbour: usize) -> Option<usize> {
        *self.cores.get(core)?.to.get(neighbour)?
    }

    /// One event.
    #[inline(never)]
    pub fn step(&mut self, event: &Event) -> Answer {
        match event {
            Event::Call(end, call) => match self.place(*end) {
                None => Answer::Refused(92),
                Some((core, place)) => self.cores[core].ends[place].call(call),
            },
            Event::Write(end) => match self.place(*end) {
                None => Answer::Refused(92),
                Some((core, place)) => self.cores[core].write(place, &mut self.rings, &mut self.queues),
            },
            Event::Turn(at) => match self.cores.get_mut(at.core) {
                None => Answer::Refused(92),
                Some(core) => core.turn(at.place, &mut self.rings, &mut self.queues),
            },
            Event::Acknowledge(end) => match self.place(*end) {
                None => Answer::Refused(92),
                Some((core, place)) => match self.cores[core].ends[place].wire {
                    Wire::Ring { ring, side } => tell(&mut self.rings[ring], side),
                    _ => Answer::Nothing,
                },
            },
            Event::Forward(core, neighbour) => match self.link(*core, *neighbour) {
                None => Answer::Refused(73),
                Some(link) => self.cores[*core].forward(link, &mut self.rings),
            },
            Event::MonitorAcknowledge(core, neighbour) => match self.link(*core, *neighbour) {
                None => Answer::Refused(73),
                Some(link) => {
                    let Link { ring, side, .. } = self.cores[*core].links[link];
                    tell(&mut self.rings[ring], side)
                }
            },
        }
    }
}
