//! One core of a cores file in plain Rust, and its turns: the machines of the stubs' benchmark at its ends, dispatchers with their three lists, tables of
//! circuits, arrival queues. It refuses what the proved cores refuse of what happens here; its circuits are entered by hand and not by monitors.

use crate::calls::{Call, Frag};
use crate::dispatcher::{Dispatcher, List};
use crate::plain::{Run, flatten};
use crate::reading::Setup;
use crate::receiver::{Fed, Taking, unflatten};
use crate::shared::{Side, Sight};
use std::collections::VecDeque;

/// So many fragments can wait for an end of a circuit, and so many replies at an end.
const WAITING: usize = 16;

/// Where an end puts to: a side of its own, or that of a link, on a circuit.
#[derive(Clone, Copy)]
pub enum Wire {
    Ring(usize),
    Circuit { side: usize, circuit: u16 },
}

/// Where a circuit leads: to an end, or onward over another side on a circuit there.
#[derive(Clone, Copy)]
pub enum Way {
    End(usize),
    Onward(usize, u16),
}

pub struct End<'a> {
    pub binding: usize,
    pub side: usize,
    jobs: &'a [Call],
    done: usize,
    // how many calls are to be handled here
    due: usize,
    pub handled: Vec<Call>,
    // by which message each is replied to
    rules: Vec<Option<u16>>,
    replies: VecDeque<(u16, Vec<u64>)>,
    run: Option<Run<'a>>,
    next: Option<Frag>,
    // a run for each message, and which of them has begun
    takings: Vec<Taking<'a>>,
    msg: u16,
    failed: bool,
    wire: Wire,
    arrivals: VecDeque<Frag>,
    dispatcher: usize,
    channel: usize,
}

/// A side of a link: where its circuits lead, and whether a fragment came that can't be.
pub struct Lane {
    side: usize,
    routes: Vec<Option<Way>>,
    failed: bool,
}

pub struct Core<'a> {
    setup: &'a Setup,
    pub ends: Vec<End<'a>>,
    pub dispatchers: Vec<Dispatcher>,
    pub lanes: Vec<Lane>,
    pub sides: Vec<Side>,
}

fn words_of(frag: &Frag, circuit: u16) -> [u64; 8] {
    let [a, b, c, d, e, f, g] = frag.words;
    [a, b, c, d, e, f, g, frag.control & !(0xffff << 32) | u64::from(circuit) << 32]
}

// The fragment without epoch, circuit and the number told.
fn bare(words: &[u64; 8]) -> Frag {
    Frag { words: *words.first_chunk().unwrap(), control: words[7] & 0xffff_fffe }
}

fn circuit_of(words: &[u64; 8]) -> usize {
    usize::from((words[7] >> 32) as u16)
}

impl Lane {
    pub fn new(side: usize) -> Lane {
        Lane { side, routes: vec![None; 2_050], failed: false }
    }

    pub fn enter(&mut self, circuit: u16, way: Way) {
        self.routes[usize::from(circuit)] = Some(way);
    }

    pub fn side(&self) -> usize {
        self.side
    }
}

impl<'a> End<'a> {
    pub fn new(setup: &'a Setup, binding: usize, side: usize, wire: Wire, dispatcher: usize, channel: usize) -> End<'a> {
        let bound = &setup.bindings[binding];
        let (mine, others) = (&bound.sides[side], &bound.sides[1 - side]);
        let messages = 0..setup.messages.len() as u16;
        let rules = messages.map(|msg| mine.rules.get(&msg).copied()).collect();
        let replied = mine.calls.iter().filter(|call| others.rules.contains_key(&call.msg)).count();
        End {
            binding,
            side,
            jobs: &mine.calls,
            done: 0,
            due: others.calls.len() + replied,
            handled: Vec::new(),
            rules,
            replies: VecDeque::with_capacity(WAITING),
            run: None,
            next: None,
            takings: setup.messages.iter().map(|message| Taking::new(&message.receive, message.numbers)).collect(),
            msg: 0,
            failed: false,
            wire,
            arrivals: VecDeque::with_capacity(WAITING),
            dispatcher,
            channel,
        }
    }

    fn is_finished(&self) -> bool {
        self.done == self.jobs.len() && self.handled.len() == self.due && self.run.is_none()
    }

    fn start(&mut self, setup: &'a Setup, msg: u16, tape: Vec<u64>) {
        let mut run = Run::start(&setup.messages[usize::from(msg)].send, msg, tape);
        self.next = run.next();
        self.run = Some(run);
    }

    // Its next call, where the one before is written.
    #[inline]
    fn make(&mut self, setup: &'a Setup) -> bool {
        let Some(call) = self.jobs.get(self.done) else {
            return false;
        };
        if self.run.is_some() || self.failed {
            return false;
        }
        self.start(setup, call.msg, flatten(&setup.types, call));
        self.done += 1;
        true
    }

    #[inline]
    fn write(&mut self, setup: &'a Setup, sides: &mut [Side]) -> bool {
        let (Some(run), Some(frag)) = (&mut self.run, &self.next) else {
            return false;
        };
        let (side, circuit) = match self.wire {
            Wire::Ring(side) => (side, 0),
            Wire::Circuit { side, circuit } => (side, circuit),
        };
        if !sides[side].put(&words_of(frag, circuit)) {
            return false;
        }
        self.next = run.next();
        if self.next.is_none() {
            self.run = None;
            if let Some((msg, tape)) = self.replies.pop_front() {
                self.start(setup, msg, tape);
            }
        }
        true
    }

    // Takes in a fragment that stands first.
    fn take_in(&mut self, setup: &'a Setup, frag: &Frag) {
        if frag.control & 2 != 0 {
            self.msg = (frag.control >> 16) as u16;
        }
        let Some(taking) = self.takings.get_mut(usize::from(self.msg)) else {
            self.failed = true;
            return;
        };
        match taking.feed(&Frag { words: frag.words, control: frag.control & 0xffff }) {
            Fed::Refused => self.failed = true,
            Fed::Part => {}
            Fed::Whole => {
                let tape = taking.tape();
                let call = unflatten(&setup.types, self.msg, tape);
                if let Some(reply) = self.rules[usize::from(self.msg)] {
                    let tape = tape.to_vec();
                    self.reply(setup, reply, tape);
                }
                self.handled.push(call);
            }
        }
    }

    fn reply(&mut self, setup: &'a Setup, msg: u16, tape: Vec<u64>) {
        if self.run.is_some() {
            self.replies.push_back((msg, tape));
        } else {
            self.start(setup, msg, tape);
        }
    }
}

impl<'a> Core<'a> {
    pub fn new(setup: &'a Setup) -> Core<'a> {
        Core { setup, ends: Vec::new(), dispatchers: Vec::new(), lanes: Vec::new(), sides: Vec::new() }
    }

    pub fn is_finished(&self) -> bool {
        self.ends.iter().all(End::is_finished)
    }

    // A forward of what stands first on a link; whether something stood there.
    #[inline]
    fn forward(&mut self, n: usize) -> bool {
        let lane = &mut self.lanes[n];
        if lane.failed {
            return false;
        }
        let words = match self.sides[lane.side].peek() {
            Sight::Empty => return false,
            Sight::Acknowledgement => {
                self.sides[lane.side].skip();
                return true;
            }
            Sight::Data(words) => words,
        };
        match lane.routes.get(circuit_of(&words)) {
            Some(Some(Way::End(e))) => {
                let end = &mut self.ends[*e];
                if end.arrivals.len() < WAITING {
                    end.arrivals.push_back(bare(&words));
                    self.sides[lane.side].skip();
                    self.dispatchers[end.dispatcher].trigger(end.channel);
                }
            }
            Some(Some(Way::Onward(to, circuit))) => {
                let sent = words_of(&bare(&words), *circuit);
                if self.sides[*to].put(&sent) {
                    self.sides[lane.side].skip();
                }
            }
            _ => lane.failed = true,
        }
        true
    }

    // A turn of a dispatcher; whether something was found.
    #[inline]
    fn dispatch(&mut self, n: usize) -> bool {
        let at = &mut self.dispatchers[n];
        if let Some(c) = at.first(List::Pending) {
            let end = &mut self.ends[at.end(c)];
            if end.replies.len() >= WAITING {
                at.put_back(c, List::Pending);
                return true;
            }
            if let Wire::Ring(side) = end.wire {
                if let Sight::Data(words) = self.sides[side].peek() {
                    end.take_in(self.setup, &bare(&words));
                    self.sides[side].skip();
                }
                at.put_back(c, List::Polled);
            } else {
                if let Some(frag) = end.arrivals.pop_front() {
                    end.take_in(self.setup, &frag);
                }
                at.put_back(c, if end.arrivals.is_empty() { List::Idle } else { List::Pending });
            }
            return true;
        }
        let Some(c) = at.first(List::Polled) else {
            return false;
        };
        let Wire::Ring(side) = self.ends[at.end(c)].wire else {
            return false;
        };
        let seen = self.sides[side].peek();
        if let Sight::Acknowledgement = seen {
            self.sides[side].skip();
        }
        at.put_back(c, if let Sight::Data(_) = seen { List::Pending } else { List::Polled });
        !matches!(seen, Sight::Empty)
    }

    /// A turn: a forward for each link, for each end its next call and one write, a turn for each dispatcher, an acknowledgement for each link and ring.
    /// Whether anything was found to do.
    pub fn turn(&mut self) -> bool {
        let mut found = false;
        for n in 0..self.lanes.len() {
            found |= self.forward(n);
        }
        for end in &mut self.ends {
            found |= end.make(self.setup);
            found |= end.write(self.setup, &mut self.sides);
        }
        for n in 0..self.dispatchers.len() {
            found |= self.dispatch(n);
        }
        for side in &mut self.sides {
            side.tell();
        }
        found
    }
}
