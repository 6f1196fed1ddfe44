//! The same worlds and the same events as on the proved side, in plain Rust.

use crate::calls::{Call, Value};
use crate::plain::Stub;
use crate::receiver::sum_of_call;
use crate::world::{Answer, DispatcherId, EndId, Event, Side, World};

/// By what the two ends of a binding are joined.
#[derive(Clone, Copy, PartialEq)]
pub enum Joint {
    Local,
    Ump,
    Hop,
}

/// How many bindings there are, the first that makes calls, at how many dispatchers on each side they are, and how many slots a queue or ring has.
#[derive(Clone, Copy)]
pub struct Shape {
    pub joint: Joint,
    pub bindings: usize,
    pub first: usize,
    pub dispatchers: usize,
    pub slots: u32,
}

const LINKS: [(usize, usize); 3] = [(0, 1), (1, 2), (2, 3)];

impl Shape {
    // The dispatcher of binding k on its side. Where some bindings make no calls, those that do are each at one of its own, if there are as many.
    fn at(self, k: usize) -> usize {
        let callers = self.bindings - self.first;
        if self.first == 0 || self.dispatchers <= callers {
            k % self.dispatchers
        } else if k < self.first {
            k % (self.dispatchers - callers)
        } else {
            self.dispatchers - callers + k - self.first
        }
    }

    fn client_at(self, k: usize) -> DispatcherId {
        DispatcherId { core: 0, place: self.at(k) }
    }

    fn server_at(self, k: usize) -> DispatcherId {
        let place = self.at(k);
        match self.joint {
            Joint::Local => DispatcherId { core: 0, place: place + self.dispatchers },
            Joint::Ump => DispatcherId { core: 1, place },
            Joint::Hop => DispatcherId { core: 3, place },
        }
    }

    fn slots(self) -> usize {
        self.slots as usize
    }
}

fn make_world(shape: Shape, stub: &Stub) -> World<'_> {
    let mut world = match shape.joint {
        Joint::Local => World::new(1, 2 * shape.dispatchers),
        Joint::Ump => World::new(2, shape.dispatchers),
        Joint::Hop => World::new(4, shape.dispatchers),
    };
    if shape.joint == Joint::Hop {
        for (near, far) in LINKS {
            world.add_link(near, far, shape.slots());
        }
    }
    for k in 0..shape.bindings {
        let (client, server) = (shape.client_at(k), shape.server_at(k));
        match shape.joint {
            Joint::Local => world.bind_locally(client, server, stub, shape.slots()),
            Joint::Ump => world.bind_by_ring(client, server, stub, shape.slots()),
            Joint::Hop => world.bind_by_circuit(client, server, &[0, 1, 2, 3], stub),
        }
    }
    world
}

fn copy_of(call: &Call) -> Call {
    let args = call.args.iter().map(|value| match value {
        Value::Int(number) => Value::Int(*number),
        Value::Text(bytes) => Value::Text(bytes.clone()),
        Value::List(_) | Value::Fields(_) => unreachable!("the calls here have none"),
    });
    Call { msg: call.msg, args: args.collect() }
}

// What is asked of binding k in a round.
fn asks(events: &mut Vec<Event>, shape: Shape, k: usize, call: &Call) {
    let (client, server) = (EndId { binding: k, side: Side::Client }, EndId { binding: k, side: Side::Server });
    events.extend([Event::Call(client, copy_of(call)), Event::Write(client)]);
    let turn = || Event::Turn(shape.server_at(k));
    match shape.joint {
        Joint::Local => events.push(turn()),
        Joint::Ump => events.extend([turn(), turn(), Event::Acknowledge(server), Event::Turn(shape.client_at(k))]),
        Joint::Hop => {
            events.extend(LINKS.map(|(near, far)| Event::Forward(far, near)));
            events.push(turn());
            events.extend(LINKS.into_iter().flat_map(|(near, far)| [Event::MonitorAcknowledge(far, near), Event::Forward(near, far)]));
        }
    }
}

fn run_once(world: &mut World, events: &[Event]) -> u64 {
    events.iter().fold(0, |sum, event| match world.step(event) {
        Answer::Handle(_, call) => sum.wrapping_add(sum_of_call(&call)),
        _ => sum,
    })
}

/// Rounds of events; no rounds tell the time and the memory of the world.
pub fn run(stub: &Stub, shape: Shape, rounds: u64) -> u64 {
    let mut events = Vec::new();
    if rounds > 0 {
        for k in shape.first..shape.bindings {
            asks(&mut events, shape, k, &stub.value);
        }
    }
    let mut world = make_world(shape, stub);
    (0..rounds).fold(1, |sum, _| sum.wrapping_add(run_once(&mut world, &events)))
}
