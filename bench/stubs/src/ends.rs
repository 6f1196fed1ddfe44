//! The two ends of a binding in plain Rust, with a queue of 64 slots between them: the machines of `plain.rs` and
//! `receiver.rs`, a call in transmission, and the refusals of an end that is busy or has failed.

use crate::plain::{Run, Stub, flatten};
use crate::receiver::{Fed, Taking, sum_of_call, unflatten};
use crate::calls::{Call, Frag};
use std::collections::VecDeque;
use std::hint::black_box;

const SLOTS: usize = 64;

struct Client<'a> {
    run: Option<Run<'a>>,
    next: Option<Frag>,
}

struct Server<'a> {
    taking: Taking<'a>,
    failed: bool,
}

/// What a receive comes to.
enum Received {
    Handle(Call),
    Part,
    Empty,
    Failed,
}

impl<'a> Client<'a> {
    // Whether the call was accepted.
    fn call(&mut self, stub: &'a Stub, call: &Call) -> bool {
        if self.run.is_some() {
            return false;
        }
        let mut run = Run::start(&stub.send, call.msg, flatten(&stub.types, call));
        self.next = run.next();
        self.run = Some(run);
        true
    }

    // Whether a fragment was written.
    fn write(&mut self, queue: &mut VecDeque<Frag>) -> bool {
        if queue.len() >= SLOTS {
            return false;
        }
        let (Some(run), Some(frag)) = (&mut self.run, self.next.take()) else {
            return false;
        };
        queue.push_back(frag);
        self.next = run.next();
        if self.next.is_none() {
            self.run = None;
        }
        true
    }
}

impl Server<'_> {
    fn receive(&mut self, stub: &Stub, queue: &mut VecDeque<Frag>) -> Received {
        if self.failed {
            return Received::Failed;
        }
        let Some(frag) = queue.front() else {
            return Received::Empty;
        };
        match self.taking.feed(frag) {
            Fed::Refused => {
                self.failed = true;
                return Received::Failed;
            }
            Fed::Part => {
                queue.pop_front();
                Received::Part
            }
            Fed::Whole => {
                let call = unflatten(&stub.types, 0, self.taking.tape());
                queue.pop_front();
                Received::Handle(call)
            }
        }
    }
}

/// From one end to the other, a fragment at a time.
#[inline(never)]
pub fn pass(stub: &Stub, count: u64) -> u64 {
    let mut client = Client { run: None, next: None };
    let mut server = Server { taking: Taking::new(&stub.receive, stub.tape.len()), failed: false };
    let mut queue = VecDeque::with_capacity(SLOTS);
    let mut sum: u64 = 0;
    for _ in 0..count {
        assert!(client.call(stub, black_box(&stub.value)), "the end is busy");
        loop {
            assert!(client.write(&mut queue), "nothing was written");
            match server.receive(stub, &mut queue) {
                Received::Handle(call) => {
                    sum = sum.wrapping_add(sum_of_call(&call));
                    break;
                }
                Received::Part => {}
                Received::Empty | Received::Failed => panic!("a fragment was lost"),
            }
        }
    }
    sum
}
