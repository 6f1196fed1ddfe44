//! Send code in plain Rust: a machine that goes through instructions and gives a call's fragments from its tape, one at
//! a time. It trusts its code and its tape. Beside it the plain encoder of the calls' benchmark, from types and values.

use crate::calls::{self, ArgType, Call, Frag, Interface, Scalar, Type, Value};
use crate::receiver::TakeOp;

#[derive(Clone, Copy)]
pub enum Op {
    /// The tape's next number, in so many bytes.
    Emit(usize),
    /// So many zeros.
    Pad(usize),
    /// Zeros up to a multiple of 8.
    Align,
    /// The tape's next number, a length, in 8 bytes: the loop behind it makes so many turns.
    Length,
    /// A loop of so many turns.
    Times(u64),
    /// A loop of as many turns as the length before it says.
    Each,
    /// The end of a loop's turn.
    Back,
    End,
}

fn frag_with(line: &[u8; 56], begins: bool, msg: u16) -> Frag {
    let mut words = [0; 7];
    for (word, bytes) in words.iter_mut().zip(line.chunks_exact(8)) {
        *word = u64::from_le_bytes(bytes.try_into().unwrap());
    }
    Frag { words, control: u64::from(begins) << 1 | u64::from(msg) << 16 }
}

/// A run of send code. A fragment's bytes are put together in `buffer`, which has room for a number that goes on in the
/// next fragment, and for the eight bytes that each number is written in.
pub struct Run<'a> {
    ops: &'a [Op],
    tape: Vec<u64>,
    next: usize,
    place: usize,
    loops: [(usize, u64); 8],
    depth: usize,
    count: u64,
    at: usize,
    msg: u16,
    begins: bool,
    buffer: [u8; 72],
    filled: usize,
}

impl<'a> Run<'a> {
    pub fn start(ops: &'a [Op], msg: u16, tape: Vec<u64>) -> Run<'a> {
        let (loops, buffer) = ([(0, 0); 8], [0; 72]);
        Run { ops, tape, next: 0, place: 0, loops, depth: 0, count: 0, at: 0, msg, begins: true, buffer, filled: 0 }
    }

    fn number(&mut self) -> u64 {
        let number = self.tape[self.next];
        self.next += 1;
        number
    }

    // A number that has so many bytes; those above are 0.
    fn put(&mut self, width: usize, number: u64) {
        self.buffer[self.filled..self.filled + 8].copy_from_slice(&number.to_le_bytes());
        self.zeros(width);
    }

    // Bytes that are 0 already, or written.
    fn zeros(&mut self, count: usize) {
        self.filled += count;
        self.at += count;
    }

    // Into a loop, or behind it.
    fn enter(&mut self, turns: u64) {
        self.place += 1;
        if turns > 0 {
            self.loops[self.depth] = (self.place, turns - 1);
            self.depth += 1;
            return;
        }
        let mut inside = 0;
        loop {
            match self.ops[self.place] {
                Op::Times(_) | Op::Each => inside += 1,
                Op::Back if inside == 0 => break,
                Op::Back => inside -= 1,
                _ => {}
            }
            self.place += 1;
        }
        self.place += 1;
    }

    fn back(&mut self) {
        let (start, turns) = self.loops[self.depth - 1];
        if turns > 0 {
            self.loops[self.depth - 1].1 -= 1;
            self.place = start;
        } else {
            self.depth -= 1;
            self.place += 1;
        }
    }

    // An instruction; whether it was none.
    fn step(&mut self) -> bool {
        match self.ops[self.place] {
            Op::Emit(width) => {
                let number = self.number();
                self.put(width, number);
                self.place += 1;
            }
            Op::Pad(count) => {
                self.zeros(count);
                self.place += 1;
            }
            Op::Align => {
                self.zeros(self.at.next_multiple_of(8) - self.at);
                self.place += 1;
            }
            Op::Length => {
                self.count = self.number();
                self.put(8, self.count);
                self.place += 1;
            }
            Op::Times(turns) => self.enter(turns),
            Op::Each => self.enter(self.count),
            Op::Back => self.back(),
            Op::End => return true,
        }
        false
    }
}

impl Iterator for Run<'_> {
    type Item = Frag;

    fn next(&mut self) -> Option<Frag> {
        let mut ended = false;
        while self.filled < 56 && !ended {
            ended = self.step();
        }
        if self.filled == 0 && !self.begins {
            return None;
        }
        let frag = frag_with(self.buffer.first_chunk().unwrap(), self.begins, self.msg);
        self.buffer.copy_within(56.., 0);
        self.buffer[16..].fill(0);
        self.filled = self.filled.saturating_sub(56);
        self.begins = false;
        Some(frag)
    }
}

pub fn width_of(scalar: Scalar) -> usize {
    match scalar {
        Scalar::Bool => 1,
        Scalar::Unsigned(bytes) | Scalar::Signed(bytes) => bytes,
    }
}

fn push_value(tape: &mut Vec<u64>, ty: &Type, value: &Value) {
    match (ty, value) {
        (Type::Scalar(scalar), Value::Int(number)) => tape.push(*number as u64 & (u64::MAX >> (64 - 8 * width_of(*scalar)))),
        (Type::Enum(_), Value::Int(number)) => tape.push(*number as u64),
        (Type::Struct(types), Value::Fields(values)) => {
            types.iter().zip(values).for_each(|(ty, value)| push_value(tape, ty, value));
        }
        (Type::Array(_, element), Value::List(values)) => values.iter().for_each(|value| push_value(tape, element, value)),
        _ => unreachable!("the call fits"),
    }
}

// The tape of a call, in the declared order.
pub fn flatten(types: &Interface, call: &Call) -> Vec<u64> {
    let mut tape = Vec::new();
    for (arg, value) in types.messages[usize::from(call.msg)].iter().zip(&call.args) {
        match (arg, value) {
            (ArgType::Fixed(ty), value) => push_value(&mut tape, ty, value),
            (ArgType::Text(_), Value::Text(bytes)) => {
                tape.push(bytes.len() as u64);
                tape.extend(bytes.iter().map(|byte| u64::from(*byte)));
            }
            (ArgType::Sized(_, element), Value::List(values)) => {
                tape.push(values.len() as u64);
                values.iter().for_each(|value| push_value(&mut tape, element, value));
            }
            _ => unreachable!("the call fits"),
        }
    }
    tape
}

/// A call, its message's code, its tape, and its fragments.
pub struct Stub {
    pub types: Interface,
    pub value: Call,
    pub send: Vec<Op>,
    pub receive: Vec<TakeOp>,
    pub tape: Vec<u64>,
    pub frags: Vec<Frag>,
}

impl Stub {
    pub fn new(types: Interface, value: Call, send: Vec<Op>, receive: Vec<TakeOp>) -> Stub {
        let tape = flatten(&types, &value);
        let frags = calls::fragments(&types, false, &value);
        Stub { types, value, send, receive, tape, frags }
    }
}

fn sum_of_frag(frag: Frag) -> u64 {
    frag.words.iter().fold(frag.control, |sum, word| sum.wrapping_add(*word))
}

/// By the machine, from a copy of the tape.
#[inline(never)]
pub fn give(stub: &Stub, count: u64) -> u64 {
    (0..count).fold(0, |sum, _| {
        let run = Run::start(&stub.send, stub.value.msg, stub.tape.clone());
        run.map(sum_of_frag).fold(sum, u64::wrapping_add)
    })
}

/// By the call's tape and the machine.
#[inline(never)]
pub fn send(stub: &Stub, count: u64) -> u64 {
    (0..count).fold(0, |sum, _| {
        let run = Run::start(&stub.send, stub.value.msg, flatten(&stub.types, &stub.value));
        run.map(sum_of_frag).fold(sum, u64::wrapping_add)
    })
}

// Fragment k of a payload.
fn frag_at(bytes: &[u8], msg: u16, k: usize) -> Frag {
    let rest = &bytes[(56 * k).min(bytes.len())..];
    match rest.first_chunk() {
        Some(line) => frag_with(line, k == 0, msg),
        None => {
            let mut line = [0; 56];
            line[..rest.len()].copy_from_slice(rest);
            frag_with(&line, k == 0, msg)
        }
    }
}

/// By the payload, from types and values.
#[inline(never)]
pub fn encode(stub: &Stub, count: u64) -> u64 {
    (0..count).fold(0, |sum, _| {
        let bytes = calls::payload(&stub.types, false, &stub.value);
        let frags = (0..bytes.len().div_ceil(56).max(1)).map(|k| frag_at(&bytes, stub.value.msg, k));
        frags.map(sum_of_frag).fold(sum, u64::wrapping_add)
    })
}
