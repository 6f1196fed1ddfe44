//! Receive code in plain Rust: a machine that is fed a call's fragments, goes through instructions, and puts the call's
//! numbers on a tape. It trusts its code, and refuses the numbers, lengths and paddings that no call has. Beside it the
//! plain reader of the calls' benchmark, from types.

use crate::calls::{self, ArgType, Call, Frag, Interface, Scalar, Type, Value};
use crate::plain::{Stub, width_of};
use std::hint::black_box;

#[derive(Clone, Copy)]
pub enum TakeOp {
    /// A number of so many bytes, onto the tape.
    Read(usize),
    /// A byte that is 0 or 1.
    Bool,
    /// A byte that isn't 0.
    Text,
    /// So many zeros.
    Skip(usize),
    /// Zeros up to a multiple of 8.
    Align,
    /// A length of at most so many, in 8 bytes: the loop behind it makes so many turns.
    Length(u64),
    /// A loop of so many turns.
    Times(u64),
    /// A loop of as many turns as the length before it says.
    Each,
    /// The end of a loop's turn.
    Back,
    Done,
}

/// What a fragment came to.
#[derive(PartialEq)]
pub enum Fed {
    Part,
    Whole,
    Refused,
}

/// What an instruction came to.
enum Step {
    On,
    /// Its bytes aren't all there.
    Wait,
    Ended,
    Refused,
}

/// A run of receive code. Its buffer has the bytes of a number that began in the last fragment, then those of a fragment,
/// and eight more, so that eight can be read at each place.
pub struct Taking<'a> {
    ops: &'a [TakeOp],
    tape: Vec<u64>,
    told: usize,
    place: usize,
    loops: [(usize, u64); 8],
    depth: usize,
    count: u64,
    at: usize,
    begun: bool,
    buffer: [u8; 72],
    used: usize,
    filled: usize,
}

impl<'a> Taking<'a> {
    /// A run with a tape of so many numbers.
    pub fn new(ops: &'a [TakeOp], numbers: usize) -> Taking<'a> {
        let (loops, buffer, tape) = ([(0, 0); 8], [0; 72], vec![0; numbers]);
        Taking { ops, tape, told: 0, place: 0, loops, depth: 0, count: 0, at: 0, begun: false, buffer, used: 0, filled: 0 }
    }

    fn restart(&mut self) {
        (self.told, self.place, self.depth, self.at, self.used, self.filled) = (0, 0, 0, 0, 0, 0);
        self.begun = false;
    }

    // The next so many bytes as a number, if they are there.
    fn number(&mut self, width: usize) -> Option<u64> {
        if self.filled - self.used < width {
            return None;
        }
        let word = u64::from_le_bytes(*self.buffer[self.used..].first_chunk().unwrap());
        self.used += width;
        self.at += width;
        Some(if width == 8 { word } else { word & ((1 << (8 * width)) - 1) })
    }

    // A number from a least one up to a last one, onto the tape.
    fn read(&mut self, width: usize, least: u64, last: u64) -> Step {
        match self.number(width) {
            None => Step::Wait,
            Some(number) if number < least || number > last => Step::Refused,
            Some(number) => {
                self.tape[self.told] = number;
                self.told += 1;
                self.place += 1;
                self.count = number;
                Step::On
            }
        }
    }

    fn zeros(&mut self, width: usize) -> Step {
        match self.number(width) {
            None => Step::Wait,
            Some(0) => {
                self.place += 1;
                Step::On
            }
            Some(_) => Step::Refused,
        }
    }

    // Into a loop, or behind it.
    fn enter(&mut self, turns: u64) -> Step {
        self.place += 1;
        if turns > 0 {
            self.loops[self.depth] = (self.place, turns - 1);
            self.depth += 1;
            return Step::On;
        }
        let mut inside = 0;
        loop {
            match self.ops[self.place] {
                TakeOp::Times(_) | TakeOp::Each => inside += 1,
                TakeOp::Back if inside == 0 => break,
                TakeOp::Back => inside -= 1,
                _ => {}
            }
            self.place += 1;
        }
        self.place += 1;
        Step::On
    }

    fn back(&mut self) -> Step {
        let (start, turns) = self.loops[self.depth - 1];
        if turns > 0 {
            self.loops[self.depth - 1].1 -= 1;
            self.place = start;
        } else {
            self.depth -= 1;
            self.place += 1;
        }
        Step::On
    }

    fn step(&mut self) -> Step {
        match self.ops[self.place] {
            TakeOp::Read(width) => self.read(width, 0, u64::MAX),
            TakeOp::Bool => self.read(1, 0, 1),
            TakeOp::Text => self.read(1, 1, 255),
            TakeOp::Length(most) => self.read(8, 0, most),
            TakeOp::Skip(count) => self.zeros(count),
            TakeOp::Align => self.zeros(self.at.next_multiple_of(8) - self.at),
            TakeOp::Times(turns) => self.enter(turns),
            TakeOp::Each => self.enter(self.count),
            TakeOp::Back => self.back(),
            TakeOp::Done => Step::Ended,
        }
    }

    /// Takes a fragment.
    #[inline(never)]
    pub fn feed(&mut self, frag: &Frag) -> Fed {
        if frag.control != u64::from(!self.begun) << 1 {
            return Fed::Refused;
        }
        if !self.begun {
            self.restart();
            self.begun = true;
        }
        let (used, filled) = (self.used, self.filled);
        self.buffer.copy_within(used..filled, 0);
        (self.used, self.filled) = (0, filled - used);
        for word in frag.words {
            self.buffer[self.filled..self.filled + 8].copy_from_slice(&word.to_le_bytes());
            self.filled += 8;
        }
        loop {
            match self.step() {
                Step::On => {}
                Step::Wait => return Fed::Part,
                Step::Refused => return Fed::Refused,
                Step::Ended if self.buffer[self.used..self.filled].iter().any(|byte| *byte != 0) => return Fed::Refused,
                Step::Ended => {
                    self.begun = false;
                    return Fed::Whole;
                }
            }
        }
    }

    /// The numbers of the call that became whole.
    pub fn tape(&self) -> &[u64] {
        &self.tape[..self.told]
    }
}

fn value_of(ty: &Type, tape: &mut &[u64]) -> Value {
    match ty {
        Type::Scalar(scalar) => {
            let number = next_of(tape);
            let unused = 64 - 8 * width_of(*scalar);
            Value::Int(match scalar {
                Scalar::Signed(_) => i128::from((number << unused) as i64 >> unused),
                _ => i128::from(number),
            })
        }
        Type::Enum(_) => Value::Int(i128::from(next_of(tape))),
        Type::Struct(types) => Value::Fields(types.iter().map(|ty| value_of(ty, tape)).collect()),
        Type::Array(count, element) => Value::List((0..*count).map(|_| value_of(element, tape)).collect()),
    }
}

fn next_of(tape: &mut &[u64]) -> u64 {
    let (first, rest) = tape.split_first().expect("a whole call");
    *tape = rest;
    *first
}

// The call of a tape, in the declared order.
pub fn unflatten(types: &Interface, msg: u16, mut tape: &[u64]) -> Call {
    let tape = &mut tape;
    let args = types.messages[usize::from(msg)].iter();
    let args = args.map(|arg| match arg {
        ArgType::Fixed(ty) => value_of(ty, tape),
        ArgType::Text(_) => {
            let (text, rest) = tape[1..].split_at(tape[0] as usize);
            *tape = rest;
            Value::Text(text.iter().map(|number| *number as u8).collect())
        }
        ArgType::Sized(_, element) => Value::List((0..next_of(tape)).map(|_| value_of(element, tape)).collect()),
    });
    Call { msg, args: args.collect() }
}

// The same, in the memory of a call of before. A body of its own, so that the one above is compiled as ever.
fn unflatten_into(call: &mut Call, types: &Interface, msg: u16, mut tape: &[u64]) {
    let tape = &mut tape;
    let args = types.messages[usize::from(msg)].iter();
    let args = args.map(|arg| match arg {
        ArgType::Fixed(ty) => value_of(ty, tape),
        ArgType::Text(_) => {
            let (text, rest) = tape[1..].split_at(tape[0] as usize);
            *tape = rest;
            Value::Text(text.iter().map(|number| *number as u8).collect())
        }
        ArgType::Sized(_, element) => Value::List((0..next_of(tape)).map(|_| value_of(element, tape)).collect()),
    });
    call.msg = msg;
    call.args.clear();
    call.args.extend(args);
}

pub fn sum_of_call(call: &Call) -> u64 {
    let each = |value: &Value| match value {
        Value::Int(number) => *number as u64,
        Value::Text(bytes) => bytes.len() as u64,
        Value::List(values) | Value::Fields(values) => values.len() as u64,
    };
    call.args.iter().map(each).fold(1, u64::wrapping_add)
}

// How many of the fragments end a call, by the machine; what each of those calls comes to.
fn sum_of_feeding(stub: &Stub, count: u64, each: impl Fn(&[u64]) -> u64) -> u64 {
    let mut run = Taking::new(&stub.receive, stub.tape.len());
    let mut sum: u64 = 0;
    for _ in 0..count {
        for frag in black_box(&stub.frags) {
            if run.feed(frag) == Fed::Whole {
                sum = sum.wrapping_add(each(run.tape()));
            }
        }
    }
    sum
}

/// By the machine, to a tape.
#[inline(never)]
pub fn take(stub: &Stub, count: u64) -> u64 {
    sum_of_feeding(stub, count, |tape| {
        black_box(tape);
        1
    })
}

/// By the machine and the tape, to a call.
#[inline(never)]
pub fn receive(stub: &Stub, count: u64) -> u64 {
    sum_of_feeding(stub, count, |tape| sum_of_call(&unflatten(&stub.types, 0, tape)))
}

/// The same, in the memory of the call of before.
#[inline(never)]
pub fn receive_again(stub: &Stub, count: u64) -> u64 {
    let mut call = Call { msg: 0, args: Vec::new() };
    let mut run = Taking::new(&stub.receive, stub.tape.len());
    let mut sum: u64 = 0;
    for _ in 0..count {
        for frag in black_box(&stub.frags) {
            if run.feed(frag) == Fed::Whole {
                unflatten_into(&mut call, &stub.types, 0, run.tape());
                sum = sum.wrapping_add(sum_of_call(&call));
            }
        }
    }
    sum
}

/// From the payload, by types.
#[inline(never)]
pub fn read(stub: &Stub, count: u64) -> u64 {
    (0..count).fold(0, |sum, _| {
        let call = calls::read(&stub.types, false, black_box(&stub.frags)).expect("a call's fragments");
        sum.wrapping_add(sum_of_call(&call))
    })
}
