//! Every schedule of a small script or cores file: how many states, which of them are stuck, and the shortest
//! script that leads there. `hostile/explore` compiles it and says how it is called. Plain Rust, apart from the
//! crates.

use explore_machine::{fail, transcript, Back, Came, End, Event, Label, Machine, Setup, State};
use std::collections::{HashMap, VecDeque};
use std::fmt::Write as _;

mod explore_machine;

fn key_of(s: &State) -> Vec<u8> {
    let mut key = Vec::with_capacity(128);
    let put = |key: &mut Vec<u8>, n: u16| key.extend_from_slice(&n.to_le_bytes());
    let label = |label: &Label| match *label {
        Label::Ack => 0,
        Label::Data(b, side) => 1 + 2 * b + side,
        Label::Open(b) => 65 + b,
        Label::Opened(b) => 129 + b,
        Label::Refused(b) => 193 + b,
    };
    // What comes depends on the differences of counts alone, so each is taken from what the writer knows to be read.
    for (at, h) in s.halves.iter().enumerate() {
        for n in [h.sent, h.told, h.read] {
            put(&mut key, n - h.known);
        }
        for (what, told) in &h.waiting {
            key.push(label(what));
            put(&mut key, told - s.halves[at ^ 1].known);
        }
    }
    for pair in &s.ends {
        for d in pair {
            put(&mut key, d.handed_in);
            key.push(d.accepted.len() as u8);
            key.extend(d.accepted.iter().map(|call| call.1));
            key.push(d.waiting.len() as u8);
            key.extend(d.waiting.iter().map(|call| call.1));
            for n in &d.passed {
                put(&mut key, *n);
            }
            key.push(u8::from(d.is_bound));
        }
    }
    for lists in &s.waitsets {
        for list in &lists.0 {
            key.push(list.len() as u8);
            key.extend(list.iter().map(|end| (2 * end.0 + end.1) as u8));
        }
    }
    for outbox in &s.outboxes {
        key.push(outbox.len() as u8);
        key.extend(outbox.iter().map(label));
    }
    key.extend(
        s.openings
            .iter()
            .flat_map(|o| [o.0, u8::from(o.1), u8::from(o.2)]),
    );
    key
}

fn events_of(setup: &Setup) -> Vec<Event> {
    let mut events = Vec::new();
    for (at, binding) in setup.bindings.iter().enumerate() {
        for side in 0..2 {
            events.push(Event::Call((at, side)));
            events.push(Event::Write((at, side)));
            if matches!(binding.back, Back::Ump(_)) {
                events.push(Event::Ack((at, side)));
            }
        }
    }
    events.extend((0..setup.disps.len()).map(Event::Turn));
    for half in 0..2 * setup.links.len() {
        events.extend([Event::Mwrite(half), Event::Forward(half), Event::Mack(half)]);
    }
    events
}

impl Setup {
    /// An event as a line of a script; a call's is the end's next.
    fn line(&self, event: Event, made: &mut HashMap<End, usize>) -> String {
        match event {
            Event::Call(end) => {
                let next = made.entry(end).or_insert(0);
                *next += 1;
                format!(
                    "call {} {}",
                    self.end_text(end),
                    self.bindings[end.0].calls[end.1][*next - 1].0
                )
            }
            Event::Write(end) => format!("write {}", self.end_text(end)),
            Event::Turn(disp) => format!("turn {}", self.disps[disp].0),
            Event::Ack(end) => format!("ack {}", self.end_text(end)),
            Event::Mwrite(half) => format!("mwrite {} {}", self.half_ends(half).0, self.half_ends(half).1),
            Event::Forward(half) => format!("forward {} {}", self.half_ends(half).1, self.half_ends(half).0),
            Event::Mack(half) => format!("mack {} {}", self.half_ends(half).1, self.half_ends(half).0),
        }
    }
}

/// The states that were met, each with the one before and the event between.
struct Met {
    numbers: HashMap<u128, u32>,
    before: Vec<(u32, u8)>,
}

fn digest(key: &[u8]) -> u128 {
    // Two FNV sums of 64 bits with a multiplication more: states that share both would be taken for one.
    let mut a = 0xcbf2_9ce4_8422_2325_u64;
    let mut b = 0x9e37_79b9_7f4a_7c15_u64;
    for byte in key {
        a = (a ^ u64::from(*byte)).wrapping_mul(0x0000_0100_0000_01b3);
        b = (b.rotate_left(5) ^ u64::from(*byte)).wrapping_mul(0x517c_c1b7_2722_0a95);
    }
    (u128::from(a) << 64) | u128::from(b ^ (b >> 29))
}

impl Met {
    /// A state's number, and whether it is met for the first time.
    fn add(&mut self, s: &State, before: u32, event: u8) -> (u32, bool) {
        let number = self.before.len() as u32;
        let found = *self.numbers.entry(digest(&key_of(s))).or_insert(number);
        if found == number {
            self.before.push((before, event));
        }
        (found, found == number)
    }
}

// Whether nothing but turning lists comes from a state, however they are turned.
fn is_at_rest(setup: &Setup, events: &[Event], s: &State) -> bool {
    let mut met: Vec<Vec<u8>> = vec![key_of(s)];
    let mut open = vec![s.clone()];
    while let Some(state) = open.pop() {
        for event in events {
            let mut machine = Machine {
                setup,
                s: state.clone(),
            };
            match machine.step(*event).1 {
                Came::On => return false,
                Came::Nothing => {}
                Came::Turned => {
                    let key = key_of(&machine.s);
                    if !met.contains(&key) {
                        met.push(key);
                        open.push(machine.s);
                    }
                }
            }
        }
    }
    true
}

/// The script that leads to a state, and the answers that the machine gives to its events.
fn script_to(
    setup: &Setup,
    events: &[Event],
    met: &Met,
    number: u32,
    is_opened: bool,
) -> (String, Vec<String>) {
    let mut path = Vec::new();
    let mut at = number;
    while at != 0 {
        let (before, event) = met.before[at as usize];
        path.push(events[usize::from(event)]);
        at = before;
    }
    path.reverse();
    let mut made = HashMap::new();
    let mut machine = Machine {
        setup,
        s: Machine::start(setup, is_opened),
    };
    let mut script = setup.lines.concat();
    let mut answers = Vec::new();
    // Behind it every event once more: none goes on.
    let behind = events.iter().filter(|event| !matches!(event, Event::Call(_)));
    for event in path.iter().chain(behind) {
        let _ = writeln!(script, "{}", setup.line(*event, &mut made));
        answers.push(machine.step(*event).0);
    }
    (script, answers)
}

// Whether the program answers a script's events as the machine does; of a handled call the arguments are left aside.
fn agrees(program: &str, script: &str, answers: &[String]) -> bool {
    let told = transcript(program, script);
    let Some(start) = told.len().checked_sub(answers.len()) else {
        return false;
    };
    told[start..].iter().zip(answers).all(|(one, other)| {
        let one = one.split('(').next().unwrap_or(one);
        one == other.as_str()
    })
}

struct Options {
    program: String,
    file: String,
    most: usize,
    out: Option<String>,
    is_opened: bool,
}

fn options() -> Options {
    let mut words = std::env::args().skip(1);
    let mut plain = Vec::new();
    let (mut most, mut out, mut is_opened) = (4_000_000, None, false);
    while let Some(word) = words.next() {
        match word.as_str() {
            "--most" => {
                most = words
                    .next()
                    .and_then(|n| n.parse().ok())
                    .unwrap_or_else(|| fail("--most wants a number"))
            }
            "--opened" => is_opened = true,
            "--out" => out = words.next(),
            _ => plain.push(word),
        }
    }
    let [program, file] = plain
        .try_into()
        .unwrap_or_else(|_| fail("explore PROGRAM FILE [--opened] [--most N] [--out SCRIPT]"));
    Options {
        program,
        file,
        most,
        out,
        is_opened,
    }
}

/// All states that are reached.
struct Found {
    met: Met,
    // From which state to which an event leads, the later one first.
    edges: Vec<(u32, u32)>,
    ended: Vec<u32>,
    at_rest: Vec<u32>,
    is_cut: bool,
}

fn search(setup: &Setup, events: &[Event], options: &Options) -> Found {
    let start = Machine::start(setup, options.is_opened);
    let met = Met {
        numbers: HashMap::new(),
        before: Vec::new(),
    };
    let mut found = Found {
        met,
        edges: Vec::new(),
        ended: Vec::new(),
        at_rest: Vec::new(),
        is_cut: false,
    };
    found.met.add(&start, 0, 0);
    let mut open = VecDeque::from([(0, start)]);
    while let Some((number, state)) = open.pop_front() {
        let mut goes_on = false;
        for (at, event) in events.iter().enumerate() {
            let mut machine = Machine {
                setup,
                s: state.clone(),
            };
            let came = machine.step(*event).1;
            goes_on |= came == Came::On;
            if came == Came::Nothing {
                continue;
            }
            let (next, is_new) = found.met.add(&machine.s, number, at as u8);
            found.edges.push((next, number));
            if is_new {
                open.push_back((next, machine.s));
            }
        }
        if !goes_on {
            let machine = Machine { setup, s: state };
            if machine.is_done() {
                found.ended.push(number);
            } else if is_at_rest(setup, events, &machine.s) {
                found.at_rest.push(number);
            }
        }
        if found.met.before.len() > options.most {
            found.is_cut = true;
            break;
        }
    }
    found
}

impl Found {
    /// The states from which no schedule handles all.
    fn stuck(&mut self) -> Vec<u32> {
        self.edges.sort_unstable();
        let mut can_end = vec![false; self.met.before.len()];
        let mut open = self.ended.clone();
        for number in &open {
            can_end[*number as usize] = true;
        }
        while let Some(number) = open.pop() {
            let first = self.edges.partition_point(|edge| edge.0 < number);
            for (_, before) in self.edges[first..].iter().take_while(|edge| edge.0 == number) {
                if !can_end[*before as usize] {
                    can_end[*before as usize] = true;
                    open.push(*before);
                }
            }
        }
        (0..can_end.len() as u32)
            .filter(|number| !can_end[*number as usize])
            .collect()
    }
}

fn main() {
    let options = options();
    let text = std::fs::read_to_string(&options.file)
        .unwrap_or_else(|error| fail(format!("{}: {error}", options.file)));
    let setup = Setup::read(&options.program, &text);
    let events = events_of(&setup);
    if setup.bindings.len() > 32 || setup.messages.len() > 256 || events.len() > 256 {
        fail("the file is too large: at most 32 bindings, and 256 messages and kinds of event");
    }
    let began = std::time::Instant::now();
    let mut found = search(&setup, &events, &options);
    let states = found.met.before.len();
    if found.is_cut {
        println!("over {states} states, {} of those looked at are at rest before all is handled: try fewer calls, or --most N", found.at_rest.len());
    } else {
        let stuck = found.stuck();
        let seconds = began.elapsed().as_secs_f64();
        println!(
            "{states} states; {} stuck, in {} of them nothing moves; {seconds:.0} seconds",
            stuck.len(),
            found.at_rest.len()
        );
    }
    let Some(first) = found.at_rest.first() else {
        return;
    };
    let (script, answers) = script_to(&setup, &events, &found.met, *first, options.is_opened);
    if options.is_opened {
        println!("the shortest schedule to one where nothing moves, over circuits that are open:");
    } else if agrees(&options.program, &script, &answers) {
        println!("the shortest script to one where nothing moves; the program answers it so:");
    } else {
        fail("the program answers the script to a state where nothing moves in another way");
    }
    match options.out {
        Some(path) => std::fs::write(&path, script).unwrap_or_else(|error| fail(format!("{path}: {error}"))),
        None => print!("{script}"),
    }
}
