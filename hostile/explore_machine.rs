//! The machine that `explore.rs` walks through: a file's parts, a state, and what each event makes of it.
//! `docs/MODEL.md` has its rules.

use std::collections::{HashMap, VecDeque};
use std::fmt::Write as _;
use std::io::Write as _;
use std::process::{Command, Stdio};

const ARRIVAL: u16 = 16;
const WAITING: usize = 16;
const OUTBOX: usize = 64;

pub type End = (usize, usize); // a binding's number, and 0 for its client, 1 for its server

#[derive(Clone, Copy, PartialEq, Eq)]
pub enum Back {
    Local(u16),
    Ump(u16),
    Hop,
}

pub struct Binding {
    pub name: String,
    pub back: Back,
    pub disps: [usize; 2],
    pub route: Vec<usize>,
    // For each end: its calls (the text, the fragments, the message), and of which message it replies with which.
    pub calls: [Vec<(String, u16, usize)>; 2],
    pub rules: [Vec<(usize, usize)>; 2],
}

/// What a file makes and hands in, and the lines that make it.
#[derive(Default)]
pub struct Setup {
    pub lines: Vec<String>,
    pub interfaces: HashMap<String, String>,
    pub cores: usize,
    pub links: Vec<(usize, usize, u16)>,
    pub disps: Vec<(String, usize)>,
    pub services: Vec<(String, usize)>,
    pub bindings: Vec<Binding>,
    pub messages: Vec<String>,
}

pub fn fail(what: impl std::fmt::Display) -> ! {
    eprintln!("explore: {what}");
    std::process::exit(1)
}

/// The transcript of a script.
pub fn transcript(program: &str, script: &str) -> Vec<String> {
    let run = Command::new(program)
        .arg("exec")
        .stdin(Stdio::piped())
        .stdout(Stdio::piped())
        .spawn();
    let mut child = run.unwrap_or_else(|error| fail(format!("{program}: {error}")));
    let mut input = child.stdin.take().expect("it is piped");
    let text = script.to_owned();
    let writer = std::thread::spawn(move || input.write_all(text.as_bytes()));
    let output = child.wait_with_output().unwrap_or_else(|error| fail(error));
    let _written = writer.join();
    String::from_utf8_lossy(&output.stdout)
        .lines()
        .map(str::to_owned)
        .collect()
}

impl Setup {
    fn number<T>(items: &[T], is: impl Fn(&T) -> bool, name: &str) -> usize {
        items
            .iter()
            .position(is)
            .unwrap_or_else(|| fail(format!("there is no {name}")))
    }

    fn end(&self, text: &str) -> End {
        let (name, side) = text
            .split_once('.')
            .unwrap_or_else(|| fail(format!("{text} is no end")));
        (
            Setup::number(&self.bindings, |b| b.name == name, text),
            usize::from(side == "s"),
        )
    }

    fn message(&mut self, name: &str) -> usize {
        let name = name.split('(').next().unwrap_or("").trim();
        if let Some(at) = self.messages.iter().position(|known| known == name) {
            return at;
        }
        self.messages.push(name.to_owned());
        self.messages.len() - 1
    }

    /// How many fragments a call has, as the program writes it.
    fn fragments(&self, program: &str, interface: &str, call: &str) -> u16 {
        let idl = &self.interfaces[interface];
        let script = format!("{idl}disp d 0\nexport s d {interface}\nbind p d {interface} s local 1\ncall p.c {call}\nwrite p.c\n");
        let last = transcript(program, &script).pop().unwrap_or_default();
        let count = last
            .strip_prefix("written 1 of ")
            .and_then(|count| count.parse().ok());
        count.unwrap_or_else(|| fail(format!("call {call}: {last}")))
    }

    pub fn read(program: &str, text: &str) -> Setup {
        let mut setup = Setup {
            cores: 1,
            ..Setup::default()
        };
        let mut of_binding = Vec::new();
        let mut lines = text.lines();
        while let Some(line) = lines.next() {
            let words: Vec<&str> = line.split_whitespace().collect();
            let number = |at: usize| -> u16 {
                words
                    .get(at)
                    .and_then(|w| w.parse().ok())
                    .unwrap_or_else(|| fail(line))
            };
            let core = |at: usize| usize::from(number(at));
            match words.first().copied().unwrap_or("#") {
                "idl" => {
                    let mut block = format!("{line}\n");
                    for inner in lines.by_ref() {
                        let _ = writeln!(block, "{inner}");
                        if inner == "." {
                            break;
                        }
                    }
                    let name = block
                        .split("interface")
                        .nth(1)
                        .and_then(|t| t.split_whitespace().next())
                        .unwrap_or("");
                    setup
                        .interfaces
                        .insert(name.trim_end_matches('{').to_owned(), block.clone());
                    setup.lines.push(block);
                    continue;
                }
                "cores" => setup.cores = core(1),
                "link" => setup.links.push((core(1), core(2), number(3))),
                "disp" => setup.disps.push((words[1].to_owned(), core(2))),
                "export" => {
                    let disp = Setup::number(&setup.disps, |d| d.0 == words[2], words[2]);
                    setup.services.push((words[1].to_owned(), disp));
                }
                "bind" => {
                    let client = Setup::number(&setup.disps, |d| d.0 == words[2], words[2]);
                    let server =
                        setup.services[Setup::number(&setup.services, |s| s.0 == words[4], words[4])].1;
                    let (back, route) = match words[5] {
                        "local" => (Back::Local(number(6)), Vec::new()),
                        "ump" => (Back::Ump(number(6)), Vec::new()),
                        _ => (Back::Hop, (6..words.len()).map(core).collect()),
                    };
                    let name = words[1].to_owned();
                    setup.bindings.push(Binding {
                        name,
                        back,
                        disps: [client, server],
                        route,
                        calls: Default::default(),
                        rules: Default::default(),
                    });
                    of_binding.push(words[3].to_owned());
                }
                "reply" => {
                    let (binding, side) = setup.end(words[1]);
                    let rule = (setup.message(words[2]), setup.message(words[3]));
                    setup.bindings[binding].rules[side].push(rule);
                }
                "call" => {
                    let (binding, side) = setup.end(words[1]);
                    let call = line
                        .trim()
                        .splitn(3, char::is_whitespace)
                        .nth(2)
                        .unwrap_or("")
                        .trim();
                    let fragments = setup.fragments(program, &of_binding[binding], call);
                    let message = setup.message(call);
                    setup.bindings[binding].calls[side].push((call.to_owned(), fragments, message));
                    continue;
                }
                _ => continue,
            }
            setup.lines.push(format!("{line}\n"));
        }
        setup
    }

    /// The halves of links and rings by number: a link's two come first.
    fn half(&self, from: usize, to: usize) -> Option<usize> {
        self.links.iter().enumerate().find_map(|(at, link)| {
            match (link.0 == from, link.1 == to, link.0 == to, link.1 == from) {
                (true, true, ..) => Some(2 * at),
                (_, _, true, true) => Some(2 * at + 1),
                _ => None,
            }
        })
    }

    pub fn half_ends(&self, half: usize) -> (usize, usize) {
        let (a, b, _) = self.links[half / 2];
        if half % 2 == 0 {
            (a, b)
        } else {
            (b, a)
        }
    }

    fn ring(&self, end: End) -> usize {
        2 * self.links.len() + 2 * end.0 + end.1
    }

    fn slots(&self, half: usize) -> u16 {
        match half.checked_sub(2 * self.links.len()) {
            None => self.links[half / 2].2,
            Some(at) => match self.bindings[at / 2].back {
                Back::Ump(slots) => slots,
                _ => 0,
            },
        }
    }

    /// The way of an end's calls over a circuit, core by core.
    fn way(&self, end: End) -> Vec<usize> {
        let mut way = self.bindings[end.0].route.clone();
        if end.1 == 1 {
            way.reverse();
        }
        way
    }

    pub fn end_text(&self, end: End) -> String {
        format!(
            "{}.{}",
            self.bindings[end.0].name,
            if end.1 == 0 { "c" } else { "s" }
        )
    }
}

/// What stands in a slot. A call's fragments come in order, so which one it is need not be kept.
#[derive(Clone, Copy, PartialEq)]
pub enum Label {
    Data(u8, u8),
    Ack,
    Open(u8),
    Opened(u8),
    Refused(u8),
}

#[derive(Clone, Default)]
pub struct Half {
    pub sent: u16,
    pub known: u16,
    pub told: u16,
    pub read: u16,
    pub waiting: VecDeque<(Label, u16)>,
}

#[derive(Clone, Default)]
pub struct Direction {
    pub handed_in: u16,
    pub accepted: Vec<(u16, u8)>,
    pub waiting: VecDeque<(u16, u8)>,
    // How many fragments were written, left each link of the way, and were taken.
    pub passed: Vec<u16>,
    pub is_bound: bool,
}

impl Direction {
    fn total(&self) -> u16 {
        self.accepted.iter().map(|call| call.0).sum()
    }

    fn is_busy(&self) -> bool {
        self.passed[0] < self.total()
    }

    fn handled(&self) -> usize {
        let mut left = self.passed[self.passed.len() - 1];
        let mut count = 0;
        for call in &self.accepted {
            if call.0 > left {
                break;
            }
            left -= call.0;
            count += 1;
        }
        count
    }
}

/// A dispatcher's channels: idle, polled, pending.
#[derive(Clone, Default)]
pub struct Waitset(pub [VecDeque<End>; 3]);

#[derive(Clone, Default)]
pub struct State {
    pub halves: Vec<Half>,
    // The queue from which an end takes.
    pub queues: Vec<[u16; 2]>,
    pub ends: Vec<[Direction; 2]>,
    pub waitsets: Vec<Waitset>,
    pub outboxes: Vec<VecDeque<Label>>,
    // How far the opening of a circuit went on its route, whether it is on its way back, and whether it was refused.
    pub openings: Vec<(u8, bool, bool)>,
}

#[derive(Clone, Copy)]
pub enum Event {
    Call(End),
    Write(End),
    Turn(usize),
    Ack(End),
    Mwrite(usize),
    Forward(usize),
    Mack(usize),
}

/// What came of an event: nothing, lists that only turned, or a step on.
#[derive(Clone, Copy, PartialEq)]
pub enum Came {
    Nothing,
    Turned,
    On,
}

pub struct Machine<'a> {
    pub setup: &'a Setup,
    pub s: State,
}

impl Machine<'_> {
    /// The state in which nothing was done but what the file makes; circuits are opened, or wait to be.
    pub fn start(setup: &Setup, is_opened: bool) -> State {
        let mut s = State {
            halves: vec![Half::default(); 2 * setup.links.len() + 2 * setup.bindings.len()],
            queues: vec![[0, 0]; setup.bindings.len()],
            waitsets: vec![Waitset::default(); setup.disps.len()],
            outboxes: vec![VecDeque::new(); 2 * setup.links.len()],
            openings: vec![(0, false, false); setup.bindings.len()],
            ends: Vec::new(),
        };
        for binding in &setup.bindings {
            let stations = if binding.back == Back::Hop {
                binding.route.len() + 1
            } else {
                2
            };
            let direction = Direction {
                passed: vec![0; stations],
                ..Direction::default()
            };
            s.ends.push([direction.clone(), direction]);
        }
        let mut machine = Machine { setup, s };
        for (at, binding) in setup.bindings.iter().enumerate() {
            if binding.back == Back::Hop && !is_opened {
                let first = setup
                    .half(binding.route[0], binding.route[1])
                    .unwrap_or_else(|| fail("a route can't begin"));
                machine.s.outboxes[first].push_back(Label::Open(at as u8));
            } else {
                machine.bind((at, 0));
                machine.bind((at, 1));
            }
        }
        machine.s
    }

    fn bind(&mut self, end: End) {
        let binding = &self.setup.bindings[end.0];
        self.s.ends[end.0][end.1].is_bound = true;
        let list = if matches!(binding.back, Back::Ump(_)) {
            1
        } else if self.s.queues[end.0][end.1] > 0 {
            2
        } else {
            0
        };
        self.s.waitsets[binding.disps[end.1]].0[list].push_back(end);
    }

    // The channel of an end to which something came is pending.
    fn trigger(&mut self, end: End) {
        let lists = &mut self.s.waitsets[self.setup.bindings[end.0].disps[end.1]].0;
        if let Some(at) = lists[0].iter().position(|one| *one == end) {
            lists[0].remove(at);
            lists[2].push_back(end);
        }
    }

    fn look(&mut self, half: usize) -> bool {
        let Some((_, told)) = self.s.halves[half].waiting.front().copied() else {
            return false;
        };
        let back = &mut self.s.halves[half ^ 1];
        let is_new = back.known != told;
        back.known = told;
        is_new
    }

    // Whether so many slots are free, and whether a look changed what is known.
    fn has_slots(&mut self, half: usize, need: u16) -> (bool, bool) {
        let slots = self.setup.slots(half);
        let free = |h: &Half| slots + h.known - h.sent;
        let looked = free(&self.s.halves[half]) < need && self.look(half ^ 1);
        (free(&self.s.halves[half]) >= need, looked)
    }

    fn put(&mut self, half: usize, label: Label) {
        let read = self.s.halves[half ^ 1].read;
        self.s.halves[half ^ 1].told = read;
        self.s.halves[half].waiting.push_back((label, read));
        self.s.halves[half].sent += 1;
    }

    fn take(&mut self, half: usize) {
        self.s.halves[half].waiting.pop_front();
        self.s.halves[half].read += 1;
    }

    fn full(looked: bool) -> (String, Came) {
        ("full".to_owned(), if looked { Came::On } else { Came::Nothing })
    }

    // The reader of this half acknowledges.
    fn tell(&mut self, half: usize) -> (String, Came) {
        let h = &self.s.halves[half];
        if h.read - h.told < self.setup.slots(half) / 2 {
            return ("nothing".to_owned(), Came::Nothing);
        }
        let (free, looked) = self.has_slots(half ^ 1, 1);
        if !free {
            return Machine::full(looked);
        }
        self.put(half ^ 1, Label::Ack);
        ("ok".to_owned(), Came::On)
    }

    fn call(&mut self, end: End) -> (String, Came) {
        let calls = &self.setup.bindings[end.0].calls[end.1];
        let direction = &mut self.s.ends[end.0][end.1];
        let next = usize::from(direction.handed_in);
        if next == calls.len() || !direction.is_bound || direction.is_busy() {
            return ("nothing".to_owned(), Came::Nothing);
        }
        direction.handed_in += 1;
        direction.accepted.push((calls[next].1, calls[next].2 as u8));
        ("accepted".to_owned(), Came::On)
    }

    fn write(&mut self, end: End) -> (String, Came) {
        let direction = &self.s.ends[end.0][end.1];
        if !direction.is_bound || !direction.is_busy() {
            return ("nothing".to_owned(), Came::Nothing);
        }
        let label = Label::Data(end.0 as u8, end.1 as u8);
        let half = match self.setup.bindings[end.0].back {
            Back::Local(slots) => {
                if self.s.queues[end.0][1 - end.1] >= slots {
                    return Machine::full(false);
                }
                self.s.queues[end.0][1 - end.1] += 1;
                self.trigger((end.0, 1 - end.1));
                None
            }
            Back::Ump(_) => Some(self.setup.ring(end)),
            Back::Hop => {
                let way = self.setup.way(end);
                self.setup.half(way[0], way[1])
            }
        };
        if let Some(half) = half {
            let (free, looked) = self.has_slots(half, 2);
            if !free {
                return Machine::full(looked);
            }
            self.put(half, label);
        }
        let direction = &mut self.s.ends[end.0][end.1];
        direction.passed[0] += 1;
        let count = direction.accepted[direction.accepted.len() - 1].0;
        let written = direction.passed[0] + count - direction.total();
        if written == count {
            if let Some(reply) = direction.waiting.pop_front() {
                direction.accepted.push(reply);
            }
        }
        (format!("written {written} of {count}"), Came::On)
    }

    fn turn(&mut self, disp: usize) -> (String, Came) {
        if let Some(end) = self.s.waitsets[disp].0[2].pop_front() {
            return self.receive(disp, end);
        }
        let Some(end) = self.s.waitsets[disp].0[1].pop_front() else {
            return ("nothing".to_owned(), Came::Nothing);
        };
        let name = self.setup.end_text(end);
        let half = self.setup.ring((end.0, 1 - end.1));
        let looked = self.look(half);
        match self.s.halves[half].waiting.front().map(|first| first.0) {
            Some(Label::Ack) => {
                self.take(half);
                self.s.waitsets[disp].0[1].push_back(end);
                (format!("quiet {name}"), Came::On)
            }
            Some(_) => {
                self.s.waitsets[disp].0[2].push_back(end);
                (format!("ready {name}"), Came::On)
            }
            None => {
                self.s.waitsets[disp].0[1].push_back(end);
                let is_alone = self.s.waitsets[disp].0[1].len() == 1 && !looked;
                (
                    format!("quiet {name}"),
                    if is_alone { Came::Nothing } else { Came::Turned },
                )
            }
        }
    }

    fn receive(&mut self, disp: usize, end: End) -> (String, Came) {
        let name = self.setup.end_text(end);
        if self.s.ends[end.0][end.1].waiting.len() == WAITING {
            self.s.waitsets[disp].0[2].push_back(end);
            let is_alone = self.s.waitsets[disp].0[2].len() == 1;
            return (
                "full".to_owned(),
                if is_alone { Came::Nothing } else { Came::Turned },
            );
        }
        let list = if matches!(self.setup.bindings[end.0].back, Back::Ump(_)) {
            self.take(self.setup.ring((end.0, 1 - end.1)));
            1
        } else {
            self.s.queues[end.0][end.1] -= 1;
            if self.s.queues[end.0][end.1] > 0 {
                2
            } else {
                0
            }
        };
        self.s.waitsets[disp].0[list].push_back(end);
        let sender = &mut self.s.ends[end.0][1 - end.1];
        let before = sender.handled();
        let last = sender.passed.len() - 1;
        sender.passed[last] += 1;
        if sender.handled() == before {
            return (format!("part {name}"), Came::On);
        }
        let (count, message) = sender.accepted[before];
        let rule = self.setup.bindings[end.0].rules[end.1]
            .iter()
            .rev()
            .find(|rule| rule.0 == usize::from(message));
        if let Some((_, reply)) = rule {
            let direction = &mut self.s.ends[end.0][end.1];
            let call = (count, *reply as u8);
            if direction.is_busy() {
                direction.waiting.push_back(call);
            } else {
                direction.accepted.push(call);
            }
        }
        (
            format!("handle {name} {}", self.setup.messages[usize::from(message)]),
            Came::On,
        )
    }

    fn mwrite(&mut self, half: usize) -> (String, Came) {
        let Some(first) = self.s.outboxes[half].front().copied() else {
            return ("nothing".to_owned(), Came::Nothing);
        };
        let (free, looked) = self.has_slots(half, 2);
        if !free {
            return Machine::full(looked);
        }
        self.s.outboxes[half].pop_front();
        self.put(half, first);
        ("written 1 of 1".to_owned(), Came::On)
    }

    fn forward(&mut self, half: usize) -> (String, Came) {
        let Some((label, _)) = self.s.halves[half].waiting.front().copied() else {
            return ("nothing".to_owned(), Came::Nothing);
        };
        let looked = self.look(half);
        let (_, to) = self.setup.half_ends(half);
        let done = match label {
            Label::Ack => Ok("ok".to_owned()),
            Label::Data(binding, side) => self.pass_on((usize::from(binding), usize::from(side)), to),
            Label::Open(binding) => self.open(usize::from(binding), to),
            Label::Opened(binding) => self.answer(usize::from(binding), to, label, false),
            Label::Refused(binding) => self.answer(usize::from(binding), to, label, true),
        };
        match done {
            Ok(text) => {
                self.take(half);
                (text, Came::On)
            }
            Err(looked_too) => Machine::full(looked || looked_too),
        }
    }

    fn pass_on(&mut self, end: End, at: usize) -> Result<String, bool> {
        let way = self.setup.way(end);
        let place = way
            .iter()
            .position(|core| *core == at)
            .unwrap_or_else(|| fail("a fragment left its route"));
        if place + 1 == way.len() {
            let taker = (end.0, 1 - end.1);
            if self.s.queues[taker.0][taker.1] >= ARRIVAL {
                return Err(false);
            }
            self.s.queues[taker.0][taker.1] += 1;
            if self.s.ends[taker.0][taker.1].is_bound {
                self.trigger(taker);
            }
        } else {
            let next = self
                .setup
                .half(at, way[place + 1])
                .unwrap_or_else(|| fail("a link is gone"));
            let (free, looked) = self.has_slots(next, 2);
            if !free {
                return Err(looked);
            }
            self.put(next, Label::Data(end.0 as u8, end.1 as u8));
        }
        self.s.ends[end.0][end.1].passed[place] += 1;
        Ok("forwarded".to_owned())
    }

    fn send(&mut self, from: usize, to: usize, label: Label) -> Result<(), bool> {
        let half = self
            .setup
            .half(from, to)
            .unwrap_or_else(|| fail("a link is gone"));
        if self.s.outboxes[half].len() >= OUTBOX {
            return Err(false);
        }
        self.s.outboxes[half].push_back(label);
        Ok(())
    }

    fn open(&mut self, binding: usize, at: usize) -> Result<String, bool> {
        let way = &self.setup.bindings[binding].route;
        let place = way
            .iter()
            .position(|core| *core == at)
            .unwrap_or_else(|| fail("an opening left its route"));
        let label = binding as u8;
        if place + 1 == way.len() {
            self.send(at, way[place - 1], Label::Opened(label))?;
            self.bind((binding, 1));
            self.s.openings[binding] = (place as u8, true, false);
            return Ok(format!("opened {}", self.setup.end_text((binding, 1))));
        }
        if self.setup.half(at, way[place + 1]).is_none() {
            self.send(at, way[place - 1], Label::Refused(label))?;
            self.s.openings[binding] = (place as u8, true, true);
        } else {
            self.send(at, way[place + 1], Label::Open(label))?;
            self.s.openings[binding].0 = place as u8;
        }
        Ok("ok".to_owned())
    }

    fn answer(&mut self, binding: usize, at: usize, label: Label, is_refused: bool) -> Result<String, bool> {
        let way = &self.setup.bindings[binding].route;
        let place = way
            .iter()
            .position(|core| *core == at)
            .unwrap_or_else(|| fail("an answer left its route"));
        if place > 0 {
            self.send(at, way[place - 1], label)?;
            self.s.openings[binding].0 = place as u8;
            return Ok("ok".to_owned());
        }
        self.s.openings[binding].0 = 0;
        if is_refused {
            return Ok(format!("refused E73 {}", self.setup.end_text((binding, 0))));
        }
        self.bind((binding, 0));
        Ok(format!("opened {}", self.setup.end_text((binding, 0))))
    }

    pub fn step(&mut self, event: Event) -> (String, Came) {
        match event {
            Event::Call(end) => self.call(end),
            Event::Write(end) => self.write(end),
            Event::Turn(disp) => self.turn(disp),
            Event::Ack(end) => self.tell(self.setup.ring((end.0, 1 - end.1))),
            Event::Mwrite(half) => self.mwrite(half),
            Event::Forward(half) => self.forward(half),
            Event::Mack(half) => self.tell(half),
        }
    }

    // Whether all that was handed in was handled, but for what was refused.
    pub fn is_done(&self) -> bool {
        self.s.outboxes.iter().all(VecDeque::is_empty)
            && self.s.ends.iter().enumerate().all(|(at, pair)| {
                self.s.openings[at].2
                    || pair.iter().enumerate().all(|(side, d)| {
                        usize::from(d.handed_in) == self.setup.bindings[at].calls[side].len()
                            && d.waiting.is_empty()
                            && d.handled() == d.accepted.len()
                    })
            })
    }
}
