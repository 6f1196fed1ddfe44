//! Cores files in plain Rust: of their lines those that the benchmark's files have, and of messages those whose arguments are unsigned numbers, each no
//! wider than the one before it. What is otherwise isn't refused but ends the program.

use crate::calls::{ArgType, Call, Interface, Scalar, Type, Value};
use crate::machine::Op;
use crate::receiver::TakeOp;
use std::collections::HashMap;

/// A message's name, and the code of its stubs.
pub struct Message {
    pub name: String,
    pub send: Vec<Op>,
    pub receive: Vec<TakeOp>,
    pub numbers: usize,
}

/// By what the ends of a binding are joined: a ring of so many slots, or a circuit over these cores.
pub enum Joined {
    Ring(usize),
    Circuit(Vec<usize>),
}

/// An end of a binding: its dispatcher, its calls, and the reply to each message by rule.
#[derive(Default)]
pub struct Side {
    pub dispatcher: usize,
    pub calls: Vec<Call>,
    pub rules: HashMap<u16, u16>,
}

pub struct Binding {
    pub name: String,
    pub joined: Joined,
    /// The client's, and the service's.
    pub sides: [Side; 2],
}

/// What a file says.
pub struct Setup {
    pub types: Interface,
    pub messages: Vec<Message>,
    pub cores: usize,
    /// The cores of each, and its slots.
    pub links: Vec<(usize, usize, usize)>,
    /// The core of each.
    pub dispatchers: Vec<usize>,
    pub bindings: Vec<Binding>,
}

/// The places of names, while a file is read.
#[derive(Default)]
struct Names<'a> {
    messages: HashMap<String, u16>,
    dispatchers: HashMap<&'a str, usize>,
    services: HashMap<&'a str, usize>,
    bindings: HashMap<&'a str, usize>,
}

fn number<T: std::str::FromStr>(word: &str) -> T {
    word.parse().unwrap_or_else(|_| panic!("{word} is no number here"))
}

fn width(ty: &str) -> usize {
    let bits: usize = number(ty.strip_prefix("uint").expect("an unsigned number"));
    bits / 8
}

fn message(name: String, widths: &[usize]) -> (Message, Vec<ArgType>) {
    assert!(widths.windows(2).all(|pair| pair[0] >= pair[1]), "an argument is wider than the one before");
    let send = widths.iter().map(|width| Op::Emit(*width)).chain([Op::End]).collect();
    let receive = widths.iter().map(|width| TakeOp::Read(*width)).chain([TakeOp::Done]).collect();
    let types = widths.iter().map(|width| ArgType::Fixed(Type::Scalar(Scalar::Unsigned(*width)))).collect();
    (Message { name, send, receive, numbers: widths.len() }, types)
}

impl Setup {
    fn new() -> Setup {
        let types = Interface { messages: Vec::new() };
        Setup { types, messages: Vec::new(), cores: 1, links: Vec::new(), dispatchers: Vec::new(), bindings: Vec::new() }
    }

    fn add_message(&mut self, name: String, widths: &[usize], names: &mut Names) {
        let (message, types) = message(name.clone(), widths);
        names.messages.insert(name, self.messages.len() as u16);
        self.messages.push(message);
        self.types.messages.push(types);
    }

    // `interface i { message m(uint32 v, ..); rpc r(in uint32 x, .., out uint32 y, ..); }`
    fn add_interface(&mut self, text: &str, names: &mut Names) {
        let body = text.split_once('{').expect("a body").1;
        for item in body.split(';') {
            let Some((head, rest)) = item.split_once('(') else {
                continue;
            };
            let mut head = head.split_whitespace();
            let (kind, name) = (head.next().expect("a kind"), head.next().expect("a name"));
            let args: Vec<Vec<&str>> = rest.trim_end_matches(')').split(',').map(|arg| arg.split_whitespace().collect()).collect();
            let widths = |way: &str| -> Vec<usize> {
                args.iter().filter(|arg| arg.len() == 2 || arg[0] == way).map(|arg| width(arg[arg.len() - 2])).collect()
            };
            if kind == "rpc" {
                self.add_message(format!("{name}_call"), &widths("in"), names);
                self.add_message(format!("{name}_response"), &widths("out"), names);
            } else {
                self.add_message(name.to_string(), &widths(""), names);
            }
        }
    }

    fn bind<'a>(&mut self, words: &[&'a str], names: &mut Names<'a>) {
        let joined = match words[4] {
            "ump" => Joined::Ring(number(words[5])),
            "hop" => Joined::Circuit(words[5..].iter().map(|word| number(word)).collect()),
            how => panic!("no bindings by {how} here"),
        };
        let side = |dispatcher| Side { dispatcher, ..Side::default() };
        let sides = [side(names.dispatchers[words[1]]), side(names.services[words[3]])];
        names.bindings.insert(words[0], self.bindings.len());
        self.bindings.push(Binding { name: words[0].to_string(), joined, sides });
    }

    fn side<'a>(&mut self, end: &str, names: &Names<'a>) -> &mut Side {
        let (binding, side) = end.split_once('.').expect("an end");
        &mut self.bindings[names.bindings[binding]].sides[usize::from(side == "s")]
    }

    fn call(&mut self, end: &str, text: &str, names: &Names) {
        let (name, rest) = text.split_once('(').expect("a call");
        let args = rest.trim_end_matches(')').split(',');
        let args = args.map(|word| Value::Int(number(word.trim()))).collect();
        let call = Call { msg: names.messages[name], args };
        self.side(end, names).calls.push(call);
    }

    fn line<'a>(&mut self, words: &[&'a str], names: &mut Names<'a>) {
        match words[0] {
            "cores" => self.cores = number(words[1]),
            "link" => self.links.push((number(words[1]), number(words[2]), number(words[3]))),
            "disp" => {
                names.dispatchers.insert(words[1], self.dispatchers.len());
                self.dispatchers.push(number(words[2]));
            }
            "export" => {
                let dispatcher = names.dispatchers[words[2]];
                names.services.insert(words[1], dispatcher);
            }
            "bind" => self.bind(&words[1..], names),
            "reply" => {
                let (asked, answer) = (names.messages[words[2]], names.messages[words[3]]);
                self.side(words[1], names).rules.insert(asked, answer);
            }
            other => panic!("no {other} here"),
        }
    }
}

/// Reads the text of a file.
pub fn read(text: &str) -> Setup {
    let (mut setup, mut names) = (Setup::new(), Names::default());
    let mut lines = text.lines();
    while let Some(line) = lines.next() {
        let line = line.trim();
        if line == "idl" {
            let block: Vec<&str> = lines.by_ref().take_while(|line| *line != ".").collect();
            setup.add_interface(&block.join("\n"), &mut names);
        } else if let Some(rest) = line.strip_prefix("call ") {
            let (end, call) = rest.split_once(' ').expect("a call");
            setup.call(end, call, &names);
        } else if !line.is_empty() && !line.starts_with('#') {
            let words: Vec<&str> = line.split_whitespace().collect();
            setup.line(&words, &mut names);
        }
    }
    setup
}
