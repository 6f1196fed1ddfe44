//! The cores files that both programs run.

use std::fmt::Write;

/// A kind of file: what is said of it, the word by which it is asked for, and its text with so many calls.
pub struct Kind {
    pub name: &'static str,
    pub word: &'static str,
    pub text: fn(u64) -> String,
}

pub const KINDS: [Kind; 4] = [
    Kind { name: "2 cores, a ring, calls both ways", word: "ring", text: |calls| both_ways(calls, "", "ump 64") },
    Kind { name: "2 cores, a circuit, calls both ways", word: "circuit", text: |calls| both_ways(calls, "link 0 1 64\n", "hop 0 1") },
    Kind { name: "4 cores, a circuit of three hops, one way", word: "hops", text: one_way },
    Kind { name: "2 cores, a ring, a reply by rule to each call", word: "rule", text: replied },
];

const INTERFACE: &str = "idl\ninterface i { message ping(uint32 v); rpc echo(in uint32 x, out uint32 y); }\n.\n";

// Half of the calls each way.
fn both_ways(calls: u64, link: &str, wire: &str) -> String {
    let mut text = format!("{INTERFACE}cores 2\n{link}disp d 0\ndisp e 1\nexport s e i\nbind p d i s {wire}\n");
    for v in 0..calls / 2 {
        writeln!(text, "call p.c ping({v})\ncall p.s ping({v})").unwrap();
    }
    text
}

fn one_way(calls: u64) -> String {
    let links = "link 0 1 64\nlink 1 2 64\nlink 2 3 64\n";
    let mut text = format!("{INTERFACE}cores 4\n{links}disp d 0\ndisp e 3\nexport s e i\nbind p d i s hop 0 1 2 3\n");
    for v in 0..calls {
        writeln!(text, "call p.c ping({v})").unwrap();
    }
    text
}

// A call and its reply count as two.
fn replied(calls: u64) -> String {
    let mut text = format!("{INTERFACE}cores 2\ndisp d 0\ndisp e 1\nexport s e i\nbind p d i s ump 64\nreply p.s echo_call echo_response\n");
    for v in 0..calls / 2 {
        writeln!(text, "call p.c echo_call({v})").unwrap();
    }
    text
}
