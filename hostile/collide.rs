//! Texts whose names collide in a hash map of a fixed seed. `hostile/collide` compiles it and says how it is called.
//! Plain Rust, apart from the crates.

use std::env::args;
use std::io::{self, Write};
use std::ops::ControlFlow;

const LETTERS: &[u8; 63] = b"abcdefghijklmnopqrstuvwxyzABCDEFGHIJKLMNOPQRSTUVWXYZ_0123456789";
/// How many of them may begin a name.
const FIRST: usize = 53;
/// Bytes of a name.
const NAME: usize = 6;

type Name = [u8; NAME];

fn folded_multiply(a: u64, b: u64) -> u64 {
    let product = u128::from(a) * u128::from(b);
    product as u64 ^ (product >> 64) as u64
}

// How the kit's maps (`indexmap`) hash a name: its length, and then byte by byte.
const MULTIPLIER: u64 = 0x9e37_79b9_7f4a_7c15;

fn begun() -> u64 {
    folded_multiply(0x243f_6a88_85a3_08d3 ^ NAME as u64, MULTIPLIER ^ 16)
}

fn with_byte(state: u64, byte: u8) -> u64 {
    folded_multiply(state ^ (u64::from(byte) * 0x01_0101), MULTIPLIER ^ 2)
}

/// Such a map has groups of 12 entries, 9 on average. A look-up begins at the group that the hash's low bits give, and in a group it
/// compares the names whose tag, the high byte, is the hash's.
fn collides(state: u64, groups: u32) -> bool {
    let hash = (state ^ (state >> 32)) as u32;
    hash & (0xff00_0000 | (groups - 1)) == 0x0100_0000
}

/// Goes through names until it has enough of them that are wanted.
fn search(name: &mut Name, at: usize, state: u64, wanted: &impl Fn(u64) -> bool, found: &mut Vec<Name>, count: usize) -> ControlFlow<()> {
    let letters = if at == 0 { &LETTERS[..FIRST] } else { &LETTERS[..] };
    for letter in letters {
        name[at] = *letter;
        let state = with_byte(state, *letter);
        if at + 1 < NAME {
            search(name, at + 1, state, wanted, found, count)?;
        } else if wanted(state) {
            found.push(*name);
            if found.len() == count {
                return ControlFlow::Break(());
            }
        }
    }
    ControlFlow::Continue(())
}

/// So many names, which collide in a map that has room for them, or else lie as chance has it.
fn names(count: usize, collide: bool) -> Vec<Name> {
    let groups = count.div_ceil(9).next_power_of_two() as u32;
    let mut found = Vec::new();
    let wanted = |state: u64| if collide { collides(state, groups) } else { (state >> 32) & 0xfff == 0 };
    let ended = search(&mut [0; NAME], 0, begun(), &wanted, &mut found, count);
    assert!(ended.is_break(), "there are {} such names", found.len());
    found
}

fn text_of(name: &Name) -> &str {
    std::str::from_utf8(name).unwrap()
}

/// So many uses of names, the last name first.
fn uses(names: &[Name], count: usize) -> impl Iterator<Item = &str> {
    names.iter().rev().cycle().take(count).map(text_of)
}

fn main() -> io::Result<()> {
    let words: Vec<String> = args().collect();
    let (kind, count) = (words[1].as_str(), words[2].parse().expect("a number of names"));
    let names = names(count, words.get(3).map(String::as_str) != Some("apart"));
    let mut out = io::BufWriter::new(io::stdout().lock());
    match kind {
        "enumerators" => {
            let list: Vec<&str> = names.iter().map(text_of).collect();
            writeln!(out, "interface i {{typedef enum{{{}}}e;message m(e a);}};", list.join(","))?;
        }
        "types" => {
            writeln!(out, "interface i {{")?;
            for name in &names {
                writeln!(out, "alias {} uint8;", text_of(name))?;
            }
            let list: Vec<&str> = uses(&names, 180 * 32).collect();
            for (k, args) in list.chunks(32).enumerate() {
                let args: Vec<String> = args.iter().enumerate().map(|(k, of)| format!("{of} a{k}")).collect();
                writeln!(out, "message m{k}({});", args.join(","))?;
            }
            writeln!(out, "}};")?;
        }
        "messages" => {
            writeln!(out, "interface i {{")?;
            for name in &names {
                writeln!(out, "message {}(uint8 a);", text_of(name))?;
            }
            writeln!(out, "}};")?;
        }
        "calls" => {
            writeln!(out, "idl\ninterface i {{")?;
            for name in &names {
                writeln!(out, "message {}(uint8 a);", text_of(name))?;
            }
            writeln!(out, "}};\n.\ndisp d 0\ndisp e 0\nexport s e i\nbind p d i s local 4")?;
            for of in uses(&names, 16_000) {
                writeln!(out, "call p.c {of}(1)\nwrite p.c\nturn e")?;
            }
        }
        "bindings" => {
            writeln!(out, "idl\ninterface i {{ message m(uint8 a); }};\n.\ndisp d 0\ndisp e 0\nexport s e i")?;
            for name in &names {
                writeln!(out, "bind {} d i s local 4", text_of(name))?;
            }
            for of in uses(&names, 16_000) {
                writeln!(out, "call {of}.c m(1)\nwrite {of}.c\nturn e")?;
            }
        }
        _ => panic!("no such kind of text"),
    }
    out.flush()
}
