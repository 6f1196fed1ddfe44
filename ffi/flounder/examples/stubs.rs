//! Stubs alone: calls go from thread to thread over a channel, a fragment at a time, as over any transport that
//! keeps their order.

use flounder::{program_of_text, Fault, Fed, Fragment, Plan, Receiver};
use std::sync::mpsc;
use std::thread;

const TEXT: &str = "interface log \"l\" { message line(uint16 level, string words[300]); };";
const LINES: u64 = 2000;

fn count(mut receiver: Receiver, from: mpsc::Receiver<Fragment>) -> Result<(u64, u64), Fault> {
    let (mut lines, mut bytes) = (0, 0);
    let mut room = [0; 303];
    for fragment in from {
        if receiver.feed(&fragment)? == Fed::Part {
            continue;
        }
        if let Some([0, _level, length, ..]) = receiver.read(&mut room)? {
            lines += 1;
            bytes += length;
        }
    }
    Ok((lines, bytes))
}

fn main() -> Result<(), Fault> {
    let mut program = program_of_text(TEXT, Plan::Two)?.expect("a text without faults");
    let sizes = program.sizes(0)?;
    let mut sender = program.sender()?;
    let receiver = program.receiver()?;
    println!("{} message, {} numbers, {} bytes at most", program.messages()?, sizes.numbers, sizes.bytes);
    drop(program);
    let (give, got) = mpsc::channel();
    let counting = thread::spawn(move || count(receiver, got));
    let mut fragments = 0;
    for k in 0..LINES {
        let mut call = vec![0, k % 5, k % 301];
        call.extend((0..k % 301).map(|at| u64::from(b'a') + at % 26));
        sender.start(&mut call)?;
        for fragment in &mut sender {
            fragments += 1;
            give.send(fragment).expect("the other thread takes");
        }
    }
    println!("no such message: {}", sender.start(&mut [1]).unwrap_err());
    println!("a level that doesn't fit: {}", sender.start(&mut [0, 65_536, 0]).unwrap_err());
    drop(give);
    let (lines, bytes) = counting.join().expect("the other thread ends")?;
    println!("{fragments} fragments, {lines} lines of {bytes} bytes came");
    Ok(())
}
