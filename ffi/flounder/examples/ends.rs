//! Calls of an interface between two threads: squares, which the server answers, and echoes, which a reply rule
//! answers. A side that finds nothing parks; who moved something unparks the other.

use flounder::{ends_of_text, End, Fault, Plan, Taken, Written};
use std::sync::mpsc;
use std::thread::{self, Thread};

const TEXT: &str = "interface desk \"answers what it is asked\" {
    rpc square(in uint64 x, out uint64 y);
    rpc echo(in string line[200], out string line_again[200]);
    message bye();
};";
const SQUARE: u64 = 0;
const SQUARE_ANSWER: u64 = 1;
const ECHO: u64 = 2;
const ECHO_ANSWER: u64 = 3;
const BYE: u64 = 4;
const CALLS: u64 = 20_000;

struct Party {
    end: End,
    other: Thread,
}

impl Party {
    fn send(&mut self, call: &mut [u64]) -> Result<(), Fault> {
        let mut wrote = self.end.send(call)?;
        loop {
            match wrote {
                Written::Nothing => return Ok(()),
                Written::Fragment { left: _ } => self.other.unpark(),
                Written::Full => thread::park(),
            }
            wrote = self.end.write()?;
        }
    }

    fn next<'a>(&mut self, room: &'a mut [u64]) -> Result<&'a [u64], Fault> {
        let count = loop {
            let wrote = self.end.write()?;
            let taken = self.end.take_call(room)?;
            let put = matches!(wrote, Written::Fragment { left: _ });
            if !put && taken == Taken::Empty {
                thread::park();
                continue;
            }
            let count = match taken {
                Taken::Call(call) => Some(call.len()),
                _ => None,
            };
            // a put that found no room is told now
            let _ = self.end.tell();
            self.other.unpark();
            if let Some(count) = count {
                break count;
            }
        };
        Ok(&room[..count])
    }
}

fn serve(mut server: Party) -> Result<(), Fault> {
    let mut room = [0; 202];
    loop {
        match *server.next(&mut room)? {
            [BYE] => return Ok(()),
            [SQUARE, x] => server.send(&mut [SQUARE_ANSWER, x * x])?,
            _ => {}
        }
    }
}

fn ask(client: &mut Party) -> Result<(u64, u64), Fault> {
    let (mut sum, mut echoed) = (0, 0);
    let mut room = [0; 202];
    for k in 0..CALLS {
        client.send(&mut [SQUARE, k])?;
        if let [SQUARE_ANSWER, y] = *client.next(&mut room)? {
            sum += y;
        }
        let mut line = vec![ECHO, k % 200];
        line.extend((0..k % 200).map(|at| u64::from(b'a') + at % 26));
        client.send(&mut line)?;
        match client.next(&mut room)? {
            [ECHO_ANSWER, again @ ..] if *again == line[1..] => echoed += again[0],
            other => println!("another answer: {other:?}"),
        }
    }
    client.send(&mut [BYE])?;
    Ok((sum, echoed))
}

fn main() -> Result<(), Fault> {
    let (client, mut server) = ends_of_text(TEXT, Plan::One, 16)?.expect("a text without faults");
    server.reply_rule(ECHO as u16, ECHO_ANSWER as u16)?;
    let here = thread::current();
    let (give, got) = mpsc::channel();
    let serving = thread::spawn(move || {
        give.send(thread::current()).expect("the client waits");
        serve(Party { end: server, other: here })
    });
    let other = got.recv().expect("the server runs");
    let mut client = Party { end: client, other };
    let (sum, echoed) = ask(&mut client)?;
    serving.join().expect("the server ends")?;
    println!("{CALLS} rpcs each: sum of squares {sum}, {echoed} bytes echoed");
    println!("no such message: {}", client.end.call(&mut [9]).unwrap_err());
    println!("a tape that doesn't fit: {}", client.end.call(&mut [SQUARE, 1, 2]).unwrap_err());
    let text = ends_of_text("interface i { message m(uint7 x); };", Plan::Two, 16)?;
    println!("a text with a fault: {}", text.unwrap_err());
    Ok(())
}
