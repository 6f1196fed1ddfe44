//! An rpc between two threads over a ring. A side that finds nothing parks; who put something unparks the
//! other: that is the doorbell, since nothing of the library waits or wakes.

use flounder::{duo, Fault, Side, Sight};
use std::thread::{self, Thread};

const CALLS: u64 = 20_000;

fn send(side: &mut Side, other: &Thread, number: u64) -> Result<(), Fault> {
    side.put(&[number, 0, 0, 0, 0, 0, 0, 2])?;
    other.unpark();
    Ok(())
}

fn receive(side: &mut Side) -> u64 {
    loop {
        match side.take() {
            Sight::Data(fragment) => return fragment[0],
            Sight::Acknowledgement => {}
            // a token that was left before this is enough: nothing is lost between the look and the sleep
            Sight::Empty => thread::park(),
        }
    }
}

fn main() -> Result<(), Fault> {
    let (mut client, mut server) = duo(16)?;
    let here = thread::current();
    let serving = thread::spawn(move || {
        for _ in 0..CALLS {
            let number = receive(&mut server);
            send(&mut server, &here, number * number)?;
        }
        Ok::<(), Fault>(())
    });
    let mut sum = 0;
    for k in 0..CALLS {
        send(&mut client, serving.thread(), k)?;
        sum += receive(&mut client);
    }
    serving.join().expect("the server ends")?;
    println!("{CALLS} calls, sum of squares {sum}");
    let size = duo(5).unwrap_err();
    let acknowledges = client.put(&[0, 0, 0, 0, 0, 0, 0, 4]).unwrap_err();
    println!("size 5: {size}; a fragment that only acknowledges: {acknowledges}");
    Ok(())
}
