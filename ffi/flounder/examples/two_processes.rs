//! A ring between two processes, and an rpc by ends over another: every block of the library lies in pages that
//! both share, on cache lines of its own, since the three symbols by which it takes memory are defined here. The
//! pages are mapped before the fork, so they lie at one address; behind it each process takes memory from a half
//! of its own. For Linux.

use flounder::{duo, ends_of_text, End, Fault, Plan, Received, Side, Sight, Written};
use std::ffi::{c_int, c_long, c_void};
use std::ptr;
use std::sync::atomic::{AtomicPtr, AtomicUsize, Ordering::Relaxed};
use std::thread;

const TEXT: &str = "interface squares \"s\" { rpc square(in uint64 x, out uint64 y); };";
const SQUARE: u64 = 0;
const ANSWER: u64 = 1;
const FRAGMENTS: u64 = 200_000;
const RPCS: u64 = 2_000;
const PAGES: usize = 1 << 23;
const LINE: usize = 64;
const READ_AND_WRITE: c_int = 3;
const SHARED_AND_OF_NO_FILE: c_int = 0x21;

static ARENA: AtomicPtr<u8> = AtomicPtr::new(ptr::null_mut());
static USED: AtomicUsize = AtomicUsize::new(0);
static MOST: AtomicUsize = AtomicUsize::new(PAGES / 2);

extern "C" {
    fn mmap(
        at: *mut c_void,
        length: usize,
        access: c_int,
        kind: c_int,
        file: c_int,
        from: c_long,
    ) -> *mut c_void;
    fn fork() -> c_int;
    fn waitpid(child: c_int, status: &mut c_int, how: c_int) -> c_int;
    fn _exit(status: c_int) -> !;
}

/// A block of memory, if there is one.
#[repr(C)]
pub struct Room {
    is_there: u64,
    at: *mut u8,
}

#[no_mangle]
extern "C" fn rattle_alloc(size: usize, align: usize) -> Room {
    let wanted = if size == 0 { align } else { size };
    let room = wanted.div_ceil(LINE) * LINE;
    let used = USED.load(Relaxed);
    if room > MOST.load(Relaxed) - used {
        return Room { is_there: 0, at: ptr::null_mut() };
    }
    USED.store(used + room, Relaxed);
    Room { is_there: 1, at: ARENA.load(Relaxed).wrapping_add(used) }
}

#[no_mangle]
unsafe extern "C" fn rattle_realloc(old: *mut u8, kept: usize, size: usize, align: usize) -> Room {
    let room = rattle_alloc(size, align);
    if room.is_there == 1 {
        // SAFETY: both blocks have as many bytes, and they don't overlap.
        unsafe { ptr::copy_nonoverlapping(old, room.at, kept) }
    }
    room
}

// The pages go as a whole.
#[no_mangle]
extern "C" fn rattle_dealloc(_at: *mut u8) {}

/// Pages that a fork shares.
fn map_pages() -> bool {
    // SAFETY: this maps new pages, wherever there is room.
    let at = unsafe { mmap(ptr::null_mut(), PAGES, READ_AND_WRITE, SHARED_AND_OF_NO_FILE, -1, 0) };
    ARENA.store(at.cast(), Relaxed);
    at as isize != -1
}

/// Puts so many fragments, and takes as many: those of the other process in their order.
fn exchange(side: &mut Side, mine: u64, theirs: u64) -> Result<bool, Fault> {
    let (mut sent, mut got) = (0, 0);
    while sent < FRAGMENTS || got < FRAGMENTS {
        let mut moved = false;
        if sent < FRAGMENTS {
            match side.put(&[mine + sent, sent, !sent, 0, 0, 0, mine, 2]) {
                Err(Fault::Full) => {}
                put => {
                    put?;
                    sent += 1;
                    moved = true;
                }
            }
        }
        match side.take() {
            Sight::Data([a, b, c, _, _, _, last, _]) => {
                if [a, b, c, last] != [theirs + got, got, !got, theirs] {
                    return Ok(false);
                }
                got += 1;
            }
            Sight::Acknowledgement => {}
            Sight::Empty if !moved => thread::yield_now(),
            Sight::Empty => {}
        }
        // a tell that finds no slot is made up for by the next
        let _ = side.tell();
    }
    Ok(true)
}

fn send(end: &mut End, message: u64, number: u64) -> Result<(), Fault> {
    end.call(&mut [message, number])?;
    while let Written::Fragment { left: _ } = end.write()? {}
    Ok(())
}

fn receive(end: &mut End) -> Result<[u64; 2], Fault> {
    let mut call = [0; 2];
    loop {
        match end.receive()? {
            Received::Call => break,
            Received::Empty => thread::yield_now(),
            _ => {}
        }
    }
    end.read(&mut call)?;
    Ok(call)
}

/// The child: its fragments, and then answers until it is asked for the square of 0.
fn child_does(side: &mut Side, end: &mut End) -> Result<bool, Fault> {
    let well = exchange(side, 2_000_000_000, 1_000_000_000)?;
    USED.store(PAGES / 2, Relaxed);
    MOST.store(PAGES, Relaxed);
    loop {
        match receive(end)? {
            [SQUARE, 0] => return Ok(well),
            [_, x] => send(end, ANSWER, x * x)?,
        }
    }
}

fn main() -> Result<(), Fault> {
    assert!(map_pages(), "no pages");
    let (mut one, mut two) = duo(64)?;
    let (mut client, mut server) = ends_of_text(TEXT, Plan::One, 16)?.expect("a text without faults");
    // SAFETY: no thread was started.
    let child = unsafe { fork() };
    assert!(child >= 0, "no process");
    if child == 0 {
        let well = child_does(&mut two, &mut server);
        // SAFETY: it ends this process alone.
        unsafe { _exit(c_int::from(well != Ok(true))) }
    }
    let here = exchange(&mut one, 1_000_000_000, 2_000_000_000)?;
    let mut sum = 0;
    for x in 1..=RPCS {
        send(&mut client, SQUARE, x)?;
        sum += receive(&mut client)?[1];
    }
    send(&mut client, SQUARE, 0)?;
    let mut status = 0;
    // SAFETY: the child is ours, and the place too.
    let ended = unsafe { waitpid(child, &mut status, 0) };
    println!("{FRAGMENTS} fragments each way between two processes: {here} here, {} there", ended == child && status == 0);
    println!("{RPCS} squares came back, {sum} in all");
    Ok(())
}
