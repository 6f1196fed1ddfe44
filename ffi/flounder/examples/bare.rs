//! A ring without an operating system: nothing is linked but the archive, memory comes from an array, and the
//! program begins at `_start`. (It asks the kernel of the machine that tries it to write a line and to end.)
//! `ffi/try` has the words by which it is linked.
#![no_std]
#![no_main]

use core::arch::{asm, global_asm};
use core::cell::UnsafeCell;
use core::panic::PanicInfo;
use core::ptr;
use core::sync::atomic::{AtomicUsize, Ordering::Relaxed};
use flounder::{duo, Fault, Sight};

const ROOM: usize = 1 << 18;
const LINE: usize = 64;
const WELL: &[u8] = b"without an operating system: 100000 each way, full at 7\n";

#[repr(C, align(64))]
struct Arena(UnsafeCell<[u8; ROOM]>);

// SAFETY: each of its bytes is handed out once, to whoever asked.
unsafe impl Sync for Arena {}

static ARENA: Arena = Arena(UnsafeCell::new([0; ROOM]));
static USED: AtomicUsize = AtomicUsize::new(0);

/// A block of memory, if there is one.
#[repr(C)]
pub struct Room {
    is_there: u64,
    at: *mut u8,
}

#[no_mangle]
extern "C" fn rattle_alloc(size: usize, align: usize) -> Room {
    let wanted = if size == 0 { align } else { size };
    let room = wanted.div_ceil(LINE) * LINE;
    let used = USED.load(Relaxed);
    if room > ROOM - used {
        return Room { is_there: 0, at: ptr::null_mut() };
    }
    USED.store(used + room, Relaxed);
    Room { is_there: 1, at: ARENA.0.get().cast::<u8>().wrapping_add(used) }
}

#[no_mangle]
unsafe extern "C" fn rattle_realloc(old: *mut u8, kept: usize, size: usize, align: usize) -> Room {
    let room = rattle_alloc(size, align);
    if room.is_there == 1 {
        // SAFETY: both blocks have as many bytes, and they don't overlap.
        unsafe { memcpy(room.at, old, kept) };
    }
    room
}

#[no_mangle]
extern "C" fn rattle_dealloc(_at: *mut u8) {}

#[no_mangle]
unsafe extern "C" fn memcpy(to: *mut u8, from: *const u8, count: usize) -> *mut u8 {
    for k in 0..count {
        // SAFETY: both have as many bytes. A volatile store is not made a call of this function.
        unsafe { to.add(k).write_volatile(*from.add(k)) }
    }
    to
}

#[no_mangle]
unsafe extern "C" fn memmove(to: *mut u8, from: *const u8, count: usize) -> *mut u8 {
    if to.cast_const() <= from {
        // SAFETY: as of `memcpy`, which goes upwards.
        return unsafe { memcpy(to, from, count) };
    }
    for k in (0..count).rev() {
        // SAFETY: as above.
        unsafe { to.add(k).write_volatile(*from.add(k)) }
    }
    to
}

#[no_mangle]
unsafe extern "C" fn memset(to: *mut u8, byte: i32, count: usize) -> *mut u8 {
    for k in 0..count {
        // SAFETY: it has as many bytes.
        unsafe { to.add(k).write_volatile(byte as u8) }
    }
    to
}

fn system_call(number: usize, a: usize, b: usize, c: usize) {
    // SAFETY: the two calls that are asked for here read what they are given.
    unsafe {
        asm!("syscall", inlateout("rax") number => _, in("rdi") a, in("rsi") b, in("rdx") c, out("rcx") _, out("r11") _)
    }
}

fn end(status: usize) -> ! {
    system_call(60, status, 0, 0);
    loop {}
}

#[panic_handler]
fn panicked(_: &PanicInfo) -> ! {
    end(101)
}

/// Nothing unwinds here, but the library `core` as it is compiled names this.
#[no_mangle]
extern "C" fn rust_eh_personality() {}

/// Fragments both ways, and then so many as find room.
fn run() -> Result<usize, Fault> {
    let (mut one, mut two) = duo(8)?;
    for k in 0..100_000 {
        one.put(&[k, k, k, k, k, k, k, 2])?;
        let Sight::Data([.., last, _]) = two.take() else { return Ok(0) };
        two.put(&[last + 1, k, k, k, k, k, k, 2])?;
        let Sight::Data([first, ..]) = one.take() else { return Ok(0) };
        if first != k + 1 {
            return Ok(0);
        }
    }
    // the ring is full once seven stand in it: the last slot is kept for an acknowledgement
    let mut put = 0;
    while put < 100 && one.put(&[put as u64, 0, 0, 0, 0, 0, 0, 2]).is_ok() {
        put += 1;
    }
    Ok(put)
}

// The stack is a multiple of 16 there, as before a call.
global_asm!(".globl _start", "_start:", "and rsp, -16", "call {begin}", begin = sym begin);

extern "C" fn begin() -> ! {
    let well = run() == Ok(7);
    if well {
        system_call(1, 1, WELL.as_ptr() as usize, WELL.len());
    }
    end(usize::from(!well))
}
