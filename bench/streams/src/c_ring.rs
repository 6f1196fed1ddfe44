//! The plain ring in C (`ring.c`).

use std::ffi::c_void;

extern "C" {
    fn c_ring_new(slots: u64) -> *mut c_void;
    fn c_ring_free(ring: *mut c_void);
    fn c_ring_alone(slots: u64, rounds: u64, batch: u64) -> u64;
    fn c_ring_slices_alone(slots: u64, rounds: u64) -> u64;
    fn c_ring_puts(ring: *mut c_void, count: u64, pauses: u64);
    fn c_ring_puts_slices(ring: *mut c_void, count: u64, pauses: u64);
    fn c_ring_takes(ring: *mut c_void, count: u64, pauses: u64, at_once: u64, times: *mut u64) -> u64;
}

pub fn alone(slots: usize, rounds: u64, batch: u64) -> u64 {
    unsafe { c_ring_alone(slots as u64, rounds, batch) }
}

pub fn slices_alone(slots: usize, rounds: u64) -> u64 {
    unsafe { c_ring_slices_alone(slots as u64, rounds) }
}

#[derive(Clone, Copy)]
pub struct Ring(*mut c_void);

// SAFETY: one thread puts and one takes.
unsafe impl Send for Ring {}

impl Ring {
    pub fn new(slots: usize) -> Ring {
        let ring = unsafe { c_ring_new(slots as u64) };
        assert!(!ring.is_null(), "memory for a ring");
        Ring(ring)
    }

    pub fn puts(self, count: u64, pauses: u64, at_once: usize) {
        match at_once {
            1 => unsafe { c_ring_puts(self.0, count, pauses) },
            _ => unsafe { c_ring_puts_slices(self.0, count, pauses) },
        }
    }

    /// The sum over what was taken, and the times of the stretches.
    pub fn takes(self, count: u64, pauses: u64, at_once: usize) -> (u64, Vec<u64>) {
        let mut times = vec![0; 1 + (count / super::threads::STRETCH) as usize];
        let sum = unsafe { c_ring_takes(self.0, count, pauses, at_once as u64, times.as_mut_ptr()) };
        times.retain(|time| *time != 0);
        (sum, times)
    }

    pub fn free(self) {
        unsafe { c_ring_free(self.0) }
    }
}
