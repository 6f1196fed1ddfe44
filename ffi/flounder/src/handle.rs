//! A handle of the archive's, and what the archive has.

use crate::fault::Fault;
use core::ptr::{self, NonNull};

/// What the archive answers.
#[repr(C)]
pub(crate) struct Answer {
    pub fault: u32,
    pub what: u32,
    pub count: u64,
}

extern "C" {
    pub(crate) fn flounder_make(slots: usize, one: &mut *mut u8, two: &mut *mut u8) -> u32;
    pub(crate) fn flounder_make_text_ends(
        text: *const u8,
        length: usize,
        plan: u32,
        slots: usize,
        one: &mut *mut u8,
        two: &mut *mut u8,
        place: &mut u64,
    ) -> u32;
    pub(crate) fn flounder_make_image_ends(
        image: *const u8,
        length: usize,
        slots: usize,
        one: &mut *mut u8,
        two: &mut *mut u8,
    ) -> u32;
    pub(crate) fn flounder_make_text_program(
        text: *const u8,
        length: usize,
        plan: u32,
        program: &mut *mut u8,
        place: &mut u64,
    ) -> u32;
    pub(crate) fn flounder_make_image_program(
        image: *const u8,
        length: usize,
        program: &mut *mut u8,
    ) -> u32;
    fn flounder_make_run(program: *mut u8, kind: u32, run: &mut *mut u8) -> Answer;
    fn flounder_use(handle: *mut u8, what: u32, numbers: *mut u64, count: usize) -> Answer;
    pub(crate) fn flounder_put(handle: *mut u8, numbers: &mut [u64; 8]) -> Answer;
    pub(crate) fn flounder_take(handle: *mut u8, numbers: &mut [u64; 8]) -> Answer;
    pub(crate) fn flounder_call(handle: *mut u8, numbers: *mut u64, count: usize) -> Answer;
    pub(crate) fn flounder_write(handle: *mut u8, numbers: *mut u64, count: usize) -> Answer;
    pub(crate) fn flounder_receive(handle: *mut u8, numbers: *mut u64, count: usize) -> Answer;
    pub(crate) fn flounder_read(handle: *mut u8, numbers: *mut u64, count: usize) -> Answer;
    pub(crate) fn flounder_send(handle: *mut u8, numbers: *mut u64, count: usize) -> Answer;
    pub(crate) fn flounder_take_call(handle: *mut u8, numbers: *mut u64, count: usize) -> Answer;
    fn rattle_dealloc(at: *mut u8);
}

/// An operation that the archive has by a name too.
pub(crate) type Operation = unsafe extern "C" fn(*mut u8, *mut u64, usize) -> Answer;

/// One on a fragment.
pub(crate) type FragmentOperation = unsafe extern "C" fn(*mut u8, &mut [u64; 8]) -> Answer;

/// A handle that nobody else has.
#[derive(Debug)]
pub(crate) struct Handle {
    at: NonNull<u8>,
}

// SAFETY: `fl_c_operations` proves that what a handle leads to may go to another thread. A handle is moved
// there, so its calls are in order.
unsafe impl Send for Handle {}

impl Handle {
    /// The handle that a maker stored, by its answer.
    pub(crate) fn one(number: u32, at: *mut u8) -> Result<Handle, Fault> {
        Fault::of(number, 0)?;
        let at = NonNull::new(at).ok_or(Fault::Other(0))?;
        Ok(Handle { at })
    }

    /// A run of the program that the handle leads to: 1 is a send run, 2 a receive run.
    pub(crate) fn run(&self, kind: u32) -> Result<Handle, Fault> {
        let mut run = ptr::null_mut();
        // SAFETY: the handle isn't freed. The program isn't changed, and `Handle` isn't `Sync`, so no other call is
        // at it.
        let answer = unsafe { flounder_make_run(self.at.as_ptr(), kind, &mut run) };
        Handle::one(answer.fault, run)
    }

    /// Both handles that a maker stored, by its answer.
    pub(crate) fn both(
        number: u32,
        one: *mut u8,
        two: *mut u8,
    ) -> Result<(Handle, Handle), Fault> {
        Ok((Handle::one(number, one)?, Handle::one(number, two)?))
    }

    /// What the operation of this number comes to, and its count.
    pub(crate) fn ask(&mut self, what: u32, numbers: &mut [u64]) -> Result<(u32, u64), Fault> {
        // SAFETY: the handle is ours alone and not freed, and the numbers are a slice's.
        let answer =
            unsafe { flounder_use(self.at.as_ptr(), what, numbers.as_mut_ptr(), numbers.len()) };
        Fault::of(answer.fault, answer.count)?;
        Ok((answer.what, answer.count))
    }

    /// The same of an operation that has a name: one of those above.
    #[inline]
    pub(crate) fn ask_by(
        &mut self,
        operation: Operation,
        numbers: &mut [u64],
    ) -> Result<(u32, u64), Fault> {
        // SAFETY: as of `ask`.
        let answer = unsafe { operation(self.at.as_ptr(), numbers.as_mut_ptr(), numbers.len()) };
        Fault::of(answer.fault, answer.count)?;
        Ok((answer.what, answer.count))
    }

    /// The same of an operation on a fragment.
    #[inline]
    pub(crate) fn ask_on(
        &mut self,
        operation: FragmentOperation,
        fragment: &mut [u64; 8],
    ) -> Result<(u32, u64), Fault> {
        // SAFETY: as of `ask`.
        let answer = unsafe { operation(self.at.as_ptr(), fragment) };
        Fault::of(answer.fault, answer.count)?;
        Ok((answer.what, answer.count))
    }
}

impl Drop for Handle {
    fn drop(&mut self) {
        if self.ask(5, &mut []).is_ok() {
            // SAFETY: what the handle led to is freed, and its block is nobody else's.
            unsafe { rattle_dealloc(self.at.as_ptr()) }
        }
    }
}
