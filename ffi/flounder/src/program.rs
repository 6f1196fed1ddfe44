//! Programs, and stubs alone.

use crate::end::Plan;
use crate::fault::{Fault, TextFault};
use crate::handle::{
    flounder_call, flounder_make_image_program, flounder_make_text_program, flounder_read, Handle,
};
use crate::side::Fragment;
use core::ptr;

/// How long the calls of a message are at most.
#[derive(Clone, Copy, Debug, PartialEq, Eq)]
pub struct Sizes {
    /// So many numbers, the message's among them.
    pub numbers: usize,
    /// So many bytes of payload, 56 of which a fragment has.
    pub bytes: usize,
}

/// What a feed came to.
#[derive(Clone, Copy, Debug, PartialEq, Eq)]
pub enum Fed {
    /// The call goes on.
    Part,
    /// A call is whole: read it before the next feed.
    Call,
}

/// An interface, compiled under a plan.
#[derive(Debug)]
pub struct Program {
    handle: Handle,
}

/// A send run: calls go in, and fragments come out.
#[derive(Debug)]
pub struct Sender {
    handle: Handle,
}

/// A receive run: fragments go in, and calls come out.
#[derive(Debug)]
pub struct Receiver {
    handle: Handle,
}

/// Makes the program of the interface that a text stands for.
///
/// # Errors
/// The text's first fault within, if it has one; [`Fault::Memory`].
pub fn program_of_text(text: &str, plan: Plan) -> Result<Result<Program, TextFault>, Fault> {
    let (mut at, mut place) = (ptr::null_mut(), 0);
    // SAFETY: the text is a slice's, and the places are ours, and differ.
    let number = unsafe {
        flounder_make_text_program(text.as_ptr(), text.len(), plan.number(), &mut at, &mut place)
    };
    if let Some(fault) = TextFault::of(number, place) {
        return Ok(Err(fault));
    }
    let handle = Handle::one(number, at)?;
    Ok(Ok(Program { handle }))
}

/// Makes the program of an image, which `flounder compile` writes.
///
/// # Errors
/// [`Fault::Image`], [`Fault::Memory`].
pub fn program_of_image(image: &[u8]) -> Result<Program, Fault> {
    let mut at = ptr::null_mut();
    // SAFETY: the image is a slice, and the place is ours.
    let number = unsafe { flounder_make_image_program(image.as_ptr(), image.len(), &mut at) };
    let handle = Handle::one(number, at)?;
    Ok(Program { handle })
}

impl Program {
    /// How many messages there are: their numbers are 0 to one less.
    ///
    /// # Errors
    /// None of this archive's.
    pub fn messages(&mut self) -> Result<usize, Fault> {
        let (_, count) = self.handle.ask(12, &mut [])?;
        Ok(count as usize)
    }

    /// How long the calls of a message are at most.
    ///
    /// # Errors
    /// [`Fault::UnknownMessage`].
    pub fn sizes(&mut self, message: u16) -> Result<Sizes, Fault> {
        let (bytes, tape) = self.handle.ask(13, &mut [message.into()])?;
        Ok(Sizes { numbers: tape as usize + 1, bytes: bytes as usize })
    }

    /// A send run, which may outlive the program.
    ///
    /// # Errors
    /// [`Fault::Memory`].
    pub fn sender(&self) -> Result<Sender, Fault> {
        let handle = self.handle.run(1)?;
        Ok(Sender { handle })
    }

    /// A receive run, which may outlive the program.
    ///
    /// # Errors
    /// [`Fault::Memory`].
    pub fn receiver(&self) -> Result<Receiver, Fault> {
        let handle = self.handle.run(2)?;
        Ok(Receiver { handle })
    }
}

impl Sender {
    /// Begins a call: the message's number, and then its tape. The numbers stay as they are.
    ///
    /// # Errors
    /// [`Fault::Busy`]: fragments of another are left. [`Fault::UnknownMessage`], [`Fault::Misfit`],
    /// [`Fault::Memory`].
    pub fn start(&mut self, call: &mut [u64]) -> Result<(), Fault> {
        self.handle.ask_by(flounder_call, call)?;
        Ok(())
    }
}

/// The call's fragments, one after another.
impl Iterator for Sender {
    type Item = Fragment;

    fn next(&mut self) -> Option<Fragment> {
        let mut fragment = [0; 8];
        match self.handle.ask(14, &mut fragment) {
            Ok((1, _)) => Some(fragment),
            _ => None,
        }
    }
}

impl Receiver {
    /// Feeds a fragment.
    ///
    /// # Errors
    /// [`Fault::Failed`]: it can't follow those before it, and nothing has changed. [`Fault::Unread`].
    pub fn feed(&mut self, fragment: &Fragment) -> Result<Fed, Fault> {
        let mut numbers = *fragment;
        Ok(match self.handle.ask(15, &mut numbers)? {
            (1, _) => Fed::Part,
            _ => Fed::Call,
        })
    }

    /// Reads the call that became whole into a room, as [`End::read`](crate::End::read).
    ///
    /// # Errors
    /// [`Fault::ShortRoom`], [`Fault::Memory`]: the call stays.
    pub fn read<'a>(&mut self, room: &'a mut [u64]) -> Result<Option<&'a [u64]>, Fault> {
        match self.handle.ask_by(flounder_read, room)? {
            (1, count) => Ok(room.get(..count as usize)),
            _ => Ok(None),
        }
    }
}
