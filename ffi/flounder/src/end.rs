//! Ends of a binding.

use crate::fault::{Fault, TextFault};
use crate::handle::{
    flounder_call, flounder_make_image_ends, flounder_make_text_ends, flounder_read,
    flounder_receive, flounder_send, flounder_take_call, flounder_write, Handle,
};
use core::ptr;

/// Which of the two plans lays calls out.
#[derive(Clone, Copy, Debug, PartialEq, Eq)]
pub enum Plan {
    /// Arguments in declared order.
    One,
    /// Fixed arguments first, in falling alignment.
    Two,
}

impl Plan {
    pub(crate) fn number(self) -> u32 {
        match self {
            Plan::One => 1,
            Plan::Two => 2,
        }
    }
}

/// What a write came to.
#[derive(Clone, Copy, Debug, PartialEq, Eq)]
pub enum Written {
    /// A fragment was put, and so many of its call's follow.
    Fragment {
        /// How many follow.
        left: u64,
    },
    /// There was no room.
    Full,
    /// No call is in transmission.
    Nothing,
}

/// What a receive came to.
#[derive(Clone, Copy, Debug, PartialEq, Eq)]
pub enum Received {
    /// A call is whole: read it before the next receive.
    Call,
    /// A fragment of a call that isn't whole yet.
    Part,
    /// A fragment that only acknowledges.
    Acknowledgement,
    /// Nothing stands there.
    Empty,
    /// The end has a reply rule, and 16 replies are to be written first.
    HeldBack,
}

/// What a receive with a read came to.
#[derive(Clone, Copy, Debug, PartialEq, Eq)]
pub enum Taken<'a> {
    /// A call: its message's number, and its tape.
    Call(&'a [u64]),
    /// A fragment of a call that isn't whole yet.
    Part,
    /// A fragment that only acknowledges.
    Acknowledgement,
    /// Nothing stands there.
    Empty,
    /// The end has a reply rule, and 16 replies are to be written first.
    HeldBack,
}

/// An end: calls of an interface go out of it and come to it. It owns its side of a ring.
#[derive(Debug)]
pub struct End {
    handle: Handle,
}

/// Makes both ends of the interface that a text stands for, over a new ring.
///
/// # Errors
/// The text's first fault within, if it has one; [`Fault::BadSize`], [`Fault::Memory`].
pub fn ends_of_text(
    text: &str,
    plan: Plan,
    slots: usize,
) -> Result<Result<(End, End), TextFault>, Fault> {
    let (mut one, mut two, mut place) = (ptr::null_mut(), ptr::null_mut(), 0);
    // SAFETY: the text is a slice's, and the places are ours, and differ.
    let number = unsafe {
        flounder_make_text_ends(
            text.as_ptr(),
            text.len(),
            plan.number(),
            slots,
            &mut one,
            &mut two,
            &mut place,
        )
    };
    if let Some(fault) = TextFault::of(number, place) {
        return Ok(Err(fault));
    }
    let (one, two) = Handle::both(number, one, two)?;
    Ok(Ok((End { handle: one }, End { handle: two })))
}

/// Makes both ends of the program of an image, which `flounder compile` writes, over a new ring.
///
/// # Errors
/// [`Fault::Image`], [`Fault::BadSize`], [`Fault::Memory`].
pub fn ends_of_image(image: &[u8], slots: usize) -> Result<(End, End), Fault> {
    let (mut one, mut two) = (ptr::null_mut(), ptr::null_mut());
    // SAFETY: the image is a slice, and the places are ours, and differ.
    let number = unsafe {
        flounder_make_image_ends(image.as_ptr(), image.len(), slots, &mut one, &mut two)
    };
    let (one, two) = Handle::both(number, one, two)?;
    Ok((End { handle: one }, End { handle: two }))
}

impl End {
    /// Makes a call: the message's number, and then its tape. The numbers stay as they are.
    ///
    /// # Errors
    /// [`Fault::UnknownMessage`], [`Fault::Misfit`], [`Fault::Busy`], [`Fault::Failed`], [`Fault::Memory`].
    pub fn call(&mut self, call: &mut [u64]) -> Result<(), Fault> {
        self.handle.ask_by(flounder_call, call)?;
        Ok(())
    }

    /// Puts the next fragment of the call in transmission.
    ///
    /// # Errors
    /// [`Fault::Spent`], [`Fault::Failed`].
    pub fn write(&mut self) -> Result<Written, Fault> {
        Ok(match self.handle.ask_by(flounder_write, &mut [])? {
            (0, _) => Written::Nothing,
            (1, left) => Written::Fragment { left },
            _ => Written::Full,
        })
    }

    /// Takes a fragment.
    ///
    /// # Errors
    /// [`Fault::Unread`], [`Fault::Failed`], [`Fault::Memory`]: then ask again.
    pub fn receive(&mut self) -> Result<Received, Fault> {
        Ok(match self.handle.ask_by(flounder_receive, &mut [])? {
            (0, _) => Received::Empty,
            (1, _) => Received::Part,
            (2, _) => Received::Acknowledgement,
            (3, _) => Received::HeldBack,
            _ => Received::Call,
        })
    }

    /// Reads the call that was received into a room: its message's number, and its tape. None if there is
    /// none.
    ///
    /// # Errors
    /// [`Fault::ShortRoom`], [`Fault::Memory`]: the call stays.
    pub fn read<'a>(&mut self, room: &'a mut [u64]) -> Result<Option<&'a [u64]>, Fault> {
        match self.handle.ask_by(flounder_read, room)? {
            (1, count) => Ok(room.get(..count as usize)),
            _ => Ok(None),
        }
    }

    /// Makes a call, as [`End::call`] does, and puts its first fragment, as [`End::write`] does: both in one, for speed.
    ///
    /// # Errors
    /// Those of [`End::call`], which makes no call then; [`Fault::Spent`]: the call is in transmission, and nothing of it is
    /// put.
    pub fn send(&mut self, call: &mut [u64]) -> Result<Written, Fault> {
        Ok(match self.handle.ask_by(flounder_send, call)? {
            (1, left) => Written::Fragment { left },
            _ => Written::Full,
        })
    }

    /// Takes a fragment, as [`End::receive`] does, and reads the call that it makes whole into a room, as [`End::read`] does:
    /// both in one, for speed.
    ///
    /// # Errors
    /// Those of [`End::receive`]. [`Fault::ShortRoom`], or [`Fault::Memory`] with [`Fault::Unread`] at the next receive: a call
    /// was taken, and stays until it is read.
    pub fn take_call<'a>(&mut self, room: &'a mut [u64]) -> Result<Taken<'a>, Fault> {
        Ok(match self.handle.ask_by(flounder_take_call, room)? {
            (0, _) => Taken::Empty,
            (1, _) => Taken::Part,
            (2, _) => Taken::Acknowledgement,
            (3, _) => Taken::HeldBack,
            (_, count) => Taken::Call(room.get(..count as usize).unwrap_or_default()),
        })
    }

    /// From now on each call of `message` that comes is answered by `reply` with the same arguments.
    ///
    /// # Errors
    /// [`Fault::UnknownMessage`], [`Fault::Misfit`].
    pub fn reply_rule(&mut self, message: u16, reply: u16) -> Result<(), Fault> {
        self.handle.ask(10, &mut [message.into(), reply.into()])?;
        Ok(())
    }

    /// Whether a call is in transmission.
    ///
    /// # Errors
    /// None of this archive's.
    pub fn is_busy(&mut self) -> Result<bool, Fault> {
        let (busy, _) = self.handle.ask(11, &mut [])?;
        Ok(busy == 1)
    }

    /// Acknowledges what was taken, as [`Side::tell`](crate::Side::tell).
    ///
    /// # Errors
    /// [`Fault::Full`].
    pub fn tell(&mut self) -> Result<bool, Fault> {
        let (told, _) = self.handle.ask(4, &mut [])?;
        Ok(told == 1)
    }
}
