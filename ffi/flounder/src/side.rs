//! Sides of rings.

use crate::fault::Fault;
use crate::handle::{flounder_make, flounder_put, flounder_take, Handle};
use core::ptr;

/// Seven words and a control word, whose bits 0 and 48 to 63 the ring writes anew.
pub type Fragment = [u64; 8];

/// What a look found.
#[derive(Clone, Copy, Debug, PartialEq, Eq)]
pub enum Sight {
    /// A fragment of a call.
    Data(Fragment),
    /// A fragment that only acknowledges.
    Acknowledgement,
    /// Nothing stands there.
    Empty,
}

/// A side of a ring: it puts into one direction and takes from the other.
#[derive(Debug)]
pub struct Side {
    handle: Handle,
}

/// Makes a ring with so many slots each way, a power of two from 4 to 1,024.
///
/// # Errors
/// [`Fault::BadSize`], [`Fault::Memory`].
pub fn duo(slots: usize) -> Result<(Side, Side), Fault> {
    let (mut one, mut two) = (ptr::null_mut(), ptr::null_mut());
    // SAFETY: both places are ours, and differ.
    let number = unsafe { flounder_make(slots, &mut one, &mut two) };
    let (one, two) = Handle::both(number, one, two)?;
    Ok((Side { handle: one }, Side { handle: two }))
}

/// What a look came to, which wrote a fragment's numbers if it found one.
fn sight(answer: Result<(u32, u64), Fault>, fragment: Fragment) -> Sight {
    match answer {
        Ok((1, _)) => Sight::Data(fragment),
        Ok((2, _)) => Sight::Acknowledgement,
        _ => Sight::Empty,
    }
}

impl Side {
    /// Puts a fragment.
    ///
    /// # Errors
    /// [`Fault::Full`], [`Fault::Spent`]; [`Fault::Failed`] (E63) where the fragment only acknowledges.
    pub fn put(&mut self, fragment: &Fragment) -> Result<(), Fault> {
        let mut numbers = *fragment;
        self.handle.ask_on(flounder_put, &mut numbers)?;
        Ok(())
    }

    /// Takes what stands first. Its slot is free for the other side once it is acknowledged: by a put back,
    /// or by [`Side::tell`].
    pub fn take(&mut self) -> Sight {
        let mut fragment = [0; 8];
        let answer = self.handle.ask_on(flounder_take, &mut fragment);
        sight(answer, fragment)
    }

    /// What [`Side::take`] would take, which is left there.
    pub fn peek(&mut self) -> Sight {
        let mut fragment = [0; 8];
        let answer = self.handle.ask(3, &mut fragment);
        sight(answer, fragment)
    }

    /// Acknowledges what was taken, where at least half of the slots are taken and not acknowledged; says
    /// whether it did.
    ///
    /// # Errors
    /// [`Fault::Full`]: there is something to tell, and no slot is free for it.
    pub fn tell(&mut self) -> Result<bool, Fault> {
        let (told, _) = self.handle.ask(4, &mut [])?;
        Ok(told == 1)
    }
}
