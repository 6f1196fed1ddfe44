//! Why a call was refused.

use core::fmt;

/// Why a call was refused, by its number of `docs/FAULTS.md`.
#[derive(Clone, Copy, Debug, PartialEq, Eq)]
#[non_exhaustive]
pub enum Fault {
    /// Too few slots are free (E30): try again once the other side took and acknowledged.
    Full,
    /// A ring can't have this number of slots (E32).
    BadSize,
    /// The ring has carried 2^62 fragments (E33): make a new one.
    Spent,
    /// A call is in transmission (E40).
    Busy,
    /// The interface has no such message (E41).
    UnknownMessage,
    /// The tape is that of no call of the message, or two messages' types differ (E42).
    Misfit,
    /// A fragment can't follow those before it (E60 to E66). Of an end: it has failed for good.
    Failed(u32),
    /// The bytes are no image (E80 to E85).
    Image(u32),
    /// Out of memory (E99).
    Memory,
    /// There is room for too few numbers: so many are wanted.
    ShortRoom(usize),
    /// A call that was received is to be read first.
    Unread,
    /// Another number: the archive isn't of this crate's version.
    Other(u32),
}

/// A fault of an interface's text: its number, 1 to 21, and where it stands in the text.
#[derive(Clone, Copy, Debug, PartialEq, Eq)]
pub struct TextFault {
    /// The number.
    pub number: u32,
    /// How many bytes from the text's start.
    pub offset: usize,
}

impl TextFault {
    pub(crate) fn of(number: u32, place: u64) -> Option<TextFault> {
        let offset = place as usize;
        (1..=21).contains(&number).then_some(TextFault { number, offset })
    }
}

impl Fault {
    pub(crate) fn of(number: u32, count: u64) -> Result<(), Fault> {
        Err(match number {
            0 => return Ok(()),
            30 => Fault::Full,
            32 => Fault::BadSize,
            33 => Fault::Spent,
            40 => Fault::Busy,
            41 => Fault::UnknownMessage,
            42 => Fault::Misfit,
            60..=66 => Fault::Failed(number),
            80..=85 => Fault::Image(number),
            99 => Fault::Memory,
            103 => Fault::ShortRoom(count as usize),
            105 => Fault::Unread,
            other => Fault::Other(other),
        })
    }

    /// The fault's number.
    pub fn number(self) -> u32 {
        match self {
            Fault::Full => 30,
            Fault::BadSize => 32,
            Fault::Spent => 33,
            Fault::Busy => 40,
            Fault::UnknownMessage => 41,
            Fault::Misfit => 42,
            Fault::Failed(number) | Fault::Image(number) | Fault::Other(number) => number,
            Fault::Memory => 99,
            Fault::ShortRoom(_) => 103,
            Fault::Unread => 105,
        }
    }
}

impl fmt::Display for Fault {
    fn fmt(&self, to: &mut fmt::Formatter<'_>) -> fmt::Result {
        match self {
            Fault::Full => to.write_str("too few slots are free"),
            Fault::BadSize => to.write_str("a ring can't have this number of slots"),
            Fault::Spent => to.write_str("the ring has carried as many fragments as it can count"),
            Fault::Busy => to.write_str("a call is in transmission"),
            Fault::UnknownMessage => to.write_str("no such message"),
            Fault::Misfit => to.write_str("the arguments don't fit"),
            Fault::Failed(_) => to.write_str("a fragment that can't follow those before it"),
            Fault::Image(_) => to.write_str("not an image"),
            Fault::Memory => to.write_str("out of memory"),
            Fault::ShortRoom(wanted) => write!(to, "there is no room for {wanted} numbers"),
            Fault::Unread => to.write_str("a call is to be read first"),
            Fault::Other(number) => write!(to, "the archive answered {number}"),
        }
    }
}

impl core::error::Error for Fault {}

impl fmt::Display for TextFault {
    fn fmt(&self, to: &mut fmt::Formatter<'_>) -> fmt::Result {
        write!(to, "E{} at byte {} of the text", self.number, self.offset)
    }
}

impl core::error::Error for TextFault {}
