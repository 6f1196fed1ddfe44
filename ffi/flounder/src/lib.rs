//! The proved rings, ends and stubs of `fl_c`, for Rust on `core` alone.
//!
//! [`duo`] makes a ring of two directions and gives its two [`Side`]s; [`ends_of_text`] and [`ends_of_image`]
//! make both [`End`]s of an interface over a ring; a [`Program`] makes [`Sender`]s and [`Receiver`]s, for fragments
//! that go by a transport of one's own. Each may go to another thread, and can't be shared or
//! copied, so what the archive asks of a caller (one call at a time at one handle, and none after it was
//! freed) holds by the types. Nothing here waits. Makers take memory, and ends do for their calls.
#![no_std]
#![warn(missing_docs)]

mod end;
mod fault;
mod handle;
mod program;
mod side;

pub use end::{ends_of_image, ends_of_text, End, Plan, Received, Taken, Written};
pub use fault::{Fault, TextFault};
pub use program::{program_of_image, program_of_text, Fed, Program, Receiver, Sender, Sizes};
pub use side::{duo, Fragment, Side, Sight};
