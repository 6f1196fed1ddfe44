//! A ring of two directions in plain Rust, in the proved ring's own form: a table of words, in which a control word tells by its epoch whether a
//! fragment stands there, and in bits 48 to 63 how many fragments its writer has taken.

use crate::calls::Frag;

/// What stands first.
pub enum Sight {
    Empty,
    Acknowledgement,
    Data(Frag),
}

struct Cursor {
    index: u64,
    epoch: u64,
    place: usize,
    slots: usize,
}

impl Cursor {
    fn new(slots: usize) -> Cursor {
        Cursor { index: 0, epoch: 1, place: 0, slots }
    }

    #[inline]
    fn advance(&mut self) {
        self.index += 1;
        self.place += 1;
        if self.place == self.slots {
            self.place = 0;
            self.epoch = 1 - self.epoch;
        }
    }
}

struct Half {
    base: usize,
    other: usize,
    put: Cursor,
    take: Cursor,
    known: u64,
    told: u64,
}

impl Half {
    fn new(base: usize, other: usize, slots: usize) -> Half {
        Half { base, other, put: Cursor::new(slots), take: Cursor::new(slots), known: 0, told: 0 }
    }
}

pub struct Duo {
    words: Vec<u64>,
    halves: [Half; 2],
}

// The count that 16 bits of it name, not below one that is known.
fn count_from(known: u64, told: u16) -> u64 {
    known + u64::from(told.wrapping_sub(known as u16))
}

fn only_acknowledges(frag: &Frag) -> bool {
    frag.control / 2 % (1 << 47) == 2 && frag.words.iter().all(|word| *word == 0)
}

impl Duo {
    pub fn new(slots: usize) -> Duo {
        Duo { words: vec![0; 16 * slots], halves: [Half::new(0, 8 * slots, slots), Half::new(8 * slots, 0, slots)] }
    }

    #[inline]
    fn look(&mut self, side: usize) -> Option<Frag> {
        let half = &mut self.halves[side];
        let slot = &self.words[half.other + 8 * half.take.place..][..8];
        if slot[7] % 2 != half.take.epoch {
            return None;
        }
        let frag = Frag { words: slot[..7].try_into().unwrap(), control: slot[7] };
        half.known = count_from(half.known, (frag.control >> 48) as u16);
        Some(frag)
    }

    #[inline]
    fn free(&self, side: usize) -> u64 {
        let half = &self.halves[side];
        half.put.slots as u64 + half.known - half.put.index
    }

    #[inline]
    fn write(&mut self, side: usize, frag: &Frag) {
        let half = &mut self.halves[side];
        let slot = &mut self.words[half.base + 8 * half.put.place..][..8];
        slot[..7].copy_from_slice(&frag.words);
        slot[7] = frag.control / 2 % (1 << 47) * 2 + half.put.epoch + (half.take.index % 65_536 << 48);
        half.put.advance();
        half.told = half.take.index;
    }

    /// Whether there was room.
    #[inline]
    pub fn put(&mut self, side: usize, frag: &Frag) -> bool {
        if self.free(side) < 2 {
            self.look(side);
            if self.free(side) < 2 {
                return false;
            }
        }
        self.write(side, frag);
        true
    }

    #[inline]
    pub fn peek(&mut self, side: usize) -> Sight {
        match self.look(side) {
            None => Sight::Empty,
            Some(frag) if only_acknowledges(&frag) => Sight::Acknowledgement,
            Some(frag) => Sight::Data(frag),
        }
    }

    #[inline]
    pub fn take(&mut self, side: usize) -> Sight {
        let sight = self.peek(side);
        if !matches!(sight, Sight::Empty) {
            self.halves[side].take.advance();
        }
        sight
    }

    /// Tells what was taken, where that is half of the slots.
    #[inline]
    pub fn tell(&mut self, side: usize) {
        let half = &self.halves[side];
        if half.take.index - half.told < half.take.slots as u64 / 2 {
            return;
        }
        if self.free(side) < 1 {
            self.look(side);
            if self.free(side) < 1 {
                return;
            }
        }
        self.write(side, &Frag { words: [0; 7], control: 4 });
    }
}
