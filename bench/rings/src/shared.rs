//! Plain rings of sequentially consistent words between two threads, by the same steps as the proved
//! ones: nothing proved.

use crate::plain::{fragment, only_acknowledges, sum_of, Cursor, Queue};
use std::sync::{
    atomic::{AtomicU64, Ordering::SeqCst},
    Arc,
};

/// What a look at a slot finds.
pub enum Sight {
    Data([u64; 8]),
    Acknowledgement,
    Empty,
}

/// The words that two sides share, where the allocator puts them.
struct Table {
    words: Box<[AtomicU64]>,
}

impl Table {
    fn new(words: usize) -> Arc<Table> {
        let words = (0..words).map(|_| AtomicU64::new(0)).collect();
        Arc::new(Table { words })
    }

    #[inline]
    fn word(&self, at: usize) -> &AtomicU64 {
        &self.words[at]
    }

    #[inline]
    fn slot(&self, at: usize) -> &[AtomicU64] {
        &self.words[at..][..8]
    }

    /// Stores the payload words first, each where another number stands, and the control word last.
    #[inline]
    fn write(&self, first: usize, words: &[u64; 8], epoch: u64, told: u64) {
        let slot = self.slot(first);
        for k in 0..7 {
            if slot[k].load(SeqCst) != words[k] {
                slot[k].store(words[k], SeqCst);
            }
        }
        let body = words[7] / 2 % (1 << 47) * 2;
        slot[7].store(body + epoch + (told << 48), SeqCst);
    }

    /// The fragment that stands in the slot, if its epoch is the one that is due.
    #[inline]
    fn read(&self, first: usize, due: u64) -> Option<[u64; 8]> {
        let slot = self.slot(first);
        let control = slot[7].load(SeqCst);
        if control % 2 != due {
            return None;
        }
        let mut words = [0; 8];
        for k in 0..7 {
            words[k] = slot[k].load(SeqCst);
        }
        words[7] = control;
        Some(words)
    }
}

#[inline]
fn sight(words: [u64; 8]) -> Sight {
    if only_acknowledges(&words) {
        return Sight::Acknowledgement;
    }
    Sight::Data(words)
}

/// The side of a ring of one direction that puts.
pub struct Sender {
    table: Arc<Table>,
    slots: u64,
    put: Cursor,
    known: u64,
}

/// The side that takes.
pub struct Receiver {
    table: Arc<Table>,
    slots: u64,
    take: Cursor,
}

pub fn ring(slots: usize) -> (Sender, Receiver) {
    // behind the number told stands nothing on its cache line
    let table = Table::new(8 * slots + 8);
    let sender = Sender {
        table: table.clone(),
        slots: slots as u64,
        put: Cursor::new(slots),
        known: 0,
    };
    let receiver = Receiver {
        table,
        slots: slots as u64,
        take: Cursor::new(slots),
    };
    (sender, receiver)
}

impl Sender {
    /// Whether there was room. The number told is loaded only where what is known leaves none.
    #[inline]
    pub fn put(&mut self, words: &[u64; 8]) -> bool {
        if self.put.index == self.known + self.slots {
            self.known = self.table.word(8 * self.slots as usize).load(SeqCst);
            if self.put.index == self.known + self.slots {
                return false;
            }
        }
        self.table.write(self.put.word(), words, self.put.epoch, 0);
        self.put.advance();
        true
    }
}

impl Receiver {
    #[inline]
    pub fn take(&mut self) -> Sight {
        match self.table.read(self.take.word(), self.take.epoch) {
            None => Sight::Empty,
            Some(words) => {
                self.take.advance();
                sight(words)
            }
        }
    }

    #[inline]
    pub fn tell(&mut self) {
        self.table
            .word(8 * self.slots as usize)
            .store(self.take.index, SeqCst);
    }
}

/// A side of a ring of two directions, whose acknowledgements ride in control words.
pub struct Side {
    table: Arc<Table>,
    base: usize,
    other: usize,
    slots: u64,
    put: Cursor,
    take: Cursor,
    known: u64,
    told: u64,
}

pub fn duo(slots: usize) -> (Side, Side) {
    let table = Table::new(16 * slots);
    let side = |base, other| Side {
        table: table.clone(),
        base,
        other,
        slots: slots as u64,
        put: Cursor::new(slots),
        take: Cursor::new(slots),
        known: 0,
        told: 0,
    };
    (side(0, 8 * slots), side(8 * slots, 0))
}

impl Side {
    /// The first count from the known one on that agrees with the number told.
    #[inline]
    fn learn(&mut self, control: u64) {
        let number = control >> 48;
        self.known += (number + 65_536 - self.known % 65_536) % 65_536;
    }

    #[inline]
    fn free(&self) -> u64 {
        self.slots + self.known - self.put.index
    }

    #[inline]
    fn has_free(&mut self, need: u64) -> bool {
        if self.free() >= need {
            return true;
        }
        let control = self
            .table
            .word(self.other + self.take.word() + 7)
            .load(SeqCst);
        if control % 2 == self.take.epoch {
            self.learn(control);
        }
        self.free() >= need
    }

    #[inline]
    fn write(&mut self, words: &[u64; 8]) {
        let taken = self.take.index;
        let first = self.base + self.put.word();
        self.table
            .write(first, words, self.put.epoch, taken % 65_536);
        self.put.advance();
        self.told = taken;
    }

    #[inline]
    pub fn put(&mut self, words: &[u64; 8]) -> bool {
        let has_room = self.has_free(2);
        if has_room {
            self.write(words);
        }
        has_room
    }

    /// What stands first. It is left there.
    #[inline]
    pub fn peek(&mut self) -> Sight {
        let first = self.other + self.take.word();
        match self.table.read(first, self.take.epoch) {
            None => Sight::Empty,
            Some(words) => {
                self.learn(words[7]);
                sight(words)
            }
        }
    }

    /// Takes what a peek has seen.
    #[inline]
    pub fn skip(&mut self) {
        self.take.advance();
    }

    #[inline]
    pub fn take(&mut self) -> Sight {
        let seen = self.peek();
        if !matches!(seen, Sight::Empty) {
            self.skip();
        }
        seen
    }

    /// Tells what was taken, where that is at least half of the slots and there is room to.
    #[inline]
    pub fn tell(&mut self) {
        if self.take.index - self.told >= self.slots / 2 && self.has_free(1) {
            self.write(&[0, 0, 0, 0, 0, 0, 0, 4]);
        }
    }
}

/// Both sides of a ring in one thread.
pub struct BothSides {
    tx: Sender,
    rx: Receiver,
}

impl Queue for BothSides {
    fn new(slots: usize) -> BothSides {
        let (tx, rx) = ring(slots);
        BothSides { tx, rx }
    }

    #[inline]
    fn put(&mut self, words: &[u64; 8]) -> bool {
        self.tx.put(words)
    }

    #[inline]
    fn take(&mut self) -> Option<[u64; 8]> {
        match self.rx.take() {
            Sight::Data(words) => Some(words),
            _ => None,
        }
    }

    #[inline]
    fn tell(&mut self) {
        self.rx.tell();
    }
}

#[inline]
fn batch_through(from: &mut Side, to: &mut Side, round: u64, batch: u64) -> u64 {
    for k in 0..batch {
        from.put(&fragment(round.wrapping_add(k)));
    }
    let mut sum: u64 = 0;
    for _ in 0..batch {
        if let Sight::Data(words) = to.take() {
            sum = sum.wrapping_add(sum_of(&words));
        }
    }
    sum
}

/// Batches both ways through a ring of two directions, both of whose sides are in one thread.
#[inline(never)]
pub fn both_ways(slots: usize, rounds: u64, batch: u64) -> u64 {
    let (mut one, mut two) = duo(slots);
    let mut sum: u64 = 0;
    for round in 0..rounds {
        sum = sum.wrapping_add(batch_through(&mut one, &mut two, round, batch));
        sum = sum.wrapping_add(batch_through(&mut two, &mut one, round, batch));
    }
    sum
}
