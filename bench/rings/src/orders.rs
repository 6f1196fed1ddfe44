//! Plain rings in the form of `shared.rs`, by other orderings and with several fragments at a time: what
//! an all sequentially consistent ring could gain. Nothing is proved, and not all of it could be.

use crate::plain::{only_acknowledges, Cursor};
use std::marker::PhantomData;
use std::sync::{
    atomic::{
        AtomicU64,
        Ordering::{self, Acquire, Relaxed, Release, SeqCst},
    },
    Arc,
};

/// How a ring's words are stored and loaded.
pub trait Form: Send + Sync {
    /// By what ordering a payload word is stored, and loaded.
    const WORD: (Ordering, Ordering) = (SeqCst, SeqCst);
    /// The same of a control word and of the number told.
    const CONTROL: (Ordering, Ordering) = (SeqCst, SeqCst);
    /// Whether the control words stand in a block of their own.
    const APART: bool = false;
    /// Whether a payload word is stored only where another number stands.
    const SPARING: bool = false;
    /// How many payload words of a fragment are used. The others are zero.
    const USED: usize = 7;
}

/// All sequentially consistent, as the proved rings are.
pub struct Sequential;

impl Form for Sequential {}

/// Acquire and release: what such a ring needs.
pub struct Released;

impl Form for Released {
    const WORD: (Ordering, Ordering) = (Relaxed, Relaxed);
    const CONTROL: (Ordering, Ordering) = (Release, Acquire);
}

/// Only control words and the number told are sequentially consistent.
pub struct Mixed;

impl Form for Mixed {
    const WORD: (Ordering, Ordering) = (Relaxed, Relaxed);
}

/// The same with the control words apart, as a table's slots stand apart from its words.
pub struct Slots;

impl Form for Slots {
    const WORD: (Ordering, Ordering) = (Relaxed, Relaxed);
    const APART: bool = true;
}

/// All sequentially consistent, and a payload word is stored only where it differs; so many are used.
pub struct Sparing<const USED: usize>;

impl<const USED: usize> Form for Sparing<USED> {
    const SPARING: bool = true;
    const USED: usize = USED;
}

/// The fragment whose payload words are this one, as far as they are used.
#[inline]
fn fragment<F: Form>(v: u64) -> [u64; 8] {
    let mut words = [0, 0, 0, 0, 0, 0, 0, 2];
    for k in 0..F::USED {
        words[k] = v;
    }
    words
}

/// The words that two sides share.
struct Table<F> {
    words: Box<[AtomicU64]>,
    /// The control words, where they stand apart.
    controls: Box<[AtomicU64]>,
    slots: usize,
    form: PhantomData<F>,
}

fn zeros(words: usize) -> Box<[AtomicU64]> {
    (0..words).map(|_| AtomicU64::new(0)).collect()
}

impl<F: Form> Table<F> {
    /// A table of so many ways of so many slots, and behind them the number told, alone on its line.
    fn new(ways: usize, slots: usize) -> Arc<Table<F>> {
        let words = zeros(8 * ways * slots + 8);
        let controls = zeros(if F::APART { ways * slots } else { 0 });
        Arc::new(Table {
            words,
            controls,
            slots,
            form: PhantomData,
        })
    }

    /// The number told of a table of one way.
    #[inline]
    fn told(&self) -> &AtomicU64 {
        &self.words[8 * self.slots]
    }

    /// The payload words of the slot that begins at this word, and its control word.
    #[inline]
    fn slot(&self, first: usize) -> (&[AtomicU64], &AtomicU64) {
        let slot = &self.words[first..][..8];
        let control = if F::APART {
            &self.controls[first / 8]
        } else {
            &slot[7]
        };
        (&slot[..7], control)
    }

    /// The first word and the epoch of the slot that is so many places on.
    #[inline]
    fn ahead(&self, cursor: &Cursor, places: usize) -> (usize, u64) {
        let word = cursor.word() + 8 * places;
        let end = 8 * self.slots;
        if places == 0 || word < end {
            (word, cursor.epoch)
        } else {
            (word - end, 1 - cursor.epoch)
        }
    }

    #[inline]
    fn write_payload(&self, first: usize, words: &[u64; 8]) {
        let (slot, _) = self.slot(first);
        for k in 0..7 {
            if !F::SPARING || slot[k].load(F::WORD.1) != words[k] {
                slot[k].store(words[k], F::WORD.0);
            }
        }
    }

    #[inline]
    fn write_control(&self, first: usize, control: u64, epoch: u64, told: u64) {
        let body = control / 2 % (1 << 47) * 2;
        let (_, word) = self.slot(first);
        word.store(body + epoch + (told << 48), F::CONTROL.0);
    }

    /// Puts the `K` fragments from this number on: the payload words of all first, and then all control words.
    #[inline]
    fn put<const K: usize>(&self, base: usize, cursor: &mut Cursor, from: u64, told: u64) {
        for k in 0..K {
            let (first, _) = self.ahead(cursor, k);
            self.write_payload(base + first, &fragment::<F>(from + k as u64));
        }
        for k in 0..K {
            let control = fragment::<F>(from + k as u64)[7];
            self.write_control(base + cursor.word(), control, cursor.epoch, told);
            cursor.advance();
        }
    }

    /// Looks at the control word of the `K`th slot from here on; where its fragment is there, all before it
    /// are, and `K` are taken. Gives that control word, and each fragment that doesn't only acknowledge.
    #[inline]
    fn take<const K: usize>(
        &self,
        base: usize,
        cursor: &mut Cursor,
        mut each: impl FnMut(&[u64; 8]),
    ) -> Option<u64> {
        let (first, epoch) = self.ahead(cursor, K - 1);
        let last = self.slot(base + first).1.load(F::CONTROL.1);
        if last % 2 != epoch {
            return None;
        }
        for k in 0..K {
            let (slot, control) = self.slot(base + cursor.word());
            let mut words = [0; 8];
            for k in 0..7 {
                words[k] = slot[k].load(F::WORD.1);
            }
            words[7] = if k == K - 1 {
                last
            } else {
                control.load(F::WORD.1)
            };
            cursor.advance();
            if !only_acknowledges(&words) {
                each(&words);
            }
        }
        Some(last)
    }
}

/// The side of a ring of one direction that puts.
pub struct Sender<F> {
    table: Arc<Table<F>>,
    put: Cursor,
    known: u64,
}

/// The side that takes.
pub struct Receiver<F> {
    table: Arc<Table<F>>,
    take: Cursor,
}

pub fn ring<F: Form>(slots: usize) -> (Sender<F>, Receiver<F>) {
    let table = Table::new(1, slots);
    let sender = Sender {
        table: table.clone(),
        put: Cursor::new(slots),
        known: 0,
    };
    let take = Cursor::new(slots);
    (sender, Receiver { table, take })
}

impl<F: Form> Sender<F> {
    #[inline]
    fn has_room(&mut self, need: u64) -> bool {
        let slots = self.table.slots as u64;
        if self.put.index + need <= self.known + slots {
            return true;
        }
        self.known = self.table.told().load(F::CONTROL.1);
        self.put.index + need <= self.known + slots
    }

    /// Puts the `K` fragments from this number on, where there is room for all of them.
    #[inline]
    pub fn put<const K: usize>(&mut self, from: u64) -> bool {
        let has_room = self.has_room(K as u64);
        if has_room {
            self.table.put::<K>(0, &mut self.put, from, 0);
        }
        has_room
    }
}

impl<F: Form> Receiver<F> {
    /// Takes `K` fragments by one look, where so many are there.
    #[inline]
    pub fn take<const K: usize>(&mut self, each: impl FnMut(&[u64; 8])) -> bool {
        self.table.take::<K>(0, &mut self.take, each).is_some()
    }

    #[inline]
    pub fn tell(&mut self) {
        self.table.told().store(self.take.index, F::CONTROL.0);
    }
}

/// A side of a ring of two directions, whose acknowledgements ride in control words.
pub struct Side<F> {
    table: Arc<Table<F>>,
    base: usize,
    other: usize,
    slots: u64,
    put: Cursor,
    take: Cursor,
    known: u64,
    told: u64,
}

pub fn duo<F: Form>(slots: usize) -> (Side<F>, Side<F>) {
    let table = Table::new(2, slots);
    let side = |base, other| Side {
        table: table.clone(),
        base,
        other,
        slots: slots as u64,
        put: Cursor::new(slots),
        take: Cursor::new(slots),
        known: 0,
        told: 0,
    };
    (side(0, 8 * slots), side(8 * slots, 0))
}

impl<F: Form> Side<F> {
    /// The first count from the known one on that agrees with the number told.
    #[inline]
    fn learn(&mut self, control: u64) {
        let number = control >> 48;
        self.known += (number + 65_536 - self.known % 65_536) % 65_536;
    }

    #[inline]
    fn free(&self) -> u64 {
        self.slots + self.known - self.put.index
    }

    #[inline]
    fn has_free(&mut self, need: u64) -> bool {
        if self.free() >= need {
            return true;
        }
        let (_, word) = self.table.slot(self.other + self.take.word());
        let control = word.load(F::CONTROL.1);
        if control % 2 == self.take.epoch {
            self.learn(control);
        }
        self.free() >= need
    }

    /// Puts the `K` fragments from this number on, where that leaves a slot free.
    #[inline]
    pub fn put<const K: usize>(&mut self, from: u64) -> bool {
        let has_room = self.has_free(K as u64 + 1);
        if has_room {
            let taken = self.take.index;
            self.table
                .put::<K>(self.base, &mut self.put, from, taken % 65_536);
            self.told = taken;
        }
        has_room
    }

    /// Takes `K` fragments by one look, where so many are there.
    #[inline]
    pub fn take<const K: usize>(&mut self, each: impl FnMut(&[u64; 8])) -> bool {
        let found = self.table.take::<K>(self.other, &mut self.take, each);
        if let Some(control) = found {
            self.learn(control);
        }
        found.is_some()
    }

    /// Tells what was taken, where that is at least half of the slots and there is room to.
    #[inline]
    pub fn tell(&mut self) {
        let taken = self.take.index;
        if taken - self.told < self.slots / 2 || !self.has_free(1) {
            return;
        }
        let first = self.base + self.put.word();
        self.table.write_payload(first, &[0; 8]);
        self.table
            .write_control(first, 4, self.put.epoch, taken % 65_536);
        self.put.advance();
        self.told = taken;
    }
}
