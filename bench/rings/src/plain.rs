//! Plain queues of fragments, of eight words each, and the loop by which all are timed: nothing
//! proved.

use std::collections::VecDeque;

/// A fragment whose payload words are all this one.
pub fn fragment(v: u64) -> [u64; 8] {
    [v, v, v, v, v, v, v, 2]
}

/// All that was taken is read.
pub fn sum_of(words: &[u64; 8]) -> u64 {
    words[..7]
        .iter()
        .fold(0, |sum, word| sum.wrapping_add(*word))
}

/// What only acknowledges: bit 2 is set, and nothing else but the epoch and the number told.
pub fn only_acknowledges(words: &[u64; 8]) -> bool {
    words[7] / 2 % (1 << 47) == 2 && words[..7].iter().all(|word| *word == 0)
}

/// A bounded queue.
pub trait Queue {
    fn new(slots: usize) -> Self;

    /// Whether there was room.
    fn put(&mut self, words: &[u64; 8]) -> bool;

    fn take(&mut self) -> Option<[u64; 8]>;

    /// Frees what was taken, where a take alone doesn't.
    fn tell(&mut self) {}
}

/// Batches through a queue, with a tell each round.
#[inline(never)]
pub fn through<Q: Queue>(slots: usize, rounds: u64, batch: u64) -> u64 {
    let mut queue = Q::new(slots);
    let mut sum: u64 = 0;
    for round in 0..rounds {
        for k in 0..batch {
            queue.put(&fragment(round.wrapping_add(k)));
        }
        for _ in 0..batch {
            if let Some(words) = queue.take() {
                sum = sum.wrapping_add(sum_of(&words));
            }
        }
        queue.tell();
    }
    sum
}

/// A `VecDeque` that is never longer than its slots.
pub struct Deque {
    items: VecDeque<[u64; 8]>,
    slots: usize,
}

impl Queue for Deque {
    fn new(slots: usize) -> Deque {
        Deque {
            items: VecDeque::with_capacity(slots),
            slots,
        }
    }

    #[inline]
    fn put(&mut self, words: &[u64; 8]) -> bool {
        let has_room = self.items.len() < self.slots;
        if has_room {
            self.items.push_back(*words);
        }
        has_room
    }

    #[inline]
    fn take(&mut self) -> Option<[u64; 8]> {
        self.items.pop_front()
    }
}

/// A ring of arrays, by hand: two counts and a mask.
pub struct Ring {
    slots: Box<[[u64; 8]]>,
    put: u64,
    taken: u64,
}

impl Queue for Ring {
    fn new(slots: usize) -> Ring {
        assert!(slots.is_power_of_two());
        Ring {
            slots: vec![[0; 8]; slots].into_boxed_slice(),
            put: 0,
            taken: 0,
        }
    }

    #[inline]
    fn put(&mut self, words: &[u64; 8]) -> bool {
        let slots = self.slots.len();
        if self.put - self.taken == slots as u64 {
            return false;
        }
        self.slots[self.put as usize & (slots - 1)] = *words;
        self.put += 1;
        true
    }

    #[inline]
    fn take(&mut self) -> Option<[u64; 8]> {
        if self.taken == self.put {
            return None;
        }
        let words = self.slots[self.taken as usize & (self.slots.len() - 1)];
        self.taken += 1;
        Some(words)
    }
}

/// An index that goes round the slots of a ring, with the epoch of its round: 1, then 0, and so on.
pub struct Cursor {
    pub index: u64,
    pub epoch: u64,
    place: usize,
    slots: usize,
}

impl Cursor {
    pub fn new(slots: usize) -> Cursor {
        Cursor {
            index: 0,
            epoch: 1,
            place: 0,
            slots,
        }
    }

    /// The first word of its slot.
    #[inline]
    pub fn word(&self) -> usize {
        8 * self.place
    }

    #[inline]
    pub fn advance(&mut self) {
        self.index += 1;
        self.place += 1;
        if self.place == self.slots {
            self.place = 0;
            self.epoch = 1 - self.epoch;
        }
    }
}

/// A ring in the proved rings' own form: a table of words, in which a control word tells by its
/// epoch whether a fragment stands there, and a word that holds how many were taken.
pub struct WordRing {
    words: Vec<u64>,
    slots: usize,
    put: Cursor,
    take: Cursor,
}

impl Queue for WordRing {
    fn new(slots: usize) -> WordRing {
        WordRing {
            words: vec![0; 8 * slots + 1],
            slots,
            put: Cursor::new(slots),
            take: Cursor::new(slots),
        }
    }

    #[inline]
    fn put(&mut self, words: &[u64; 8]) -> bool {
        if self.put.index - self.words[8 * self.slots] == self.slots as u64 {
            return false;
        }
        let slot = &mut self.words[self.put.word()..][..8];
        slot[..7].copy_from_slice(&words[..7]);
        slot[7] = words[7] / 2 * 2 + self.put.epoch;
        self.put.advance();
        true
    }

    #[inline]
    fn take(&mut self) -> Option<[u64; 8]> {
        let slot = &self.words[self.take.word()..][..8];
        if slot[7] % 2 != self.take.epoch {
            return None;
        }
        let words: [u64; 8] = slot.try_into().unwrap();
        self.take.advance();
        (!only_acknowledges(&words)).then_some(words)
    }

    #[inline]
    fn tell(&mut self) {
        self.words[8 * self.slots] = self.take.index;
    }
}

/// A `VecDeque` with all that a queue freed by tell does beside: it writes the epoch, counts what is
/// put and not told, and asks of each fragment whether it only acknowledges.
pub struct LinkDeque {
    items: VecDeque<[u64; 8]>,
    slots: usize,
    untold: usize,
    put: Cursor,
}

impl Queue for LinkDeque {
    fn new(slots: usize) -> LinkDeque {
        LinkDeque {
            items: VecDeque::with_capacity(slots),
            slots,
            untold: 0,
            put: Cursor::new(slots),
        }
    }

    #[inline]
    fn put(&mut self, words: &[u64; 8]) -> bool {
        if self.items.len() + self.untold == self.slots {
            return false;
        }
        let mut words = *words;
        words[7] = words[7] / 2 % (1 << 47) * 2 + self.put.epoch;
        self.items.push_back(words);
        self.put.advance();
        true
    }

    #[inline]
    fn take(&mut self) -> Option<[u64; 8]> {
        let words = self.items.pop_front()?;
        self.untold += 1;
        (!only_acknowledges(&words)).then_some(words)
    }

    #[inline]
    fn tell(&mut self) {
        self.untold = 0;
    }
}
