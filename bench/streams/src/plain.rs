//! A plain ring of acquire and release, in the form of the crate `rtrb`: positions that count two turns of the ring, each
//! side with a copy of the other's position, which it loads only where that shows too little.

use std::cell::UnsafeCell;
use std::mem::MaybeUninit;
use std::sync::{
    atomic::{AtomicUsize, Ordering},
    Arc,
};

pub type Line = [u64; 8];

#[inline(always)]
pub fn line(v: u64) -> Line {
    [v, v, v, v, v, v, v, 2]
}

/// All that was taken is read, as a stub reads it.
#[inline(always)]
pub fn sum_of(line: &Line) -> u64 {
    let [a, b, c, d, e, f, g, _] = *line;
    let low = a.wrapping_add(b).wrapping_add(c).wrapping_add(d);
    low.wrapping_add(e).wrapping_add(f).wrapping_add(g)
}

#[repr(align(128))]
struct Padded(AtomicUsize);

struct Ring {
    head: Padded,
    tail: Padded,
    slots: Box<[UnsafeCell<MaybeUninit<Line>>]>,
}

// SAFETY: a slot is written by the producer alone until its position is published, and read by the consumer alone until its
// position is given back.
unsafe impl Sync for Ring {}

impl Ring {
    fn capacity(&self) -> usize {
        self.slots.len()
    }

    #[inline]
    fn place(&self, position: usize) -> usize {
        if position < self.capacity() {
            position
        } else {
            position - self.capacity()
        }
    }

    #[inline]
    fn slot(&self, position: usize) -> *mut Line {
        // SAFETY: positions are below twice the capacity.
        unsafe { self.slots.get_unchecked(self.place(position)).get().cast() }
    }

    #[inline]
    fn on(&self, position: usize, count: usize) -> usize {
        let next = position + count;
        if next >= 2 * self.capacity() {
            next - 2 * self.capacity()
        } else {
            next
        }
    }

    #[inline]
    fn distance(&self, a: usize, b: usize) -> usize {
        if a <= b {
            b - a
        } else {
            2 * self.capacity() - a + b
        }
    }
}

pub struct Producer {
    ring: Arc<Ring>,
    head: usize,
    tail: usize,
}

pub struct Consumer {
    ring: Arc<Ring>,
    head: usize,
    tail: usize,
}

pub fn ring(slots: usize) -> (Producer, Consumer) {
    let ring = Arc::new(Ring {
        head: Padded(AtomicUsize::new(0)),
        tail: Padded(AtomicUsize::new(0)),
        slots: (0..slots).map(|_| UnsafeCell::new(MaybeUninit::uninit())).collect(),
    });
    let (head, tail) = (0, 0);
    let producer = Producer {
        ring: ring.clone(),
        head,
        tail,
    };
    (producer, Consumer { ring, head, tail })
}

impl Producer {
    #[inline]
    fn has_free(&mut self, count: usize) -> bool {
        let most = self.ring.capacity() - count;
        if self.ring.distance(self.head, self.tail) <= most {
            return true;
        }
        self.head = self.ring.head.0.load(Ordering::Acquire);
        self.ring.distance(self.head, self.tail) <= most
    }

    /// Whether there was room.
    #[inline(always)]
    pub fn put(&mut self, line: Line) -> bool {
        if !self.has_free(1) {
            return false;
        }
        // SAFETY: the slot is free.
        unsafe { self.ring.slot(self.tail).write(line) };
        self.tail = self.ring.on(self.tail, 1);
        self.ring.tail.0.store(self.tail, Ordering::Release);
        true
    }

    /// Whether there was room for all.
    #[inline]
    pub fn put_all(&mut self, lines: &[Line]) -> bool {
        if !self.has_free(lines.len()) {
            return false;
        }
        let first = self.ring.slot(self.tail);
        let place = self.ring.place(self.tail);
        let front = lines.len().min(self.ring.capacity() - place);
        // SAFETY: the slots are free, `front` of them up to the end of the ring and the others from its beginning.
        unsafe {
            first.copy_from_nonoverlapping(lines.as_ptr(), front);
            let rest = lines.as_ptr().add(front);
            self.ring.slot(0).copy_from_nonoverlapping(rest, lines.len() - front);
        }
        self.tail = self.ring.on(self.tail, lines.len());
        self.ring.tail.0.store(self.tail, Ordering::Release);
        true
    }
}

impl Consumer {
    #[inline]
    fn waiting(&mut self, most: usize) -> usize {
        let known = self.ring.distance(self.head, self.tail);
        if known >= most {
            return most;
        }
        self.tail = self.ring.tail.0.load(Ordering::Acquire);
        self.ring.distance(self.head, self.tail).min(most)
    }

    #[inline(always)]
    pub fn take(&mut self) -> Option<Line> {
        if self.waiting(1) == 0 {
            return None;
        }
        // SAFETY: the slot was written and published.
        let line = unsafe { self.ring.slot(self.head).read() };
        self.head = self.ring.on(self.head, 1);
        self.ring.head.0.store(self.head, Ordering::Release);
        Some(line)
    }

    /// How many were taken.
    #[inline]
    pub fn take_all(&mut self, lines: &mut [Line]) -> usize {
        let count = self.waiting(lines.len());
        if count == 0 {
            return 0;
        }
        let first = self.ring.slot(self.head);
        let place = self.ring.place(self.head);
        let front = count.min(self.ring.capacity() - place);
        // SAFETY: the slots were written and published, `front` of them up to the end of the ring and the others from its
        // beginning.
        unsafe {
            lines.as_mut_ptr().copy_from_nonoverlapping(first, front);
            let rest = lines.as_mut_ptr().add(front);
            rest.copy_from_nonoverlapping(self.ring.slot(0), count - front);
        }
        self.head = self.ring.on(self.head, count);
        self.ring.head.0.store(self.head, Ordering::Release);
        count
    }
}
