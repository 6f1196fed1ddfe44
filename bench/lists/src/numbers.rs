//! Plain lists by numbers: what the waitset does beyond the list by pointers, one step after another.
//!
//! Nodes of six bytes stand in a table and name each other by their indexes, the heads first, as the waitset's
//! do. Nothing is proved, and no index is checked.

/// The list that a node is in.
#[derive(Clone, Copy, PartialEq)]
enum Place {
    Idle,
    Polled,
    Pending,
}

#[derive(Clone, Copy)]
struct Node {
    prev: u16,
    next: u16,
    place: Option<Place>,
}

/// Asked is what the list by pointers asks: is a triggered channel idle, and is one pending.
pub const NO_MORE: u8 = 0;
/// And of a channel that moves to the back of a list: is it the last there already?
pub const LAST: u8 = 1;
/// And of a channel that is put back: is it registered?
pub const REGISTERED: u8 = 2;
/// And wherever a channel is named: is there such a one?
pub const BELOW: u8 = 3;
/// And wherever nodes are used: do they stand in the small table, which lies where the lists lie, or in the large one?
pub const NEAR: u8 = 4;

/// Why a channel isn't touched.
enum Fault {
    NoChannel,
    NotRegistered,
}

/// So many channels have nodes in the small table.
const FEW: usize = 5;

const FREE: Node = Node { prev: 0, next: 0, place: None };

struct Lists<const ASKED: u8> {
    near: [Node; FEW + 3],
    few: bool,
    size: usize,
    nodes: Vec<Node>,
}

fn node_of(channel: u16) -> u16 {
    channel + 3
}

impl<const ASKED: u8> Lists<ASKED> {
    /// Lists of so many channels, all of them idle.
    fn new(channels: u16) -> Lists<ASKED> {
        let size = usize::from(channels);
        let mut made = Lists { near: [FREE; FEW + 3], few: false, size, nodes: vec![FREE; size + 3] };
        for place in [Place::Idle, Place::Polled, Place::Pending] {
            let head = place as u16;
            made.nodes[usize::from(head)] = Node { prev: head, next: head, place: Some(place) };
        }
        for channel in 0..channels {
            made.put_last(node_of(channel), Place::Idle);
        }
        made
    }

    #[inline]
    fn node(&mut self, at: u16) -> &mut Node {
        let table: &mut [Node] = if ASKED >= NEAR && self.few { &mut self.near } else { &mut self.nodes };
        // each index that stands in a table is one of that table
        unsafe { table.get_unchecked_mut(usize::from(at)) }
    }

    #[inline]
    fn join(&mut self, left: u16, right: u16) {
        self.node(left).next = right;
        self.node(right).prev = left;
    }

    #[inline]
    fn put_last(&mut self, at: u16, place: Place) {
        let head = place as u16;
        let last = self.node(head).prev;
        self.join(last, at);
        self.join(at, head);
        self.node(at).place = Some(place);
    }

    #[inline]
    fn move_last(&mut self, at: u16, place: Place) {
        let Node { prev, next, .. } = *self.node(at);
        if ASKED >= LAST && next == place as u16 {
            return;
        }
        self.join(prev, next);
        self.put_last(at, place);
    }

    #[inline]
    fn place_of(&mut self, channel: u16) -> Result<Option<Place>, Fault> {
        if ASKED >= BELOW && usize::from(channel) >= self.size {
            return Err(Fault::NoChannel);
        }
        Ok(self.node(node_of(channel)).place)
    }

    #[inline]
    fn trigger(&mut self, channel: u16) -> Result<(), Fault> {
        if self.place_of(channel)? == Some(Place::Idle) {
            self.move_last(node_of(channel), Place::Pending);
        }
        Ok(())
    }

    #[inline]
    fn front(&mut self, place: Place) -> Option<u16> {
        let first = self.node(place as u16).next;
        (first != place as u16).then(|| first - 3)
    }

    #[inline]
    fn put_back(&mut self, channel: u16, place: Place) -> Result<(), Fault> {
        if ASKED >= REGISTERED && self.place_of(channel)?.is_none() {
            return Err(Fault::NotRegistered);
        }
        self.move_last(node_of(channel), place);
        Ok(())
    }
}

/// The same turns as the waitset's, and the same sum.
#[inline(never)]
pub fn turns<const ASKED: u8>(channels: u16, turns: u64) -> u64 {
    let mut lists = Lists::<ASKED>::new(channels);
    let mut sum: u64 = 0;
    let mut c: u16 = 0;
    for _ in 0..turns {
        let _ = lists.trigger(c);
        if let Some(first) = lists.front(Place::Pending) {
            let _ = lists.put_back(first, Place::Idle);
            sum = sum.wrapping_add(u64::from(first));
        }
        c += 3;
        if c >= channels {
            c -= channels;
        }
    }
    sum
}
