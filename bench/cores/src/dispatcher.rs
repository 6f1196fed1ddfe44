//! A dispatcher in plain Rust: its ends in three lists, joined by their places.

#[derive(Clone, Copy, PartialEq)]
pub enum List {
    Idle,
    Pending,
    Polled,
}

#[derive(Clone, Copy)]
struct Node {
    before: usize,
    after: usize,
    list: List,
}

/// Its channels are the places of its ends among them.
pub struct Dispatcher {
    ends: Vec<usize>,
    nodes: Vec<Node>,
    first: [usize; 3],
    last: [usize; 3],
}

const NONE: usize = usize::MAX;

impl Dispatcher {
    pub fn new() -> Dispatcher {
        Dispatcher { ends: Vec::new(), nodes: Vec::new(), first: [NONE; 3], last: [NONE; 3] }
    }

    /// One end more: its channel.
    pub fn add(&mut self, end: usize, list: List) -> usize {
        let channel = self.ends.len();
        self.ends.push(end);
        self.nodes.push(Node { before: NONE, after: NONE, list: List::Idle });
        self.push(channel, list);
        channel
    }

    /// The end of a channel.
    #[inline]
    pub fn end(&self, c: usize) -> usize {
        self.ends[c]
    }

    /// The channel that stands first in a list.
    #[inline]
    pub fn first(&self, list: List) -> Option<usize> {
        Some(self.first[list as usize]).filter(|c| *c != NONE)
    }

    fn push(&mut self, c: usize, list: List) {
        let last = self.last[list as usize];
        self.nodes[c] = Node { before: last, after: NONE, list };
        match last {
            NONE => self.first[list as usize] = c,
            last => self.nodes[last].after = c,
        }
        self.last[list as usize] = c;
    }

    fn remove(&mut self, c: usize) {
        let Node { before, after, list } = self.nodes[c];
        match before {
            NONE => self.first[list as usize] = after,
            before => self.nodes[before].after = after,
        }
        match after {
            NONE => self.last[list as usize] = before,
            after => self.nodes[after].before = before,
        }
    }

    #[inline]
    pub fn put_back(&mut self, c: usize, list: List) {
        self.remove(c);
        self.push(c, list);
    }

    #[inline]
    pub fn trigger(&mut self, c: usize) {
        if self.nodes[c].list == List::Idle {
            self.put_back(c, List::Pending);
        }
    }
}
