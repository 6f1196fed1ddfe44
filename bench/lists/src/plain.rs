//! A plain intrusive list: nodes joined by pointers, nothing proved, nothing checked.

use std::ptr;

#[derive(Clone, Copy, PartialEq)]
enum Place {
    None,
    Idle,
    Pending,
}

struct Node {
    prev: *mut Node,
    next: *mut Node,
    place: Place,
    channel: u16,
}

impl Node {
    fn new(channel: u16) -> Node {
        Node {
            prev: ptr::null_mut(),
            next: ptr::null_mut(),
            place: Place::None,
            channel,
        }
    }
}

struct List {
    head: *mut Node,
    place: Place,
}

impl List {
    fn new(place: Place) -> List {
        let head = Box::into_raw(Box::new(Node::new(0)));
        unsafe {
            (*head).prev = head;
            (*head).next = head;
        }
        List { head, place }
    }

    unsafe fn push_back(&mut self, node: *mut Node) {
        let last = (*self.head).prev;
        (*last).next = node;
        (*node).prev = last;
        (*node).next = self.head;
        (*node).place = self.place;
        (*self.head).prev = node;
    }

    unsafe fn front(&self) -> Option<*mut Node> {
        let first = (*self.head).next;
        (first != self.head).then_some(first)
    }
}

impl Drop for List {
    fn drop(&mut self) {
        drop(unsafe { Box::from_raw(self.head) });
    }
}

unsafe fn unlink(node: *mut Node) {
    (*(*node).prev).next = (*node).next;
    (*(*node).next).prev = (*node).prev;
}

/// The same turns as the proved waitset's, and the same sum.
#[inline(never)]
pub fn turns(channels: u16, turns: u64) -> u64 {
    let mut nodes: Vec<Node> = (0..channels).map(Node::new).collect();
    let nodes = nodes.as_mut_ptr();
    let (mut idle, mut pending) = (List::new(Place::Idle), List::new(Place::Pending));
    let mut sum: u64 = 0;
    let mut c: u16 = 0;
    // Each node stands in one list, and outlives both.
    unsafe {
        for k in 0..usize::from(channels) {
            idle.push_back(nodes.add(k));
        }
        for _ in 0..turns {
            let node = nodes.add(usize::from(c));
            if (*node).place == Place::Idle {
                unlink(node);
                pending.push_back(node);
            }
            if let Some(first) = pending.front() {
                unlink(first);
                idle.push_back(first);
                sum = sum.wrapping_add(u64::from((*first).channel));
            }
            c += 3;
            if c >= channels {
                c -= channels;
            }
        }
    }
    sum
}
