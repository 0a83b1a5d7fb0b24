//! A doubly linked list of heap nodes: a new item allocates a node, and one that goes frees it.

use std::ptr;

pub struct Node<T> {
    previous: *mut Node<T>,
    next: *mut Node<T>,
    item: T,
}

pub struct Chain<T> {
    count: usize,
    head: *mut Node<T>,
    tail: *mut Node<T>,
}

impl<T> Chain<T> {
    pub fn new() -> Chain<T> {
        Chain {
            count: 0,
            head: ptr::null_mut(),
            tail: ptr::null_mut(),
        }
    }

    #[inline(always)]
    pub fn count(&self) -> usize {
        self.count
    }

    /// The first node whose item is not below, or null.
    #[inline(always)]
    pub fn after_all(&self, is_below: impl Fn(&T) -> bool) -> *mut Node<T> {
        let mut node = self.head;
        // SAFETY: `head` and every `next` are null or point to a node of this list, which only `unlink` and `drop` free.
        unsafe {
            while !node.is_null() && is_below(&(*node).item) {
                node = (*node).next;
            }
        }
        node
    }

    /// The item of a node of this list; none of null.
    #[inline(always)]
    pub fn item(&mut self, node: *mut Node<T>) -> Option<&mut T> {
        // SAFETY: the node is null or of this list, which is borrowed while the item is.
        unsafe { node.as_mut() }.map(|node| &mut node.item)
    }

    /// A new node before another of this list; before null is at the end.
    #[inline(always)]
    pub fn link_before(&mut self, next: *mut Node<T>, item: T) {
        // SAFETY: `next` is null or a node of this list.
        unsafe {
            let previous = if next.is_null() {
                self.tail
            } else {
                (*next).previous
            };
            let node = Box::into_raw(Box::new(Node {
                previous,
                next,
                item,
            }));
            if previous.is_null() {
                self.head = node;
            } else {
                (*previous).next = node;
            }
            if next.is_null() {
                self.tail = node;
            } else {
                (*next).previous = node;
            }
        }
        self.count += 1;
    }

    /// Takes a node of this list out of it.
    #[inline(always)]
    pub fn unlink(&mut self, node: *mut Node<T>) {
        // SAFETY: `node` is a node of this list, made by `Box::into_raw`, and no pointer to it is left after this.
        unsafe {
            let Node { previous, next, .. } = *Box::from_raw(node);
            if previous.is_null() {
                self.head = next;
            } else {
                (*previous).next = next;
            }
            if next.is_null() {
                self.tail = previous;
            } else {
                (*next).previous = previous;
            }
        }
        self.count -= 1;
    }

    /// A walk from the head.
    #[inline(always)]
    pub fn items(&self) -> Walk<'_, T> {
        // SAFETY: as in `after_all`; the list is borrowed while the walk lives.
        let node = unsafe { self.head.as_ref() };
        Walk { node }
    }
}

/// A walk along a list: the node that comes next.
pub struct Walk<'a, T> {
    node: Option<&'a Node<T>>,
}

impl<'a, T> Walk<'a, T> {
    /// One that is at its end.
    pub fn ended() -> Walk<'a, T> {
        Walk { node: None }
    }

    /// Goes past the items that are below, and tells of the one that then comes next, without going past it.
    #[inline(always)]
    pub fn past(&mut self, is_below: impl Fn(&T) -> bool) -> Option<&'a T> {
        while let Some(node) = self.node {
            if !is_below(&node.item) {
                return Some(&node.item);
            }
            self.next();
        }
        None
    }
}

impl<'a, T> Iterator for Walk<'a, T> {
    type Item = &'a T;

    #[inline(always)]
    fn next(&mut self) -> Option<&'a T> {
        let node = self.node?;
        // SAFETY: as in `items`.
        self.node = unsafe { node.next.as_ref() };
        Some(&node.item)
    }
}

impl<T> Drop for Chain<T> {
    fn drop(&mut self) {
        while !self.head.is_null() {
            self.unlink(self.head);
        }
    }
}
