//! The edges of the dependency graph (document 01, "What the check announces").

use crate::check::LONGEST_TABLE;
use std::mem::MaybeUninit;

/// A reference takes two bytes at least.
const MOST_EDGES: usize = LONGEST_TABLE / 2;

/// An edge of the dependency graph: from the stream whose equation it is to the one that is read.
#[derive(Clone, Copy)]
pub struct Edge {
    pub from: u8,
    pub to: u8,
    pub weight: i8,
}

/// A list of edges that is not cleared first: that would take longer than a short table's check.
pub struct Edges {
    list: [MaybeUninit<Edge>; MOST_EDGES],
    count: usize,
}

impl Edges {
    pub fn new() -> Edges {
        Edges { list: [const { MaybeUninit::uninit() }; MOST_EDGES], count: 0 }
    }

    pub fn push(&mut self, edge: Edge) {
        self.list[self.count].write(edge);
        self.count += 1;
    }

    pub fn all(&self) -> &[Edge] {
        // SAFETY: the first `count` were written by `push`, and an `Edge` lies in each as it is.
        unsafe { std::slice::from_raw_parts(self.list.as_ptr().cast(), self.count) }
    }
}
