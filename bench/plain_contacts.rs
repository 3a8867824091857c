//! Contacts of two regions, their order, and the mean from which on regions are merged.
use std::cmp::Ordering;

/// The contact edges between two regions: the sum of their bytes, how many they are, and the least of their numbers.
/// There is none where the count is 0.
#[derive(Clone, Copy, Debug, PartialEq, Eq)]
pub struct Contact {
    pub sum: u64,
    pub count: u32,
    pub tie: u32,
}

impl Contact {
    pub const NONE: Contact = Contact { sum: 0, count: 0, tie: u32::MAX };

    pub fn add(&mut self, other: &Contact) {
        self.sum += other.sum;
        self.count += other.count;
        self.tie = self.tie.min(other.tie);
    }

    /// The contact that is merged first is the greater one: that of the greater mean, or else of the lesser edge. A
    /// sum is below 2^38 and a count below 2^30, so products fit 128 bits and not always 64.
    pub fn rank(&self, other: &Contact) -> Ordering {
        let here = u128::from(self.sum) * u128::from(other.count);
        let there = u128::from(other.sum) * u128::from(self.count);
        here.cmp(&there).then(other.tie.cmp(&self.tie))
    }

    pub fn comes_before(&self, other: &Contact) -> bool {
        self.rank(other) == Ordering::Greater
    }
}

/// The mean from which on regions are merged, P / Q.
#[derive(Clone, Copy)]
pub struct Threshold {
    pub p: u32,
    pub q: u32,
}

impl Threshold {
    pub fn is_reached(&self, contact: &Contact) -> bool {
        u128::from(contact.sum) * u128::from(self.q) >= u128::from(self.p) * u128::from(contact.count)
    }
}
