//! Regions with so many edges that their lists are looked at no more. The first edge of a hub is found by a heap, and
//! its edge to a partner by a map.
use super::plain_contacts::Contact;
use super::plain_graph::Edge;
use std::cmp::Ordering;
use std::collections::{BinaryHeap, HashMap};
use std::hash::{BuildHasherDefault, Hasher};

/// An edge by its number, with a contact that it has or has had.
#[derive(Clone, Copy, PartialEq, Eq)]
struct Entry {
    contact: Contact,
    edge: u32,
}

/// The greater entry has the contact that is merged first. Entries are equal only where all their numbers are: with
/// equal means and counts, sums are equal too.
impl Ord for Entry {
    fn cmp(&self, other: &Entry) -> Ordering {
        let rank = self.contact.rank(&other.contact);
        rank.then(other.edge.cmp(&self.edge)).then(self.contact.count.cmp(&other.contact.count))
    }
}

impl PartialOrd for Entry {
    fn partial_cmp(&self, other: &Entry) -> Option<Ordering> {
        Some(self.cmp(other))
    }
}

/// A hash of one number: a product, turned so that both its ends are mixed.
#[derive(Default)]
struct NumberHasher(u64);

impl Hasher for NumberHasher {
    fn finish(&self) -> u64 {
        self.0
    }

    fn write(&mut self, _bytes: &[u8]) {
        unreachable!()
    }

    fn write_u64(&mut self, number: u64) {
        self.0 = number.wrapping_mul(0x9e37_79b9_7f4a_7c15).rotate_left(32);
    }
}

const NO_HUB: u32 = u32::MAX;

/// The hubs among so many regions, over a list of edges that the caller has and tells of.
///
/// Invariants:
/// - (numbers) the number of a hub is one of a heap, and no other hub has it;
/// - (entries) for an edge that lives at a hub, the heap of that hub has an entry of its number and its contact as it
///   is now. It may have others, of contacts that were and of edges that are dead;
/// - (pairs) an edge that lives at a hub is the one that the map has for its two ends. For other pairs the map may have
///   any number.
pub struct Hubs {
    numbers: Vec<u32>,
    heaps: Vec<BinaryHeap<Entry>>,
    edges: HashMap<u64, u32, BuildHasherDefault<NumberHasher>>,
}

/// One number for two places in any order.
fn pair(place: u32, partner: u32) -> u64 {
    u64::from(place.min(partner)) << 32 | u64::from(place.max(partner))
}

impl Hubs {
    /// None of so many regions is a hub.
    pub fn new(count: usize) -> Hubs {
        Hubs { numbers: vec![NO_HUB; count], heaps: Vec::new(), edges: HashMap::default() }
    }

    pub fn has(&self, place: u32) -> bool {
        self.numbers[place as usize] != NO_HUB
    }

    /// Makes a hub of a region that is none, of which the list has the edges that live at it.
    pub fn open(&mut self, place: u32, list: &[u32], edges: &[Edge]) {
        self.numbers[place as usize] = self.heaps.len() as u32;
        let mut heap = BinaryHeap::with_capacity(list.len());
        for &number in list {
            let edge = &edges[number as usize];
            heap.push(Entry { contact: edge.contact, edge: number });
            self.edges.insert(pair(edge.a, edge.b), number);
        }
        self.heaps.push(heap);
    }

    /// Gives up what is known of a region that has no edges any more.
    pub fn close(&mut self, place: u32) {
        let number = std::mem::replace(&mut self.numbers[place as usize], NO_HUB);
        if number != NO_HUB {
            self.heaps[number as usize] = BinaryHeap::new();
        }
    }

    /// An edge at a hub that comes after no other there: none where it has none. Entries before the first one that
    /// holds are thrown away, so this goes down.
    pub fn first(&mut self, place: u32, edges: &[Edge]) -> Option<u32> {
        let heap = &mut self.heaps[self.numbers[place as usize] as usize];
        while let Some(top) = heap.peek() {
            if edges[top.edge as usize].contact == top.contact {
                return Some(top.edge);
            }
            heap.pop();
        }
        None
    }

    /// The edge between a hub and its partner, where one lives; else any number or none.
    pub fn edge(&self, place: u32, partner: u32) -> Option<u32> {
        self.edges.get(&pair(place, partner)).copied()
    }

    /// Takes note of an edge that has a new contact.
    pub fn note_contact(&mut self, number: u32, edge: &Edge) {
        self.add_entry(edge.a, number, edge);
        self.add_entry(edge.b, number, edge);
    }

    /// Takes note of an edge whose first end is a new one.
    pub fn note_end(&mut self, number: u32, edge: &Edge) {
        self.add_entry(edge.a, number, edge);
        if self.has(edge.a) || self.has(edge.b) {
            self.edges.insert(pair(edge.a, edge.b), number);
        }
    }

    fn add_entry(&mut self, place: u32, number: u32, edge: &Edge) {
        if self.has(place) {
            let heap = &mut self.heaps[self.numbers[place as usize] as usize];
            heap.push(Entry { contact: edge.contact, edge: number });
        }
    }
}
