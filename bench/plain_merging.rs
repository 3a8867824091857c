//! Merging the reciprocal pairs of a region graph: two free regions whose contact reaches the threshold and comes after
//! no other contact at either.
//!
//! Most are found by going from a region to the partner of its first contact, and on from there, as long as contacts
//! rise (`Merging`); what is left to do after that is done in rounds (`plain_rounds`). For that the first step owes only
//! that each merge is of a reciprocal pair, and not that it finds all. It does find all where no two contacts have the
//! same rank, as in the graph of a volume.
use super::plain_contacts::{Contact, Threshold};
use super::plain_graph::{Edge, Graph, Region};
use super::plain_hubs::Hubs;
use super::plain_rounds::merge_rounds;

/// A merge: two names, the smaller first, and their contact at that time.
#[derive(Clone, Copy, Debug, PartialEq, Eq)]
pub struct Merge {
    pub survivor: u32,
    pub absorbed: u32,
    pub contact: Contact,
}

/// What became of a graph: the merges, one after another, and the regions that a merge may still take, with the edges
/// between them.
pub struct Settled {
    pub merges: Vec<Merge>,
    pub residue: Graph,
}

/// Merges the reciprocal pairs of a graph until there is none. A region that touches one of the faces `frozen` is not
/// free.
pub fn settle(graph: Graph, threshold: Threshold, frozen: u8) -> Settled {
    let mut merging = Merging::new(trimmed(graph, threshold, frozen), threshold, frozen);
    merging.merge_most();
    let mut merges = std::mem::take(&mut merging.merges);
    let residue = merge_rounds(merging.left(frozen), threshold, frozen, &mut merges);
    Settled { merges, residue }
}

/// Which regions of a graph a merge may still take: those that are held back, and those with an edge that reaches.
fn kept(regions: &[Region], edges: &[Edge], threshold: Threshold, frozen: u8) -> Vec<bool> {
    let mut kept: Vec<bool> = regions.iter().map(|region| region.faces & frozen != 0).collect();
    for edge in edges.iter().filter(|edge| edge.contact.count > 0 && threshold.is_reached(&edge.contact)) {
        kept[edge.a as usize] = true;
        kept[edge.b as usize] = true;
    }
    kept
}

/// The graph without the regions that no merge takes any more.
pub fn trimmed(mut graph: Graph, threshold: Threshold, frozen: u8) -> Graph {
    let kept = kept(&graph.regions, &graph.edges, threshold, frozen);
    let mut places = Vec::with_capacity(kept.len());
    let mut count = 0;
    for &is_kept in &kept {
        places.push(count);
        count += u32::from(is_kept);
    }
    let mut each = kept.iter();
    graph.regions.retain(|_| *each.next().unwrap());
    graph.edges.retain(|edge| kept[edge.a as usize] && kept[edge.b as usize]);
    for edge in &mut graph.edges {
        edge.a = places[edge.a as usize];
        edge.b = places[edge.b as usize];
    }
    graph
}

/// A graph in which pairs are merged. A region is told by its place; an edge by its number, and it is dead where its
/// contact has no edges.
///
/// Invariants:
/// - (ends) the two ends of an edge that lives are different places, and no two edges that live have the same two ends;
/// - (cover) an edge that lives stands in the lists of both its ends. Other edges may stand there too: a list is looked
///   at with this in mind, and what is dead is left out when the region is merged;
/// - (hubs) those of `Hubs`, over the same edges.
struct Merging {
    threshold: Threshold,
    regions: Vec<Region>,
    /// The regions that touch a frozen face, and others that are known to wait for one. It is no more than a hint where
    /// not to look, but for the first.
    waits: Vec<bool>,
    edges: Vec<Edge>,
    lists: Vec<Vec<u32>>,
    hubs: Hubs,
    /// For some places an edge. Nothing is known of it, so it is looked at before it is relied on.
    marks: Vec<u32>,
    /// Regions of which each leads to the next by its first edge, and others to begin with.
    path: Vec<u32>,
    work: Vec<u32>,
    merges: Vec<Merge>,
}

/// A list that is longer than this is looked at no more: its region is made a hub.
const LONG: usize = if cfg!(test) { 5 } else { 256 };

impl Merging {
    fn new(graph: Graph, threshold: Threshold, frozen: u8) -> Merging {
        let Graph { regions, edges } = graph;
        let count = regions.len();
        let mut merging = Merging {
            threshold,
            waits: regions.iter().map(|region| region.faces & frozen != 0).collect(),
            lists: lists_of(&edges, count),
            hubs: Hubs::new(count),
            marks: vec![0; count],
            path: Vec::new(),
            work: Vec::new(),
            merges: Vec::new(),
            regions,
            edges,
        };
        for place in 0..count as u32 {
            merging.make_hub_of_long(place);
        }
        merging
    }

    /// Merges pairs from each region on, in turn. So many steps are enough: see `step`.
    fn merge_most(&mut self) {
        let mut steps = 8 * self.regions.len();
        for place in 0..self.regions.len() as u32 {
            self.work.push(place);
            steps = self.work_off(steps);
        }
    }

    /// Goes on from the last region of the path, or where it is empty from one that is left to do, until there is none or
    /// all steps are taken. Answers how many are left.
    fn work_off(&mut self, steps: usize) -> usize {
        for left in (0..steps).rev() {
            let Some(last) = self.path.pop().or_else(|| self.work.pop()) else { return left + 1 };
            self.step(last);
        }
        0
    }

    /// Goes on from a region that was last on the path: to the partner of its first edge, where a stronger edge leads on
    /// from there, and else it is merged with that partner. It is done with where it has no edge that reaches, and where
    /// it waits.
    ///
    /// First edges rise along the path, and stay the first ones whatever is merged elsewhere, so a region comes on the
    /// path once between two merges that it takes part in. With n regions there are at most 2n such times; in each a
    /// region is begun with at most once, added once, and done with once, and there are n merges: 7n steps.
    fn step(&mut self, last: u32) {
        if self.waits[last as usize] {
            return;
        }
        let Some(edge) = self.first(last).filter(|&edge| self.threshold.is_reached(&self.contact(edge))) else { return };
        let partner = self.other_end(edge, last);
        if self.waits[partner as usize] {
            self.waits[last as usize] = true;
            return;
        }
        let next = self.first(partner).unwrap_or(edge);
        if self.contact(next).comes_before(&self.contact(edge)) {
            self.path.extend([last, partner]);
            return;
        }
        if self.path.last() == Some(&partner) {
            self.path.pop();
        }
        let merged = self.merge(edge);
        self.work.push(merged);
    }

    fn contact(&self, edge: u32) -> Contact {
        self.edges[edge as usize].contact
    }

    fn other_end(&self, edge: u32, place: u32) -> u32 {
        let Edge { a, b, .. } = self.edges[edge as usize];
        if a == place { b } else { a }
    }

    /// An edge at a region that comes after no other there: none where the region has none.
    fn first(&mut self, place: u32) -> Option<u32> {
        if self.hubs.has(place) { self.hubs.first(place, &self.edges) } else { self.first_in_list(place) }
    }

    fn first_in_list(&self, place: u32) -> Option<u32> {
        let mut first: Option<u32> = None;
        for &edge in &self.lists[place as usize] {
            let contact = self.contact(edge);
            if contact.count > 0 && first.is_none_or(|first| contact.comes_before(&self.contact(first))) {
                first = Some(edge);
            }
        }
        first
    }

    /// Merges the two ends of an edge. Answers the one whose place the new region takes.
    fn merge(&mut self, edge: u32) -> u32 {
        let (into, from) = self.places_after(edge);
        self.note_merge(edge, into, from);
        self.edges[edge as usize].contact.count = 0;
        if !self.hubs.has(into) {
            self.clean_and_mark(into);
        }
        for given in std::mem::take(&mut self.lists[from as usize]) {
            if self.contact(given).count > 0 {
                self.give(given, from, into);
            }
        }
        self.hubs.close(from);
        self.make_hub_of_long(into);
        into
    }

    /// Of the ends of an edge the one that takes over the edges of the other, and that other one. A hub is never given
    /// to a region that is none; else the shorter list is.
    fn places_after(&self, edge: u32) -> (u32, u32) {
        let Edge { a, b, .. } = self.edges[edge as usize];
        let size = |place: u32| (self.hubs.has(place), self.lists[place as usize].len());
        if size(a) < size(b) { (b, a) } else { (a, b) }
    }

    fn note_merge(&mut self, edge: u32, into: u32, from: u32) {
        let given = self.regions[from as usize];
        let region = &mut self.regions[into as usize];
        let (survivor, absorbed) = (region.name.min(given.name), region.name.max(given.name));
        *region = Region { name: survivor, faces: region.faces | given.faces };
        self.merges.push(Merge { survivor, absorbed, contact: self.contact(edge) });
    }

    /// Leaves dead edges out of a list, and marks the partners of the region with the others. So the mark of a place is
    /// the edge that leads there, where one does.
    fn clean_and_mark(&mut self, place: u32) {
        let (edges, marks) = (&self.edges, &mut self.marks);
        self.lists[place as usize].retain(|&number| {
            let edge = &edges[number as usize];
            marks[(if edge.a == place { edge.b } else { edge.a }) as usize] = number;
            edge.contact.count > 0
        });
    }

    /// Gives an edge of a region to another, to which it leads no edge itself: where that one has an edge with the
    /// partner, the contact is added to it.
    fn give(&mut self, given: u32, from: u32, into: u32) {
        let partner = self.other_end(given, from);
        match self.edge_between(into, partner) {
            Some(there) => {
                let contact = std::mem::replace(&mut self.edges[given as usize].contact, Contact::NONE);
                self.edges[there as usize].contact.add(&contact);
                self.hubs.note_contact(there, &self.edges[there as usize]);
            }
            None => {
                self.edges[given as usize] = Edge { a: into, b: partner, contact: self.contact(given) };
                self.lists[into as usize].push(given);
                self.hubs.note_end(given, &self.edges[given as usize]);
            }
        }
    }

    /// The edge that lives between two regions, where there is one; the first is a hub, or its partners are marked.
    fn edge_between(&self, place: u32, partner: u32) -> Option<u32> {
        let guess = if self.hubs.has(place) { self.hubs.edge(place, partner)? } else { self.marks[partner as usize] };
        let edge = self.edges.get(guess as usize)?;
        let is_there = (edge.a == place && edge.b == partner) || (edge.a == partner && edge.b == place);
        (is_there && edge.contact.count > 0).then_some(guess)
    }

    /// Makes a region a hub where its list is long, unless it is one.
    fn make_hub_of_long(&mut self, place: u32) {
        let list = &mut self.lists[place as usize];
        if list.len() > LONG && !self.hubs.has(place) {
            list.retain(|&edge| self.edges[edge as usize].contact.count > 0);
            self.hubs.open(place, list, &self.edges);
        }
    }

    /// The regions that a merge may still take, by name, and the edges between them. Of a region that was given away no
    /// edge is left, so it is not among them.
    fn left(self, frozen: u8) -> Graph {
        let kept = kept(&self.regions, &self.edges, self.threshold, frozen);
        let mut order: Vec<u32> = (0..kept.len() as u32).filter(|&place| kept[place as usize]).collect();
        order.sort_unstable_by_key(|&place| self.regions[place as usize].name);
        let mut places = vec![GONE; kept.len()];
        for (new, &old) in order.iter().enumerate() {
            places[old as usize] = new as u32;
        }
        let regions = order.iter().map(|&old| self.regions[old as usize]).collect();
        Graph { regions, edges: edges_among(&self.edges, &places) }
    }
}

/// The place of a region that is not among those that are kept.
const GONE: u32 = u32::MAX;

/// The edges that live between regions that are kept, by their new places, in order.
fn edges_among(edges: &[Edge], places: &[u32]) -> Vec<Edge> {
    let mut among = Vec::new();
    for edge in edges {
        let (a, b) = (places[edge.a as usize], places[edge.b as usize]);
        if edge.contact.count > 0 && a != GONE && b != GONE {
            among.push(Edge { a: a.min(b), b: a.max(b), contact: edge.contact });
        }
    }
    among.sort_unstable_by_key(|edge| (edge.a, edge.b));
    among
}

/// The edges at each of so many regions.
fn lists_of(edges: &[Edge], count: usize) -> Vec<Vec<u32>> {
    let mut lengths = vec![0; count];
    for edge in edges {
        lengths[edge.a as usize] += 1;
        lengths[edge.b as usize] += 1;
    }
    let mut lists: Vec<Vec<u32>> = lengths.into_iter().map(Vec::with_capacity).collect();
    for (number, edge) in edges.iter().enumerate() {
        lists[edge.a as usize].push(number as u32);
        lists[edge.b as usize].push(number as u32);
    }
    lists
}
