//! Tests: what the plain program makes of small graphs and volumes at random, beside what the definitions say, looked up
//! one by one.
use super::plain_contacts::{Contact, Threshold};
use super::plain_graph::{Cell, Edge, Graph, Region, Site, graph_of_box};
use super::plain_merging::{Merge, Settled, settle};
use super::plain_rounds::merge_rounds;
use std::collections::BTreeMap;

struct Random(u64);

impl Random {
    fn below(&mut self, end: u64) -> u64 {
        self.0 = self.0.wrapping_mul(6364136223846793005).wrapping_add(1442695040888963407);
        (self.0 >> 33) % end
    }
}

/// A graph by names: the faces of each region, and the contact of each two, the smaller name first.
#[derive(Clone, Debug, PartialEq)]
struct Named {
    faces: BTreeMap<u32, u8>,
    contacts: BTreeMap<(u32, u32), Contact>,
}

impl Named {
    fn of(graph: &Graph) -> Named {
        let name = |place: u32| graph.regions[place as usize].name;
        assert!(graph.regions.windows(2).all(|two| two[0].name < two[1].name));
        assert!(graph.edges.windows(2).all(|two| (two[0].a, two[0].b) < (two[1].a, two[1].b)));
        assert!(graph.edges.iter().all(|edge| edge.a < edge.b && edge.contact.count > 0));
        Named {
            faces: graph.regions.iter().map(|region| (region.name, region.faces)).collect(),
            contacts: graph.edges.iter().map(|edge| ((name(edge.a), name(edge.b)), edge.contact)).collect(),
        }
    }

    fn is_reciprocal(&self, names: (u32, u32), threshold: Threshold, frozen: u8) -> bool {
        let Some(contact) = self.contacts.get(&names) else { return false };
        let is_free = [names.0, names.1].iter().all(|name| self.faces[name] & frozen == 0);
        let is_at = |(a, b): (u32, u32)| [names.0, names.1].iter().any(|&name| a == name || b == name);
        let is_first = self.contacts.iter().all(|(&pair, other)| !is_at(pair) || !other.comes_before(contact));
        is_free && is_first && threshold.is_reached(contact)
    }

    fn merge(&mut self, survivor: u32, absorbed: u32) {
        let faces = self.faces.remove(&absorbed).unwrap();
        *self.faces.get_mut(&survivor).unwrap() |= faces;
        let after = |name: u32| if name == absorbed { survivor } else { name };
        for ((a, b), contact) in std::mem::take(&mut self.contacts) {
            let (a, b) = (after(a), after(b));
            if a != b {
                self.contacts.entry((a.min(b), a.max(b))).or_insert(Contact::NONE).add(&contact);
            }
        }
    }

    /// The regions that are held back or have a contact that reaches, and the contacts among them.
    fn left(&self, threshold: Threshold, frozen: u8) -> Named {
        let reaches = |name: u32| {
            self.contacts.iter().any(|(&(a, b), contact)| (a == name || b == name) && threshold.is_reached(contact))
        };
        let mut left = self.clone();
        left.faces.retain(|&name, faces| *faces & frozen != 0 || reaches(name));
        left.contacts.retain(|(a, b), _| left.faces.contains_key(a) && left.faces.contains_key(b));
        left
    }
}

/// Each merge is of a reciprocal pair at its time, in the end there is none, and what is left is left.
fn check_settled(graph: &Graph, settled: &Settled, threshold: Threshold, frozen: u8) {
    let mut named = Named::of(graph);
    for merge in &settled.merges {
        let names = (merge.survivor, merge.absorbed);
        assert!(named.is_reciprocal(names, threshold, frozen), "{merge:?} of {named:?}");
        assert_eq!(named.contacts[&names], merge.contact);
        named.merge(merge.survivor, merge.absorbed);
    }
    assert!(!named.contacts.keys().any(|&names| named.is_reciprocal(names, threshold, frozen)), "{named:?}");
    assert_eq!(Named::of(&settled.residue), named.left(threshold, frozen));
}

/// The merges of the first reciprocal pair, until there is none.
fn merges_by_definition(graph: &Graph, threshold: Threshold, frozen: u8) -> Vec<Merge> {
    let (mut named, mut merges) = (Named::of(graph), Vec::new());
    while let Some((&(survivor, absorbed), &contact)) =
        named.contacts.iter().find(|(&names, _)| named.is_reciprocal(names, threshold, frozen))
    {
        merges.push(Merge { survivor, absorbed, contact });
        named.merge(survivor, absorbed);
    }
    merges
}

fn in_order(mut merges: Vec<Merge>) -> Vec<Merge> {
    merges.sort_by_key(|merge| (merge.survivor, merge.absorbed));
    merges
}

/// A graph of a few regions. Ties are all different, or of two numbers alone.
fn random_graph(random: &mut Random, are_ties_apart: bool) -> Graph {
    let count = 2 + random.below(14) as u32;
    let (density, faces) = (1 + random.below(10), random.below(3));
    let region = |random: &mut Random, place| {
        let faces = if random.below(4) < faces { 1 << random.below(3) } else { 0 };
        Region { name: 3 * place + 1, faces }
    };
    let regions = (0..count).map(|place| region(random, place)).collect();
    let mut edges = Vec::new();
    for (a, b) in (0..count).flat_map(|a| (a + 1..count).map(move |b| (a, b))) {
        let count = 1 + random.below(3) as u32;
        let tie = if are_ties_apart { (edges.len() as u32 * 37) % 257 } else { random.below(2) as u32 };
        let contact = Contact { sum: u64::from(count) * random.below(5) + random.below(2), count, tie };
        if random.below(10) < density {
            edges.push(Edge { a, b, contact });
        }
    }
    Graph { regions, edges }
}

#[test]
fn graphs_without_equal_ranks_have_the_merges_of_the_definition() {
    let mut random = Random(1);
    for _ in 0..4000 {
        let graph = random_graph(&mut random, true);
        let (threshold, frozen) = (Threshold { p: random.below(5) as u32, q: 1 + random.below(2) as u32 }, 3);
        let settled = settle(graph.clone(), threshold, frozen);
        check_settled(&graph, &settled, threshold, frozen);
        assert_eq!(in_order(settled.merges), in_order(merges_by_definition(&graph, threshold, frozen)));
    }
}

#[test]
fn graphs_with_equal_ranks_are_settled() {
    let mut random = Random(2);
    for _ in 0..4000 {
        let graph = random_graph(&mut random, false);
        let (threshold, frozen) = (Threshold { p: random.below(4) as u32, q: 1 }, random.below(8) as u8);
        check_settled(&graph, &settle(graph.clone(), threshold, frozen), threshold, frozen);
    }
}

#[test]
fn rounds_alone_settle_graphs() {
    let mut random = Random(3);
    for turn in 0..2000 {
        let graph = random_graph(&mut random, turn % 2 == 0);
        let (threshold, frozen) = (Threshold { p: 1, q: 1 }, random.below(8) as u8);
        let mut merges = Vec::new();
        let residue = merge_rounds(graph.clone(), threshold, frozen, &mut merges);
        check_settled(&graph, &Settled { merges, residue }, threshold, frozen);
    }
}

/// The graph of a box by looking at each edge.
fn graph_by_definition(site: Site, cell: &Cell) -> Named {
    let [nx, ny, nz] = site.axes;
    let at = |v: usize| [v % nx, v / nx % ny, v / (nx * ny)];
    let is_inside = |v: usize| (0..3).all(|axis| (cell.low[axis]..cell.high[axis]).contains(&at(v)[axis]));
    let mut named = Named { faces: BTreeMap::new(), contacts: BTreeMap::new() };
    for v in (0..nx * ny * nz).filter(|&v| is_inside(v) && site.labels[v] != 0) {
        let faces = named.faces.entry(site.labels[v]).or_insert(0);
        for (axis, stride) in [1, nx, nx * ny].into_iter().enumerate() {
            let is_lowest = at(v)[axis] == cell.low[axis];
            *faces |= u8::from(is_lowest && cell.low[axis] > 0) << (2 * axis);
            *faces |= u8::from(at(v)[axis] + 1 == cell.high[axis] && cell.high[axis] < site.axes[axis]) << (2 * axis + 1);
            if !is_lowest && site.labels[v - stride] != 0 && site.labels[v - stride] != site.labels[v] {
                let (a, b) = (site.labels[v].min(site.labels[v - stride]), site.labels[v].max(site.labels[v - stride]));
                let edge = 3 * v + axis;
                let contact = Contact { sum: u64::from(site.body[edge]), count: 1, tie: edge as u32 };
                named.contacts.entry((a, b)).or_insert(Contact::NONE).add(&contact);
            }
        }
    }
    named
}

#[test]
fn graphs_of_boxes_are_those_of_the_definition() {
    let mut random = Random(4);
    for turn in 0..300 {
        let longest = if turn % 4 == 0 { 200 } else { 9 };
        let axes = [longest, 9, 9].map(|most| 1 + random.below(most) as usize);
        let voxels: usize = axes.iter().product();
        let (names, start) = (1 + random.below(if turn % 3 == 0 { 4 } else { 400 }), random.below(1000) as u32);
        let label = |random: &mut Random| if random.below(6) == 0 { 0 } else { start + 1 + random.below(names) as u32 };
        let labels: Vec<u32> = (0..voxels).map(|_| label(&mut random)).collect();
        let body: Vec<u8> = (0..3 * voxels).map(|_| (random.below(4) * 85) as u8).collect();
        let low = axes.map(|length| random.below(length as u64) as usize);
        let high = [0, 1, 2].map(|axis| low[axis] + 1 + random.below((axes[axis] - low[axis]) as u64) as usize);
        let (site, cell) = (Site { axes, body: &body, labels: &labels }, Cell { low, high });
        assert_eq!(Named::of(&graph_of_box(site, &cell)), graph_by_definition(site, &cell));
    }
}

#[test]
fn a_contact_of_more_edges_than_a_piece_takes_is_whole() {
    let axes = [70, 70, 3];
    let labels: Vec<u32> = (0..70 * 70 * 3).map(|v| [5, 9, 9][v / (70 * 70)]).collect();
    let body = vec![255; 3 * labels.len()];
    let (site, cell) = (Site { axes, body: &body, labels: &labels }, Cell { low: [0; 3], high: axes });
    let contact = Contact { sum: 255 * 4900, count: 4900, tie: 3 * 4900 + 2 };
    assert_eq!(graph_of_box(site, &cell).edges, [Edge { a: 0, b: 1, contact }]);
}
