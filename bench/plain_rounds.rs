//! Merging the reciprocal pairs of a graph in rounds, until there is none: in each as many as share no region.
use super::plain_contacts::{Contact, Threshold};
use super::plain_graph::{Edge, Graph};
use super::plain_merging::{Merge, trimmed};

/// Merges reciprocal pairs until there is none, and adds the merges to a list. Answers what is left of the graph.
pub fn merge_rounds(graph: Graph, threshold: Threshold, frozen: u8, merges: &mut Vec<Merge>) -> Graph {
    let mut graph = graph;
    loop {
        graph = trimmed(graph, threshold, frozen);
        let Some(mates) = pair_up(&graph, threshold, frozen, merges) else { return graph };
        graph = merged(&graph, &mates);
    }
}

/// The contact at each region that comes after no other there.
fn first_contacts(graph: &Graph) -> Vec<Contact> {
    let mut firsts = vec![Contact::NONE; graph.regions.len()];
    for edge in &graph.edges {
        for place in [edge.a, edge.b] {
            let first = &mut firsts[place as usize];
            if first.count == 0 || edge.contact.comes_before(first) {
                *first = edge.contact;
            }
        }
    }
    firsts
}

/// For each region the place of the one that it is merged with, or its own: none where there is no reciprocal pair.
/// Adds the merges to a list.
fn pair_up(graph: &Graph, threshold: Threshold, frozen: u8, merges: &mut Vec<Merge>) -> Option<Vec<u32>> {
    let firsts = first_contacts(graph);
    let mut mates: Vec<u32> = (0..graph.regions.len() as u32).collect();
    let before = merges.len();
    for &Edge { a, b, contact } in &graph.edges {
        let ends = [a as usize, b as usize];
        let is_first = ends.iter().all(|&end| !firsts[end].comes_before(&contact));
        let is_free = ends.iter().all(|&end| mates[end] == end as u32 && graph.regions[end].faces & frozen == 0);
        if is_first && is_free && threshold.is_reached(&contact) {
            (mates[ends[0]], mates[ends[1]]) = (b, a);
            let [survivor, absorbed] = ends.map(|end| graph.regions[end].name);
            merges.push(Merge { survivor, absorbed, contact });
        }
    }
    (merges.len() > before).then_some(mates)
}

/// The graph after each region is merged with its mate. Of the two the one of the smaller name stays.
fn merged(graph: &Graph, mates: &[u32]) -> Graph {
    let mut regions = Vec::new();
    let mut places = Vec::with_capacity(mates.len());
    for (place, region) in graph.regions.iter().enumerate() {
        let mate = mates[place] as usize;
        if mate < place {
            places.push(places[mate]);
            continue;
        }
        places.push(regions.len() as u32);
        let faces = region.faces | graph.regions[mate].faces;
        regions.push(super::plain_graph::Region { faces, ..*region });
    }
    Graph { regions, edges: summed(renamed(&graph.edges, &places)) }
}

/// The edges by the new places of their ends, without those that lie inside one region.
fn renamed(edges: &[Edge], places: &[u32]) -> Vec<Edge> {
    let mut renamed = Vec::new();
    for edge in edges {
        let (a, b) = (places[edge.a as usize], places[edge.b as usize]);
        if a != b {
            renamed.push(Edge { a: a.min(b), b: a.max(b), contact: edge.contact });
        }
    }
    renamed
}

/// Each pair once, in order.
fn summed(mut edges: Vec<Edge>) -> Vec<Edge> {
    edges.sort_unstable_by_key(|edge| (edge.a, edge.b));
    edges.dedup_by(|later, earlier| {
        let is_same = (later.a, later.b) == (earlier.a, earlier.b);
        if is_same {
            earlier.contact.add(&later.contact);
        }
        is_same
    });
    edges
}
