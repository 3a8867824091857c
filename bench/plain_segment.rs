//! The plain agglomeration: the basins of `label`, the region graph of the volume as one box, and merges by mean
//! affinity. It writes the same label file and tree file as `agglo segment`.
use super::plain_contacts::Threshold;
use super::plain_graph::{Cell, Site, graph_of_box};
use super::plain_merging::{Merge, Settled, settle};
use super::{label, read_volume, write_labels};
use std::fs::File;
use std::io::{BufWriter, Result, Write};

pub fn segment(volume: &str, labels: &str, tree: &str, low: u8, merge: &str, tell: bool) -> Result<()> {
    let (p, q) = merge.split_once('/').unwrap();
    let threshold = Threshold { p: p.parse().unwrap(), q: q.parse().unwrap() };
    let mut clock = Clock::new(tell);
    let (axes, body) = read_volume(volume)?;
    clock.lap("read");
    let mut list = label(axes, &body, low);
    clock.lap("basins");
    let graph = graph_of_box(Site { axes, body: &body, labels: &list }, &Cell { low: [0; 3], high: axes });
    drop(body);
    clock.lap("graph");
    let Settled { mut merges, residue } = settle(graph, threshold, 0);
    assert!(residue.regions.is_empty(), "nothing is held back, so nothing is left");
    merges.sort_unstable_by(|one, other| other.contact.rank(&one.contact));
    clock.lap("merging");
    rename(&mut list, &merges);
    clock.lap("relabelling");
    write_labels(labels, axes, &list)?;
    write_tree(tree, axes, threshold, &merges)?;
    clock.lap("write");
    Ok(())
}

/// Tells the processor time of each phase on standard error, where it is to.
struct Clock {
    tell: bool,
    last: f64,
}

impl Clock {
    fn new(tell: bool) -> Clock {
        Clock { tell, last: processor_seconds() }
    }

    fn lap(&mut self, phase: &str) {
        let now = processor_seconds();
        if self.tell {
            eprintln!("{phase} {:.4}", now - self.last);
        }
        self.last = now;
    }
}

/// How long this thread was on a processor, as Linux counts it; 0 elsewhere.
fn processor_seconds() -> f64 {
    let counts = std::fs::read_to_string("/proc/thread-self/schedstat").unwrap_or_default();
    counts.split(' ').next().and_then(|word| word.parse::<f64>().ok()).unwrap_or(0.0) / 1e9
}

/// Puts the name that is left of each region in its place, for merges in pair order. A name less 1 is a voxel of the
/// region, so its label tells what is left of the name, once the names that stay longer are done.
fn rename(labels: &mut [u32], merges: &[Merge]) {
    for merge in merges.iter().rev() {
        labels[merge.absorbed as usize - 1] = labels[merge.survivor as usize - 1];
    }
    for v in 0..labels.len() {
        if labels[v] != 0 {
            labels[v] = labels[labels[v] as usize - 1];
        }
    }
}

fn write_tree(path: &str, axes: [usize; 3], threshold: Threshold, merges: &[Merge]) -> Result<()> {
    let mut file = BufWriter::with_capacity(1 << 20, File::create(path)?);
    file.write_all(b"AFFTRE01")?;
    let [nx, ny, nz] = axes.map(|axis| axis as u32);
    for field in [nx, ny, nz, threshold.p, threshold.q, merges.len() as u32] {
        file.write_all(&field.to_le_bytes())?;
    }
    for Merge { survivor, absorbed, contact } in merges {
        let mut record = [0; 32];
        record[0..4].copy_from_slice(&survivor.to_le_bytes());
        record[4..8].copy_from_slice(&absorbed.to_le_bytes());
        record[8..16].copy_from_slice(&contact.sum.to_le_bytes());
        record[16..24].copy_from_slice(&u64::from(contact.count).to_le_bytes());
        record[24..32].copy_from_slice(&u64::from(contact.tie).to_le_bytes());
        file.write_all(&record)?;
    }
    file.flush()
}
