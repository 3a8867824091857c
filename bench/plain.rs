//! A plain single-threaded program of the same work as agglo, written for speed and with nothing
//! proved: the yardstick of the benchmark. It also makes the benchmark's volumes.
//!
//! `rustc --test` builds its tests in its place.
#[cfg(test)]
mod plain_checks;
mod plain_contacts;
mod plain_graph;
mod plain_hubs;
mod plain_merging;
mod plain_rounds;
mod plain_segment;
mod plain_volumes;

use std::env;
use std::fs::File;
use std::io::{BufWriter, Read, Result, Write};

fn main() -> Result<()> {
    let words: Vec<String> = env::args().skip(1).collect();
    let words: Vec<&str> = words.iter().map(String::as_str).collect();
    match words.as_slice() {
        ["make", kind, side, path] => {
            let side = side.parse().unwrap();
            write_volume(path, side, &plain_volumes::affinities(kind, side).unwrap_or_else(usage))
        }
        ["basins", volume, labels, low] => basins(volume, labels, low.parse().unwrap()),
        [word @ ("segment" | "phases"), volume, labels, tree, low, merge] => {
            plain_segment::segment(volume, labels, tree, low.parse().unwrap(), merge, *word == "phases")
        }
        _ => usage(),
    }
}

fn usage<T>() -> T {
    eprintln!("plain: make noise|cells|smooth|rough SIDE FILE, basins VOLUME LABELS LOW, or segment|phases VOLUME LABELS TREE LOW P/Q");
    std::process::exit(2)
}

/// A cube of this many voxels a side with these affinities.
fn write_volume(path: &str, side: u32, affinities: &[u8]) -> Result<()> {
    let mut file = BufWriter::new(File::create(path)?);
    file.write_all(b"AFFVOL01")?;
    for field in [side, side, side, 3, 0, 0] {
        file.write_all(&field.to_le_bytes())?;
    }
    file.write_all(affinities)?;
    file.flush()
}

const STAY: u8 = 6;

fn basins(volume: &str, labels: &str, low: u8) -> Result<()> {
    let (axes, body) = read_volume(volume)?;
    let list = label(axes, &body, low);
    write_labels(labels, axes, &list)
}

fn read_volume(path: &str) -> Result<([usize; 3], Vec<u8>)> {
    let mut file = File::open(path)?;
    let mut header = [0; 32];
    file.read_exact(&mut header)?;
    let field = |at: usize| u32::from_le_bytes(header[at..at + 4].try_into().unwrap()) as usize;
    let axes = [field(8), field(12), field(16)];
    let mut body = Vec::with_capacity(3 * axes[0] * axes[1] * axes[2]);
    file.read_to_end(&mut body)?;
    Ok((axes, body))
}

/// Which of its six edges is the best of each voxel, in the order of the edges' numbers: back on x,
/// y and z, then on along x, y and z.
fn best_steps([nx, ny, nz]: [usize; 3], body: &[u8], low: u8) -> Vec<u8> {
    let (row, layer) = (nx, nx * ny);
    let mut steps = Vec::with_capacity(nx * ny * nz);
    let mut v = 0;
    for z in 0..nz {
        for y in 0..ny {
            for x in 0..nx {
                let mut best = STAY;
                let mut byte = i32::from(low) - 1;
                let mut take = |there: bool, edge: usize, step: u8| {
                    if there && i32::from(body[edge]) > byte {
                        byte = i32::from(body[edge]);
                        best = step;
                    }
                };
                take(x > 0, 3 * v, 0);
                take(y > 0, 3 * v + 1, 1);
                take(z > 0, 3 * v + 2, 2);
                take(x + 1 < nx, 3 * v + 3, 3);
                take(y + 1 < ny, 3 * (v + row) + 1, 4);
                take(z + 1 < nz, 3 * (v + layer) + 2, 5);
                steps.push(best);
                v += 1;
            }
        }
    }
    steps
}

fn label(axes: [usize; 3], body: &[u8], low: u8) -> Vec<u32> {
    let steps = best_steps(axes, body, low);
    let (row, layer) = (axes[0], axes[0] * axes[1]);
    let far = |v: usize, step: u8| match step {
        0 => v - 1,
        1 => v - row,
        2 => v - layer,
        3 => v + 1,
        4 => v + row,
        _ => v + layer,
    };
    let mut labels = vec![0u32; steps.len()];
    let mut path = Vec::new();
    for start in 0..steps.len() {
        let mut v = start;
        let name = loop {
            if labels[v] != 0 || steps[v] == STAY {
                break labels[v];
            }
            path.push(v);
            let next = far(v, steps[v]);
            if steps[next] == (steps[v] + 3) % 6 {
                break v.min(next) as u32 + 1;
            }
            v = next;
        };
        for v in path.drain(..) {
            labels[v] = name;
        }
    }
    labels
}

fn write_labels(path: &str, axes: [usize; 3], labels: &[u32]) -> Result<()> {
    let mut file = File::create(path)?;
    let mut bytes = Vec::with_capacity(1 << 20);
    bytes.extend_from_slice(b"AFFLAB01");
    for field in [axes[0] as u32, axes[1] as u32, axes[2] as u32, 4, 0, 0] {
        bytes.extend_from_slice(&field.to_le_bytes());
    }
    for block in labels.chunks(1 << 18) {
        for label in block {
            bytes.extend_from_slice(&label.to_le_bytes());
        }
        file.write_all(&bytes)?;
        bytes.clear();
    }
    file.write_all(&bytes)
}
