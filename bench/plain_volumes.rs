//! The volumes of the benchmark: the affinities of a cube, made from its side alone.

/// How the affinities inside a cell of `tissue` differ.
#[derive(Clone, Copy, PartialEq)]
enum Inside {
    /// Like those around them, as a network predicts them.
    Smooth,
    /// Each by itself.
    Rough,
}

/// The affinities of a cube of one of the kinds `noise`, `cells`, `smooth` and `rough`.
pub fn affinities(kind: &str, side: u32) -> Option<Vec<u8>> {
    match kind {
        "noise" => Some(noise(side)),
        "cells" => Some(cells(side)),
        "smooth" => Some(tissue(side as usize, Inside::Smooth)),
        "rough" => Some(tissue(side as usize, Inside::Rough)),
        _ => None,
    }
}

struct Random(u32);

impl Random {
    fn byte(&mut self) -> u8 {
        self.0 = self.0.wrapping_mul(1664525).wrapping_add(1013904223);
        (self.0 >> 24) as u8
    }

    /// A number from 0 up to, but not including, 1.
    fn share(&mut self) -> f32 {
        (f32::from(self.byte()) + f32::from(self.byte()) / 256.0) / 256.0
    }
}

/// Bytes without any structure.
fn noise(side: u32) -> Vec<u8> {
    let mut random = Random(1);
    (0..3 * (side as usize).pow(3)).map(|_| random.byte()).collect()
}

/// Blocks of about 16 voxels across with bright insides and dark boundaries, and a little noise.
fn cells(side: u32) -> Vec<u8> {
    const STEP: u32 = 16;
    let grid = side / STEP + 1;
    let mut random = Random(2);
    let shifts: Vec<u32> = (0..3 * grid * grid * grid).map(|_| u32::from(random.byte()) % STEP).collect();
    let inside = |axis: u32, at: [u32; 3]| {
        let block = at.map(|c| c / STEP);
        let seed = 3 * (block[0] + grid * (block[1] + grid * block[2])) + axis;
        let shift = shifts[seed as usize];
        let distance = (at[axis as usize] + shift) % STEP;
        distance.min(STEP - distance)
    };
    let mut bytes = Vec::with_capacity(3 * (side as usize).pow(3));
    for z in 0..side {
        for y in 0..side {
            for x in 0..side {
                let near = (0..3).map(|axis| inside(axis, [x, y, z])).min().unwrap();
                for _ in 0..3 {
                    bytes.push((near * 28 + u32::from(random.byte()) / 10) as u8);
                }
            }
        }
    }
    bytes
}

/// About so many voxels are a cell of tissue across.
const ACROSS: usize = 20;

/// A voxel is at a membrane where the two nearest middles of cells differ by less than so many voxels.
const MEMBRANE: f32 = 1.0;

/// Cells of about 20 voxels across: 180 to 255 inside, 0 to 60 between two cells and between two voxels of a membrane.
fn tissue(side: usize, inside: Inside) -> Vec<u8> {
    let mut random = Random(3);
    let cells = cells_of_tissue(side, &mut random);
    let shared = field(side, inside, &mut random);
    let mut bytes = vec![0; 3 * side.pow(3)];
    for (axis, stride) in [1, side, side * side].into_iter().enumerate() {
        let own = field(side, inside, &mut random);
        for v in (0..cells.len()).filter(|v| v / stride % side != 0) {
            let (here, there) = (cells[v], cells[v - stride]);
            let is_cut = here.number != there.number || (here.is_membrane && there.is_membrane);
            let bright = match inside {
                Inside::Smooth => 218.0 + 20.0 * shared[v] + 10.0 * own[v],
                Inside::Rough => 180.0 + 76.0 * random.share(),
            };
            let byte = if is_cut { 61.0 * random.share() } else { bright.clamp(180.0, 255.0) };
            bytes[3 * v + axis] = byte as u8;
        }
    }
    bytes
}

/// The cell of a voxel, and whether the voxel is at its membrane.
#[derive(Clone, Copy)]
struct InCell {
    number: u32,
    is_membrane: bool,
}

/// The cell of each voxel: that of the nearest middle. Each block of the volume, and of a layer around it, has one.
fn cells_of_tissue(side: usize, random: &mut Random) -> Vec<InCell> {
    let blocks = side.div_ceil(ACROSS) + 2;
    let mut middles = Vec::new();
    for number in 0..blocks.pow(3) {
        let block = [number % blocks, number / blocks % blocks, number / blocks.pow(2)];
        middles.push(block.map(|at| (at as f32 - 1.0 + random.share()) * ACROSS as f32));
    }
    (0..side.pow(3)).map(|v| nearest([v % side, v / side % side, v / (side * side)], blocks, &middles)).collect()
}

/// The cell of the voxel here: the block around it and those beside it are looked at.
fn nearest(voxel: [usize; 3], blocks: usize, middles: &[[f32; 3]]) -> InCell {
    let (mut number, mut least, mut second) = (0, f32::MAX, f32::MAX);
    let corner = voxel.map(|at| at / ACROSS);
    for beside in 0..27 {
        let [x, y, z] = [corner[0] + beside % 3, corner[1] + beside / 3 % 3, corner[2] + beside / 9];
        let block = x + blocks * (y + blocks * z);
        let apart = (0..3).map(|axis| middles[block][axis] - voxel[axis] as f32);
        let distance = apart.map(|length| length * length).sum::<f32>().sqrt();
        second = second.min(distance.max(least));
        if distance < least {
            (number, least) = (block as u32, distance);
        }
    }
    InCell { number, is_membrane: second - least < MEMBRANE }
}

/// A number for each voxel, 0 on the average and 1 in the square: noise that is smoothed three times on each axis over
/// five voxels, which is nearly what a Gauss filter of sigma 2.5 makes of it. For what is rough nothing is needed.
fn field(side: usize, inside: Inside, random: &mut Random) -> Vec<f32> {
    if inside == Inside::Rough {
        return Vec::new();
    }
    let mut field: Vec<f32> = (0..side.pow(3)).map(|_| random.share() - 0.5).collect();
    for stride in [1, side, side * side] {
        for v in (0..field.len()).filter(|v| v / stride % side == 0) {
            smooth_line(&mut field, v, stride, side);
        }
    }
    let square = field.iter().map(|x| f64::from(x * x)).sum::<f64>() / field.len() as f64;
    field.iter_mut().for_each(|x| *x /= square.sqrt() as f32);
    field
}

/// Smooths a line of voxels that are `stride` apart. Beyond its ends the outermost voxels go on.
fn smooth_line(field: &mut [f32], begin: usize, stride: usize, side: usize) {
    let mut line: Vec<f32> = (0..side).map(|at| field[begin + at * stride]).collect();
    for _ in 0..3 {
        let at = |place: usize| line[place.clamp(2, side + 1) - 2];
        line = (0..side).map(|mid| (mid..mid + 5).map(at).sum::<f32>() / 5.0).collect();
    }
    for (at, value) in line.into_iter().enumerate() {
        field[begin + at * stride] = value;
    }
}
