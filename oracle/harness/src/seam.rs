//! CR 9 counted on the library's meshes: inside the box, as many triangles have a side from one vertex to another as from the other to the one.
//! That is proved of the joined numbering; of the crate numbering the share of open grids is reported. The grid edge of each vertex comes from a
//! walk of its own, and its indices must be the library's.
use crate::extraction::{extract, work_room, Lent, CRATE, JOINED};
use crate::grids;
use crate::isosurface::index_cache::IndexCache;
use crate::isosurface::marching_cubes_impl::march_cube;
use crate::isosurface::marching_cubes_tables::{CORNERS, EDGE_CONNECTION};
use crate::random::Random;
use std::collections::HashMap;

/// The two ends of a grid edge, the lower first.
type Edge = [[usize; 3]; 2];

/// What a numbering remembers: the number that the edge e of a cell has, and the number that it gets.
trait Numbering {
    fn look(&mut self, cell: [usize; 3], e: usize, edge: Edge) -> Option<u32>;
    fn note(&mut self, cell: [usize; 3], e: usize, edge: Edge, number: u32);
    fn cell_end(&mut self) {}
    fn row_end(&mut self) {}
    fn layer_end(&mut self) {}
}

impl Numbering for HashMap<Edge, u32> {
    fn look(&mut self, _: [usize; 3], _: usize, edge: Edge) -> Option<u32> {
        self.get(&edge).copied()
    }
    fn note(&mut self, _: [usize; 3], _: usize, edge: Edge, number: u32) {
        self.insert(edge, number);
    }
}

impl Numbering for IndexCache {
    fn look(&mut self, cell: [usize; 3], e: usize, _: Edge) -> Option<u32> {
        Some(self.get(cell[0], cell[1], e)).filter(|&number| number > 0)
    }
    fn note(&mut self, cell: [usize; 3], e: usize, _: Edge, number: u32) {
        self.put(cell[0], cell[1], e, number);
    }
    fn cell_end(&mut self) {
        self.advance_cell();
    }
    fn row_end(&mut self) {
        self.advance_row();
    }
    fn layer_end(&mut self) {
        self.advance_layer();
    }
}

/// The grid edge of each vertex, and the indices.
fn walk(numbering: &mut dyn Numbering, n: usize, samples: &[f32]) -> (Vec<Edge>, Vec<u32>) {
    let (mut edges, mut indices) = (Vec::new(), Vec::new());
    for z in 0..n {
        for y in 0..n - 1 {
            for x in 0..n - 1 {
                let corner = |c: usize| [x + CORNERS[c][0], y + CORNERS[c][1], z + CORNERS[c][2]];
                let values: [f32; 8] = std::array::from_fn(|c| {
                    let [x, y, z] = corner(c);
                    samples[(z * n + y) * n + x]
                });
                march_cube(&values, |e| {
                    let (u, v) = (corner(EDGE_CONNECTION[e][0]), corner(EDGE_CONNECTION[e][1]));
                    let edge = [u.min(v), u.max(v)];
                    let number = numbering.look([x, y, z], e, edge).unwrap_or_else(|| {
                        numbering.note([x, y, z], e, edge, edges.len() as u32);
                        edges.push(edge);
                        edges.len() as u32 - 1
                    });
                    indices.push(number);
                });
                numbering.cell_end();
            }
            numbering.row_end();
        }
        numbering.layer_end();
    }
    (edges, indices)
}

/// All four ends have the coordinate `at` along the axis.
fn in_one_outer_face(n: usize, a: Edge, b: Edge) -> bool {
    let planes = [(0, 0), (0, n - 1), (1, 0), (1, n - 1), (2, 0), (2, n)];
    planes.iter().any(|&(axis, at)| a.iter().chain(&b).all(|end| end[axis] == at))
}

/// The ordered pairs inside the box with more triangles one way than the other: each open pair once.
fn open_pairs(n: usize, edges: &[Edge], indices: &[u32]) -> Vec<(u32, u32)> {
    let mut net: HashMap<(u32, u32), i64> = HashMap::new();
    for t in indices.chunks(3) {
        for (from, to) in [(t[0], t[1]), (t[1], t[2]), (t[2], t[0])] {
            if from != to {
                *net.entry((from.min(to), from.max(to))).or_default() += if from < to { 1 } else { -1 };
            }
        }
    }
    let outer = |i: u32, j: u32| in_one_outer_face(n, edges[i as usize], edges[j as usize]);
    net.into_iter().filter(|&((i, j), k)| k != 0 && !outer(i, j)).map(|(pair, _)| pair).collect()
}

/// The open pairs of the mesh that the library leaves, and its number of sides.
fn open_in_library(random: &mut Random, numbering: u32, n: usize, samples: &[f32]) -> Result<(Vec<(u32, u32)>, usize), String> {
    let (edges, indices) = match numbering {
        CRATE => walk(&mut IndexCache::new(n), n, samples),
        _ => walk(&mut HashMap::new(), n, samples),
    };
    let mut lent = Lent::garbage(random, work_room(n), 3 * edges.len(), indices.len());
    let answer = extract(n as u32, numbering, samples, &mut lent);
    if (answer.cause, answer.vertices, answer.indices) != (0, edges.len() as u64, indices.len() as u64) || lent.indices != indices {
        return Err(format!("size {n} numbering {numbering}: the library leaves another mesh, {answer:?}"));
    }
    Ok((open_pairs(n, &edges, &lent.indices), lent.indices.len()))
}

/// Grids of a kind, random or smooth, that have a surface, and those of them that are open in the crate numbering.
#[derive(Default)]
struct Share {
    meshed: u64,
    open: u64,
}

fn no_open_seam_on_random_grids(count: u64) -> Result<String, String> {
    let mut random = Random::new(31);
    let grids_done = count.div_ceil(50).max(10_000);
    let mut sides = 0;
    let mut shares = [Share::default(), Share::default()];
    for _ in 0..grids_done {
        let n = 2 + random.below(11) as usize;
        let smooth = random.below(2) == 0;
        let samples = if smooth { grids::smooth(&mut random, n) } else { grids::random(&mut random, n) };
        let (pairs, joined_sides) = open_in_library(&mut random, JOINED, n, &samples)?;
        if let Some((i, j)) = pairs.first() {
            return Err(format!("size {n}, joined: the pair of vertices {i} and {j} is open"));
        }
        sides += joined_sides;
        if joined_sides > 0 {
            let share = &mut shares[smooth as usize];
            share.meshed += 1;
            share.open += !open_in_library(&mut random, CRATE, n, &samples)?.0.is_empty() as u64;
        }
    }
    let [rough, smooth] = shares.map(|s| format!("{} of {}", s.open, s.meshed));
    Ok(format!("{grids_done} joined grids, {sides} sides, 0 open pairs; in the crate numbering {rough} random and {smooth} smooth meshes are open"))
}

/// W4 and W5: the grid of size 2 with sample 4 inside, closed in the joined numbering and open in the crate's.
fn no_open_seam_on_w4_and_w5(_: u64) -> Result<String, String> {
    let mut random = Random::new(32);
    let samples: Vec<f32> = (0..12).map(|i| if i == 4 { -1.0 } else { 1.0 }).collect();
    let (joined, _) = open_in_library(&mut random, JOINED, 2, &samples)?;
    let (mut of_crate, _) = open_in_library(&mut random, CRATE, 2, &samples)?;
    of_crate.sort_unstable();
    if !joined.is_empty() || of_crate != [(0, 1), (1, 3)] {
        return Err(format!("open pairs: joined {joined:?}, crate {of_crate:?}"));
    }
    Ok("no open pair of W4; of W5 the pairs 0, 1 and 1, 3".to_string())
}

pub const TESTS: &[crate::Test] = &[
    ("no_open_seam_on_random_grids", no_open_seam_on_random_grids),
    ("no_open_seam_on_w4_and_w5", no_open_seam_on_w4_and_w5),
];
