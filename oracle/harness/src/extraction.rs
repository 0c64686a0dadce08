//! The whole call. The crate numbering is compared with the Rust itself, the joined with a plain program written from document 01; every
//! buffer is compared whole: what is written, what is not, the working memory and what lies past it.
use crate::grids;
use crate::isosurface::marching_cubes::MarchingCubes;
use crate::isosurface::marching_cubes_impl::{get_offset, interpolate, march_cube};
use crate::isosurface::marching_cubes_tables::{CORNERS, EDGE_CONNECTION};
use crate::isosurface::math::Vec3;
use crate::isosurface::source::Source;
use crate::random::Random;
use std::cell::Cell;

#[repr(C)]
#[derive(Clone, Copy, Debug, PartialEq)]
pub struct Answer {
    pub cause: u32,
    pub place: u64,
    pub vertices: u64,
    pub indices: u64,
}

extern "C" {
    fn bridgeyarn_extract(
        size: u32, numbering: u32, samples: *const f32, sample_count: usize, work: *mut u32, work_count: usize,
        vertices: *mut f32, vertex_room: usize, indices: *mut u32, index_room: usize,
    ) -> Answer;
}

pub const CRATE: u32 = 0;
pub const JOINED: u32 = 1;

/// All memory that is lent to a call. Floats are held by their bits, so that every pattern is told apart.
#[derive(Clone, PartialEq)]
pub struct Lent {
    pub work: Vec<u32>,
    pub vertices: Vec<f32>,
    pub indices: Vec<u32>,
}

impl Lent {
    /// Memory of these lengths with something in it.
    pub fn garbage(random: &mut Random, work: usize, vertices: usize, indices: usize) -> Lent {
        let mut words = |k: usize| (0..k).map(|_| random.next() as u32).collect::<Vec<u32>>();
        Lent { work: words(work), indices: words(indices), vertices: words(vertices).into_iter().map(|b| f32::from_bits(b & 0x7F7F_FFFF)).collect() }
    }

    fn same(&self, other: &Lent) -> bool {
        let bits = |l: &Lent| l.vertices.iter().map(|v| v.to_bits()).collect::<Vec<u32>>();
        self.work == other.work && self.indices == other.indices && bits(self) == bits(other)
    }
}

pub fn extract(size: u32, numbering: u32, samples: &[f32], lent: &mut Lent) -> Answer {
    unsafe {
        bridgeyarn_extract(
            size, numbering, samples.as_ptr(), samples.len(), lent.work.as_mut_ptr(), lent.work.len(),
            lent.vertices.as_mut_ptr(), lent.vertices.len(), lent.indices.as_mut_ptr(), lent.indices.len(),
        )
    }
}

pub fn work_room(n: usize) -> usize {
    8 * n * n + 6 * n
}

pub struct Mesh {
    pub vertices: Vec<f32>,
    pub indices: Vec<u32>,
}

/// It asks for samples in the order of their places, so a source that counts its calls hands out the next.
struct Stored<'a>(&'a [f32], Cell<usize>);

impl<'a> Source for Stored<'a> {
    fn sample(&self, _: f32, _: f32, _: f32) -> f32 {
        let at = self.1.get();
        self.1.set(at + 1);
        self.0[at]
    }
}

pub fn rust_mesh(n: usize, samples: &[f32]) -> Mesh {
    let mut mesh = Mesh { vertices: Vec::new(), indices: Vec::new() };
    let source = Stored(samples, Cell::new(0));
    MarchingCubes::new(n).extract(&source, &mut mesh.vertices, &mut mesh.indices);
    assert_eq!(source.1.get(), samples.len(), "the Rust reads each sample once");
    mesh
}

/// Document 01 as it stands: the first visit to a grid edge makes the next vertex, a later one names it.
pub fn joined_mesh(n: usize, samples: &[f32]) -> Mesh {
    let h = 1.0 / (n - 1) as f32;
    let at = |p: [usize; 3]| samples[(p[2] * n + p[1]) * n + p[0]];
    let point = |p: [usize; 3]| Vec3 { x: p[0] as f32 * h, y: p[1] as f32 * h, z: p[2] as f32 * h };
    let mut mesh = Mesh { vertices: Vec::new(), indices: Vec::new() };
    // the vertex of each grid edge that was met: the edge is named by its lower end and its axis
    let mut met = vec![u32::MAX; 3 * samples.len()];
    for z in 0..n {
        for y in 0..n - 1 {
            for x in 0..n - 1 {
                let corner = |c: usize| [x + CORNERS[c][0], y + CORNERS[c][1], z + CORNERS[c][2]];
                let values: [f32; 8] = std::array::from_fn(|c| at(corner(c)));
                march_cube(&values, |e| {
                    let (u, v) = (corner(EDGE_CONNECTION[e][0]), corner(EDGE_CONNECTION[e][1]));
                    let (low, axis) = (u.min(v), (0..3).find(|&a| u[a] != v[a]).unwrap());
                    let number = &mut met[3 * ((low[2] * n + low[1]) * n + low[0]) + axis];
                    if *number == u32::MAX {
                        *number = mesh.vertices.len() as u32 / 3;
                        let p = interpolate(point(u), point(v), get_offset(at(u), at(v)));
                        mesh.vertices.extend([p.x, p.y, p.z]);
                    }
                    mesh.indices.push(*number);
                });
            }
        }
    }
    mesh
}

pub fn mesh_of(numbering: u32, n: usize, samples: &[f32]) -> Mesh {
    if numbering == CRATE { rust_mesh(n, samples) } else { joined_mesh(n, samples) }
}

fn good(v: f32) -> bool {
    v.is_finite() && v.abs() <= f32::from_bits(0x7E80_0000)
}

/// What document 01's table says that the call answers and leaves.
pub fn expected(size: u32, numbering: u32, samples: &[f32], before: &Lent) -> (Answer, Lent) {
    let n = size as usize;
    let refused = |cause: u32, place: usize| (Answer { cause, place: place as u64, vertices: 0, indices: 0 }, before.clone());
    if !(2..=128).contains(&n) {
        return refused(1, 0);
    }
    if numbering > 1 {
        return refused(2, 0);
    }
    if samples.len() != grids::count(n) {
        return refused(3, 0);
    }
    if before.work.len() < work_room(n) {
        return refused(4, 0);
    }
    if let Some(place) = samples.iter().position(|&v| !good(v)) {
        return refused(5, place);
    }
    let mesh = mesh_of(numbering, n, samples);
    let mut after = before.clone();
    after.work[..work_room(n)].fill(0);
    let cause = if before.vertices.len() < mesh.vertices.len() {
        6
    } else if before.indices.len() < mesh.indices.len() {
        7
    } else {
        after.vertices[..mesh.vertices.len()].copy_from_slice(&mesh.vertices);
        after.indices[..mesh.indices.len()].copy_from_slice(&mesh.indices);
        0
    };
    (Answer { cause, place: 0, vertices: mesh.vertices.len() as u64 / 3, indices: mesh.indices.len() as u64 }, after)
}

pub fn compare(size: u32, numbering: u32, samples: &[f32], before: &Lent) -> Result<Answer, String> {
    let (answer, after) = expected(size, numbering, samples, before);
    let mut lent = before.clone();
    let ours = extract(size, numbering, samples, &mut lent);
    if ours == answer && lent.same(&after) {
        return Ok(ours);
    }
    let what = if ours != answer {
        format!("answered {ours:?}, expected {answer:?}")
    } else if lent.work != after.work {
        "left other working memory".to_string()
    } else if lent.indices != after.indices {
        let at = lent.indices.iter().zip(&after.indices).position(|(p, q)| p != q).unwrap_or(0);
        format!("index {at} is {}, expected {}", lent.indices[at], after.indices[at])
    } else {
        let at = lent.vertices.iter().zip(&after.vertices).position(|(p, q)| p.to_bits() != q.to_bits()).unwrap_or(0);
        format!("float {at} is {:08X}, expected {:08X}", lent.vertices[at].to_bits(), after.vertices[at].to_bits())
    };
    let mut bits: Vec<String> = samples.iter().take(200).map(|v| format!("{:08X}", v.to_bits())).collect();
    bits.truncate(200);
    Err(format!("size {size} numbering {numbering}: {what}; samples {}", bits.join(" ")))
}

/// A call with room to spare, garbage everywhere.
pub fn compare_meshed(random: &mut Random, n: usize, samples: &[f32]) -> Result<[u64; 2], String> {
    let mut counts = [0; 2];
    for numbering in [CRATE, JOINED] {
        let mesh = mesh_of(numbering, n, samples);
        let spare = random.below(4) as usize;
        let before = Lent::garbage(random, work_room(n) + spare, mesh.vertices.len() + spare, mesh.indices.len() + spare);
        counts[numbering as usize] = compare(n as u32, numbering, samples, &before)?.indices / 3;
    }
    Ok(counts)
}

/// All 4,096 sign patterns of size 2, in several sets of values.
fn size_two_on_all_sign_patterns(_: u64) -> Result<String, String> {
    let mut random = Random::new(21);
    let tiny = f32::from_bits(1);
    let limit = f32::from_bits(0x7E80_0000);
    let sets = [(-1.0, 1.0), (0.0, 1.0), (-0.0, tiny), (-tiny, limit), (-limit, limit), (-0.75, 0.3)];
    for (inside, outside) in sets {
        for pattern in 0..4096 {
            let samples: Vec<f32> = (0..12).map(|i| if pattern >> i & 1 == 1 { inside } else { outside }).collect();
            compare_meshed(&mut random, 2, &samples)?;
        }
    }
    Ok(format!("4096 patterns in {} sets of values, both numberings", sets.len()))
}

/// A grid is compared for every hundred cases asked for: it is some thousand times the work of one cell.
fn random_grids(count: u64) -> Result<String, String> {
    let mut random = Random::new(22);
    let mut triangles = [0; 2];
    let grids_done = (count / 100).max(2000);
    for _ in 0..grids_done {
        let n = 2 + random.below(15) as usize;
        let samples = if random.below(4) == 0 { grids::smooth(&mut random, n) } else { grids::random(&mut random, n) };
        let made = compare_meshed(&mut random, n, &samples)?;
        triangles[0] += made[0];
        triangles[1] += made[1];
    }
    Ok(format!("{grids_done} grids of sizes 2 to 16, {} triangles in either numbering", triangles[0]))
}

fn large_grids(count: u64) -> Result<String, String> {
    let mut random = Random::new(23);
    let grids_done = (count / 80_000).clamp(12, 400);
    for i in 0..grids_done {
        let n = [128, 127, 97, 96, 65, 64, 63, 33, 32, 31, 100, 50][i as usize % 12];
        let samples = if i % 3 == 0 { grids::random(&mut random, n) } else { grids::smooth(&mut random, n) };
        compare_meshed(&mut random, n, &samples)?;
    }
    Ok(format!("{grids_done} grids of sizes 31 to 128"))
}

/// Every cause, with buffers exact, one short, longer and empty, and garbage in the working memory.
fn causes_and_what_they_leave(count: u64) -> Result<String, String> {
    let mut random = Random::new(24);
    let mut causes = [0u64; 8];
    let rounds = (count / 100).max(5000);
    for _ in 0..rounds {
        let n = 2 + random.below(6) as usize;
        let numbering = random.below(2) as u32;
        let mut samples = grids::random(&mut random, n);
        let mesh = mesh_of(numbering, n, &samples);
        let vary = |random: &mut Random, exact: usize| match random.below(5) {
            0 => exact.saturating_sub(1),
            1 => 0,
            2 => exact + 1 + random.below(5) as usize,
            _ => exact,
        };
        let mut before = Lent::garbage(&mut random, work_room(n), 0, 0);
        if random.below(8) == 0 {
            before.work.truncate(vary(&mut random, work_room(n)));
        }
        let (floats, words) = (vary(&mut random, mesh.vertices.len()), vary(&mut random, mesh.indices.len()));
        let outputs = Lent::garbage(&mut random, 0, floats, words);
        (before.vertices, before.indices) = (outputs.vertices, outputs.indices);
        let (mut size, mut word) = (n as u32, numbering);
        match random.below(24) {
            0 => size = [0, 1, 129, 130, u32::MAX][random.below(5) as usize],
            1 => word = [2, 3, u32::MAX][random.below(3) as usize],
            2 => { samples.pop(); }
            3 => samples.push(1.0),
            4 => samples.clear(),
            5 => { let at = random.below(samples.len() as u64) as usize; samples[at] = [f32::NAN, f32::INFINITY, f32::NEG_INFINITY, f32::from_bits(0x7E80_0001), -f32::from_bits(0x7F00_0000)][random.below(5) as usize]; }
            6 => { for _ in 0..3 { let at = random.below(samples.len() as u64) as usize; samples[at] = random.any_f32(); } }
            _ => (),
        }
        causes[compare(size, word, &samples, &before)?.cause as usize] += 1;
    }
    if causes.iter().any(|&c| c == 0) {
        return Err(format!("a cause never came up: {causes:?}"));
    }
    Ok(format!("{rounds} calls, by cause {causes:?}"))
}

/// FACTS: an entry for edge 4 that is read again two sample planes higher. Difference 6 keeps what the Rust does.
fn difference_6_stale_entry(_: u64) -> Result<String, String> {
    let mut samples = vec![1.0; grids::count(4)];
    for place in [0, 1, 5, 20, 52] {
        samples[place] = -1.0;
    }
    let mesh = rust_mesh(4, &samples);
    let index = mesh.indices[42];
    if (mesh.vertices.len(), mesh.indices.len(), index) != (75, 45, 14) {
        return Err(format!("the Rust gives V {} I {} and index 42 is {index}", mesh.vertices.len() / 3, mesh.indices.len()));
    }
    let mut random = Random::new(25);
    compare_meshed(&mut random, 4, &samples)?;
    Ok("the grid of size 4 whose index 42 names vertex 14, on another edge".to_string())
}

pub const TESTS: &[crate::Test] = &[
    ("size_two_on_all_sign_patterns", size_two_on_all_sign_patterns),
    ("random_grids", random_grids),
    ("large_grids", large_grids),
    ("causes_and_what_they_leave", causes_and_what_they_leave),
    ("difference_6_stale_entry", difference_6_stale_entry),
];
