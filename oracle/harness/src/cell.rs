//! The cell call and the one-edge answer against `march_cube` and `get_offset`.
use crate::isosurface::marching_cubes_impl::{get_offset, march_cube};
use crate::isosurface::marching_cubes_tables::TRIANGLE_CONNECTION;
use crate::random::Random;

#[repr(C)]
#[derive(Clone, Copy, Debug, PartialEq)]
pub struct CellAnswer {
    pub signs: u8,
    pub edges: [i8; 16],
}

#[repr(C)]
#[derive(Clone, Copy, Debug)]
pub struct EdgeAnswer {
    pub kind: u32,
    pub cause: u32,
    pub place: u32,
    pub offset: f32,
}

extern "C" {
    fn bridgeyarn_cell(values: *const f32) -> CellAnswer;
    fn bridgeyarn_edge(a: f32, b: f32) -> EdgeAnswer;
}

fn cell(values: &[f32; 8]) -> CellAnswer {
    unsafe { bridgeyarn_cell(values.as_ptr()) }
}

fn edge(a: f32, b: f32) -> EdgeAnswer {
    unsafe { bridgeyarn_edge(a, b) }
}

/// What the Rust makes of a cell: the edges that it calls back with, then -1. It keeps its sign byte to itself, so the byte is
/// worked out here by the rule of document 01 and held to the Rust through the table's row.
pub fn rust_cell(values: &[f32; 8]) -> CellAnswer {
    let mut edges = [-1i8; 16];
    let mut count = 0;
    march_cube(values, |e| {
        edges[count] = e as i8;
        count += 1;
    });
    let signs = (0..8).map(|i| ((values[i] <= 0.0) as u8) << i).sum();
    CellAnswer { signs, edges }
}

fn compare_cell(values: &[f32; 8]) -> Result<(), String> {
    let (ours, rust) = (cell(values), rust_cell(values));
    if ours == rust && ours.edges == TRIANGLE_CONNECTION[ours.signs as usize] {
        return Ok(());
    }
    let bits: Vec<String> = values.iter().map(|v| format!("{:08X}", v.to_bits())).collect();
    Err(format!("cell {}: ours {:?}, the Rust's {:?}", bits.join(" "), ours, rust))
}

/// Every sign pattern, in three sets of values.
fn cell_on_all_sign_patterns(_: u64) -> Result<String, String> {
    let sets = [(-1.0, 1.0), (-0.0, f32::from_bits(1)), (f32::NEG_INFINITY, f32::NAN)];
    for (inside, outside) in sets {
        for pattern in 0..256 {
            let mut values = [outside; 8];
            for (i, v) in values.iter_mut().enumerate() {
                if pattern >> i & 1 == 1 {
                    *v = inside;
                }
            }
            let answer = cell(&values);
            if answer.signs as usize != pattern {
                return Err(format!("pattern {pattern}: sign byte {}", answer.signs));
            }
            compare_cell(&values)?;
        }
    }
    Ok("256 patterns in 3 sets of values".to_string())
}

fn cell_on_random_values(count: u64) -> Result<String, String> {
    let mut random = Random::new(1);
    for _ in 0..count {
        let mut values = [0.0; 8];
        for v in values.iter_mut() {
            *v = random.any_f32();
        }
        compare_cell(&values)?;
    }
    Ok(format!("{count} cells"))
}

fn good(v: f32) -> bool {
    v.is_finite() && v.abs() <= f32::from_bits(0x7E80_0000)
}

/// What document 01 says of one edge, with the offset from the Rust.
pub fn expected_edge(a: f32, b: f32) -> EdgeAnswer {
    let (mut kind, mut cause, mut place, mut offset) = (0, 0, 0, 0.0);
    if !good(a) || !good(b) {
        (kind, cause, place) = (2, 5, good(a) as u32);
    } else if (a <= 0.0) != (b <= 0.0) {
        (kind, offset) = (1, get_offset(a, b));
    }
    EdgeAnswer { kind, cause, place, offset }
}

fn same_edge(p: &EdgeAnswer, q: &EdgeAnswer) -> bool {
    (p.kind, p.cause, p.place, p.offset.to_bits()) == (q.kind, q.cause, q.place, q.offset.to_bits())
}

fn compare_edge(a: f32, b: f32) -> Result<EdgeAnswer, String> {
    let (ours, expected) = (edge(a, b), expected_edge(a, b));
    if same_edge(&ours, &expected) {
        return Ok(ours);
    }
    Err(format!("edge {:08X} {:08X}: ours {:?}, expected {:?}", a.to_bits(), b.to_bits(), ours, expected))
}

fn offset_on_crossing_edges(count: u64) -> Result<String, String> {
    let mut random = Random::new(2);
    for _ in 0..count {
        let a = random.good_f32();
        let mut b = random.good_f32();
        while (a <= 0.0) == (b <= 0.0) {
            b = random.good_f32();
        }
        if compare_edge(a, b)?.kind != 1 {
            return Err(format!("edge {:08X} {:08X} is no crossing", a.to_bits(), b.to_bits()));
        }
    }
    Ok(format!("{count} crossing edges"))
}

fn edge_answers_by_the_rule(count: u64) -> Result<String, String> {
    let mut random = Random::new(3);
    let mut kinds = [0u64; 3];
    for _ in 0..count {
        let (a, b) = (random.any_f32(), random.any_f32());
        kinds[compare_edge(a, b)?.kind as usize] += 1;
    }
    let [absent, at, refused] = kinds;
    Ok(format!("{count} edges: {absent} without a crossing, {at} crossings, {refused} refused"))
}

pub const TESTS: &[crate::Test] = &[
    ("cell_on_all_sign_patterns", cell_on_all_sign_patterns),
    ("cell_on_random_values", cell_on_random_values),
    ("offset_on_crossing_edges", offset_on_crossing_edges),
    ("edge_answers_by_the_rule", edge_answers_by_the_rule),
];
