//! The Rust's positions against the exact crossing, a fraction of whole numbers: demand 3, run beside its proof.
//!
//! Everything is counted in units of 2^-149, of which every finite f32 is a whole number, so 512 bits hold every product exactly.
use crate::isosurface::marching_cubes_impl::{get_offset, interpolate};
use crate::isosurface::marching_cubes_tables::{CORNERS, EDGE_CONNECTION};
use crate::isosurface::math::Vec3;
use crate::random::Random;

/// A whole number below 2^512, the lowest 64 bits first.
#[derive(Clone, Copy, PartialEq)]
struct Whole([u64; 8]);

impl Whole {
    /// The size of a finite f32 in units of 2^-149.
    fn units(v: f32) -> Whole {
        let bits = v.to_bits() & 0x7FFF_FFFF;
        let (exponent, digits) = (bits >> 23, (bits & 0x7F_FFFF) as u64);
        match exponent {
            0 => Whole::from(digits),
            _ => Whole::from(digits | 0x80_0000).shifted(exponent - 1),
        }
    }

    fn from(n: u64) -> Whole {
        Whole([n, 0, 0, 0, 0, 0, 0, 0])
    }

    fn shifted(&self, places: u32) -> Whole {
        let (words, bits) = ((places / 64) as usize, places % 64);
        let mut out = [0; 8];
        for i in words..8 {
            let low = if bits > 0 && i > words { self.0[i - words - 1] >> (64 - bits) } else { 0 };
            out[i] = self.0[i - words] << bits | low;
        }
        Whole(out)
    }

    fn plus(&self, other: &Whole) -> Whole {
        let mut out = [0; 8];
        let mut carry = 0;
        for i in 0..8 {
            let sum = self.0[i] as u128 + other.0[i] as u128 + carry;
            out[i] = sum as u64;
            carry = sum >> 64;
        }
        assert!(carry == 0, "a sum of 512 bits");
        Whole(out)
    }

    /// Self less other, for an other that is no larger.
    fn minus(&self, other: &Whole) -> Whole {
        let mut out = [0; 8];
        let mut borrow = false;
        for i in 0..8 {
            let (first, under) = self.0[i].overflowing_sub(other.0[i]);
            let (second, below) = first.overflowing_sub(borrow as u64);
            out[i] = second;
            borrow = under | below;
        }
        assert!(!borrow, "a difference below zero");
        Whole(out)
    }

    fn times(&self, other: &Whole) -> Whole {
        let mut out = [0; 8];
        for i in 0..8 {
            let mut carry = 0;
            if self.0[i] == 0 {
                continue;
            }
            for j in 0..8 {
                let product = self.0[i] as u128 * other.0[j] as u128 + carry;
                if i + j >= 8 {
                    assert!(product == 0, "a product of 512 bits");
                    continue;
                }
                let sum = out[i + j] as u128 + (product & u64::MAX as u128);
                out[i + j] = sum as u64;
                carry = (product >> 64) + (sum >> 64);
            }
            assert!(carry == 0, "a product of 512 bits");
        }
        Whole(out)
    }

    fn at_most(&self, other: &Whole) -> bool {
        self.0.iter().rev().le(other.0.iter().rev())
    }

    fn distance(&self, other: &Whole) -> Whole {
        if self.at_most(other) { other.minus(self) } else { self.minus(other) }
    }

    /// Good to 52 digits, for the report.
    fn about(&self) -> f64 {
        self.0.iter().rev().fold(0.0, |sum, word| sum * 18446744073709551616.0 + *word as f64)
    }
}

/// How far x is from the exact crossing of an edge that has the whole numbers j and k on this axis and the samples a and b, in
/// parts of 2^-24: (j B + k A) / ((n - 1) (A + B)). More than 16 parts, which is 2^-20, is an error.
fn parts_off(x: f32, n: u64, j: u64, k: u64, a: f32, b: f32) -> Result<f64, String> {
    let (size_a, size_b) = (Whole::units(a), Whole::units(b));
    let top = Whole::from(j).times(&size_b).plus(&Whole::from(k).times(&size_a));
    let bottom = Whole::from(n - 1).times(&size_a.plus(&size_b));
    let off = Whole::units(x).times(&bottom).distance(&top.shifted(149));
    let part = bottom.shifted(149 - 24);
    let parts = off.about() / part.about();
    if off.at_most(&part.shifted(4)) { Ok(parts) } else { Err(format!("{parts} parts of 2^-24 off")) }
}

/// Sizes from 2 to 512, the ends and the neighbours of powers of two drawn often.
fn size(random: &mut Random) -> u64 {
    let often = [2, 3, 4, 5, 6, 127, 128, 129, 255, 256, 257, 258, 510, 511, 512];
    match random.below(3) {
        0 => often[random.below(often.len() as u64) as usize],
        _ => 2 + random.below(511),
    }
}

fn of_bits(sign: u32, bits: u32) -> f32 {
    f32::from_bits(sign << 31 | bits)
}

/// Two accepted samples, exactly one of them <= 0.0, in either order.
fn crossing(random: &mut Random) -> (f32, f32) {
    let limit = 0x7E80_0000;
    let first = 1 + random.below(limit as u64) as u32;
    let (above, below) = match random.below(8) {
        // any two magnitudes, in nearly all cases wildly different
        0 => (first, 1 + random.below(limit as u64) as u32),
        // exponents near each other, so that neither end outweighs the other
        1 | 2 => {
            let apart = random.below(6 << 23) as u32;
            (first, (first + apart).saturating_sub(3 << 23).clamp(1, limit))
        }
        // near 1.0
        3 => (0x3F00_0000 + random.below(0x0180_0000) as u32, 0x3F00_0000 + random.below(0x0180_0000) as u32),
        // subnormals, and the smallest normal values
        4 => (1 + random.below(0x00FF_FFFF) as u32, 1 + random.below(0x00FF_FFFF) as u32),
        // the limit and its neighbours against anything
        5 => (limit - random.below(3) as u32, if random.below(2) == 0 { first } else { limit - random.below(0x0100_0000) as u32 }),
        // a few units against a few units or anything
        6 => (1 + random.below(16) as u32, if random.below(2) == 0 { 1 + random.below(16) as u32 } else { first }),
        // a zero of either sign
        _ => (first, 0),
    };
    let (a, b) = match below {
        0 => (of_bits(0, above), of_bits(random.below(2) as u32, 0)),
        _ => (of_bits(0, above), of_bits(1, below)),
    };
    match random.below(2) {
        0 => (a, b),
        _ => (b, a),
    }
}

/// What the crate does at a visit, in its words.
fn rust_position(n: u64, u: [u64; 3], v: [u64; 3], a: f32, b: f32) -> Vec3 {
    let one_over_size = 1.0 / ((n - 1) as usize as f32);
    let corner = |p: [u64; 3]| {
        Vec3::new(p[0] as usize as f32 * one_over_size, p[1] as usize as f32 * one_over_size, p[2] as usize as f32 * one_over_size)
    };
    interpolate(corner(u), corner(v), get_offset(a, b))
}

/// The vertex on one edge of one cell: every coordinate finite, not -0.0, and within 16 parts. The most parts of the three.
fn vertex_off(n: u64, u: [u64; 3], v: [u64; 3], a: f32, b: f32) -> Result<f64, String> {
    let told = |what: String| format!("size {n} {u:?} {v:?} samples {:08X} {:08X}: {what}", a.to_bits(), b.to_bits());
    let (delta, t) = (b - a, get_offset(a, b));
    if delta == 0.0 || !delta.is_finite() || !(0.0 <= t && t <= 1.0) {
        return Err(told(format!("delta {delta:e}, offset {t:e}")));
    }
    let position = rust_position(n, u, v, a, b);
    let mut most = 0.0;
    for (axis, x) in [position.x, position.y, position.z].into_iter().enumerate() {
        if !x.is_finite() || x.is_sign_negative() {
            return Err(told(format!("coordinate {axis} is {x:e}")));
        }
        let parts = parts_off(x, n, u[axis], v[axis], a, b).map_err(|off| told(format!("coordinate {axis} is {off}")))?;
        most = f64::max(most, parts);
    }
    Ok(most)
}

/// A grid edge with its two samples, in order.
#[derive(Clone, Copy)]
struct Edge {
    n: u64,
    u: [u64; 3],
    v: [u64; 3],
    a: f32,
    b: f32,
}

impl Edge {
    /// An edge of a random cell, by the crate's own tables, half of them with their ends exchanged; the last cell is drawn often.
    fn random(random: &mut Random) -> Edge {
        let n = size(random);
        let cell = match random.below(8) {
            0 => [n - 2, n - 2, n - 1],
            _ => [random.below(n - 1), random.below(n - 1), random.below(n)],
        };
        let ends = EDGE_CONNECTION[random.below(12) as usize];
        let place = |end: usize| [0, 1, 2].map(|axis: usize| cell[axis] + CORNERS[ends[end] as usize][axis] as u64);
        let turned = random.below(2) as usize;
        let (a, b) = crossing(random);
        Edge { n, u: place(turned), v: place(1 - turned), a, b }
    }

    /// The same edge with other digits in its samples, or moved by one along an axis, where that is still a crossing in the grid.
    fn changed(&self, random: &mut Random) -> Edge {
        let mut edge = *self;
        let (axis, spread) = (random.below(3) as usize, 1 << random.below(23));
        let digits = |v: f32, by: u64| f32::from_bits(v.to_bits().wrapping_add(by as u32).wrapping_sub(spread as u32));
        match random.below(4) {
            0 => edge.a = digits(edge.a, random.below(2 * spread + 1)),
            1 => edge.b = digits(edge.b, random.below(2 * spread + 1)),
            2 if edge.u[axis].max(edge.v[axis]) < self.n - 1 => {
                edge.u[axis] += 1;
                edge.v[axis] += 1;
            }
            _ if edge.u[axis].min(edge.v[axis]) > 0 => {
                edge.u[axis] -= 1;
                edge.v[axis] -= 1;
            }
            _ => {}
        }
        let accepted = |v: f32| v.abs() <= f32::from_bits(0x7E80_0000);
        let crossed = (edge.a <= 0.0) != (edge.b <= 0.0);
        if crossed && accepted(edge.a) && accepted(edge.b) { edge } else { *self }
    }

    fn parts_off(&self) -> Result<f64, String> {
        vertex_off(self.n, self.u, self.v, self.a, self.b)
    }
}

/// The worst edge so far, and how many were more than 1, 2, 3 and 4 parts off.
struct Worst {
    edge: Edge,
    parts: f64,
    over: [u64; 4],
}

impl Worst {
    fn new(edge: Edge) -> Worst {
        Worst { edge, parts: 0.0, over: [0; 4] }
    }

    fn meet(&mut self, edge: &Edge, parts: f64) {
        for (i, over) in self.over.iter_mut().enumerate() {
            *over += (parts > (i + 1) as f64) as u64;
        }
        if parts > self.parts {
            (self.edge, self.parts) = (*edge, parts);
        }
    }

    fn told(&self, count: u64) -> String {
        let Edge { n, u, v, a, b } = self.edge;
        let at = format!("size {n} {u:?} {v:?} samples {:08X} {:08X}", a.to_bits(), b.to_bits());
        format!("{count} edges, worst {:.4} parts of 2^-24 (16 allowed) at {at}; over 1, 2, 3, 4 parts: {:?}", self.parts, self.over)
    }
}

fn positions_near_the_exact_crossing(count: u64) -> Result<String, String> {
    let mut random = Random::new(3);
    let mut worst = Worst::new(Edge::random(&mut random));
    for _ in 0..count {
        let edge = Edge::random(&mut random);
        worst.meet(&edge, edge.parts_off()?);
    }
    Ok(worst.told(count))
}

/// Each edge is changed for the worse, until a hundred changes in turn have not made it worse.
fn positions_near_the_exact_crossing_at_worst(count: u64) -> Result<String, String> {
    let mut random = Random::new(4);
    let mut edge = Edge::random(&mut random);
    let mut worst = Worst::new(edge);
    let (mut parts, mut idle) = (0.0, 0);
    for _ in 0..count {
        let next = if idle == 100 { Edge::random(&mut random) } else { edge.changed(&mut random) };
        let now = next.parts_off()?;
        worst.meet(&next, now);
        if idle == 100 || now > parts {
            (edge, parts, idle) = (next, now, 0);
        } else {
            idle += 1;
        }
    }
    Ok(worst.told(count))
}

/// The exact crossing worked out by hand: -1.0 at 1 and 3.0 at 2 in a grid of size 5 cross at 5/16, which is exact as an f32.
fn positions_reference_on_a_known_edge(_: u64) -> Result<String, String> {
    let off = |x: f32| parts_off(x, 5, 1, 2, -1.0, 3.0);
    let near = (off(0.3125)?, off(0.3125 + 1.0 / 1048576.0)?, off(0.3125 - 1.0 / 1048576.0)?);
    if near != (0.0, 16.0, 16.0) || off(0.3125 + 1.0 / 1048576.0 + 1.0 / 16777216.0).is_ok() {
        return Err(format!("{near:?}"));
    }
    Ok("5/16 is 0 parts off, and 16 parts on either side are the last accepted".to_string())
}

pub const TESTS: &[(&str, fn(u64) -> Result<String, String>)] = &[
    ("positions_reference_on_a_known_edge", positions_reference_on_a_known_edge),
    ("positions_near_the_exact_crossing", positions_near_the_exact_crossing),
    ("positions_near_the_exact_crossing_at_worst", positions_near_the_exact_crossing_at_worst),
];
