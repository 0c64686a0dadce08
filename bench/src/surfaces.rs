//! The five grids that are timed: what a station meets, from the commonest to the worst.
use crate::random::Random;

pub const NAMES: [&str; 5] = ["sphere", "small", "gyroid", "noise", "empty"];

/// The samples of a surface at size n: a sphere that fills the box, a small one with about 1 % of the cells active, a gyroid of period
/// 16, signs at random, and nothing at all.
pub fn samples(name: &str, n: usize) -> Vec<f32> {
    let mut random = Random::new(1);
    let middle = (n as f32 - 1.0) / 2.0;
    let small = (0.01 * (n * n * n) as f32 / 18.85).sqrt().min(n as f32 / 4.0);
    let period = 2.0 * std::f32::consts::PI / 16.0;
    let mut all = Vec::with_capacity(n * n * (n + 1));
    for z in 0..=n {
        for y in 0..n {
            for x in 0..n {
                let (fx, fy, fz) = (x as f32, y as f32, z as f32);
                let (dx, dy, dz) = (fx - middle, fy - middle, fz - n as f32 / 2.0);
                let from_middle = (dx * dx + dy * dy + dz * dz).sqrt();
                let (a, b, c) = (fx * period + 0.1, fy * period + 0.2, fz * period + 0.3);
                all.push(match name {
                    "sphere" => (from_middle - (middle - 0.3)) / n as f32,
                    "small" => (from_middle - small) / n as f32,
                    "gyroid" => a.sin() * b.cos() + b.sin() * c.cos() + c.sin() * a.cos(),
                    "noise" => random.below(1 << 24) as f32 / (1 << 23) as f32 - 1.0,
                    _ => 1.0,
                });
            }
        }
    }
    all
}
