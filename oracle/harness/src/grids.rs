//! Grids of samples: random ones of several characters, and the surfaces that the bench and the planner use.
use crate::random::Random;

/// Sample (x, y, z) of a tall grid of size n stands at (z * n + y) * n + x; there are n + 1 layers.
pub fn count(n: usize) -> usize {
    n * n * (n + 1)
}

/// One character of random grid: how a sample is drawn.
fn sample(random: &mut Random, character: u64) -> f32 {
    let unit = |random: &mut Random| random.below(1 << 24) as f32 / (1 << 23) as f32 - 1.0;
    match character {
        // dense: either side with equal chance
        0 => unit(random),
        // sparse: few inside
        1 => if random.below(16) == 0 { -1.0 } else { 1.0 },
        2 => if random.below(16) == 0 { 1.0 } else { -1.0 },
        // zeros of both signs among few values
        3 => [0.0, -0.0, 1.0, -1.0, 0.5, f32::from_bits(1), -f32::from_bits(1)][random.below(7) as usize],
        // every magnitude that is accepted
        4 => random.good_f32(),
        // at the limit
        5 => [1.0, -1.0][random.below(2) as usize] * f32::from_bits(0x7E80_0000 - random.below(3) as u32),
        // subnormal
        _ => f32::from_bits(((random.next() as u32 & 1) << 31) | random.below(1 << 12) as u32),
    }
}

pub fn random(random: &mut Random, n: usize) -> Vec<f32> {
    let character = random.below(7);
    (0..count(n)).map(|_| sample(random, character)).collect()
}

/// A smooth surface with some noise, so that long runs of cells are empty.
pub fn smooth(random: &mut Random, n: usize) -> Vec<f32> {
    let unit = |random: &mut Random| random.below(1 << 20) as f32 / (1 << 20) as f32;
    let (cx, cy, cz, r) = (unit(random), unit(random), unit(random), 0.1 + 0.5 * unit(random));
    let noise = if random.below(2) == 0 { 0.0 } else { 0.02 };
    let h = 1.0 / (n - 1) as f32;
    let mut samples = Vec::with_capacity(count(n));
    for z in 0..=n {
        for y in 0..n {
            for x in 0..n {
                let (dx, dy, dz) = (x as f32 * h - cx, y as f32 * h - cy, z as f32 * h - cz);
                samples.push((dx * dx + dy * dy + dz * dz).sqrt() - r + noise * (unit(random) - 0.5));
            }
        }
    }
    samples
}
