//! As many grids as asked, with progress. A grid on which the library differs is written out as a sample record, which `harness check`
//! takes up again.
use crate::extraction::{self, compare_meshed, Lent};
use crate::grids;
use crate::random::Random;
use std::time::Instant;

/// The bytes of a sample record.
pub fn record_of(n: usize, numbering: u32, samples: &[f32]) -> Vec<u8> {
    let words = [1, n as u32, numbering, samples.len() as u32, 20];
    words.into_iter().chain(samples.iter().map(|v| v.to_bits())).flat_map(u32::to_le_bytes).collect()
}

#[derive(Default)]
struct Totals {
    grids: u64,
    triangles: u64,
    seconds: f64,
}

/// One grid in both numberings; the one that differs is left in a file.
fn one(random: &mut Random, n: usize, samples: &[f32], differing: &str) -> Result<u64, String> {
    compare_meshed(random, n, samples).map(|made| made[0]).map_err(|what| {
        for numbering in [extraction::CRATE, extraction::JOINED] {
            let path = format!("{differing}-{numbering}.record");
            std::fs::write(&path, record_of(n, numbering, samples)).expect("writing the record that differs");
            println!("grids: the grid that differs is {path}; `harness check {path}` compares it again");
        }
        what
    })
}

fn run(name: &str, seed: u64, count: u64, sizes: (u64, u64), differing: &str) -> Result<Totals, String> {
    let mut random = Random::new(seed);
    let mut totals = Totals::default();
    let start = Instant::now();
    let (low, high) = sizes;
    for i in 0..count {
        let n = (low + random.below(high - low + 1)) as usize;
        let samples = if random.below(4) == 0 { grids::smooth(&mut random, n) } else { grids::random(&mut random, n) };
        totals.triangles += one(&mut random, n, &samples, differing)?;
        totals.grids += 1;
        if (i + 1) % count.div_ceil(10) == 0 || i + 1 == count {
            println!("grids: {name} {} of {count}, {} triangles, {:.0} s", i + 1, totals.triangles, start.elapsed().as_secs_f64());
        }
    }
    totals.seconds = start.elapsed().as_secs_f64();
    Ok(totals)
}

/// `count` grids of sizes 2 to 6, and one in 5,000 as many of sizes 65 to 128, each in both numberings with every buffer compared whole.
pub fn grids(count: u64, seed: u64, differing: &str) -> i32 {
    println!("grids: seed {seed}");
    let small = run("small", seed, count, (2, 6), differing);
    let large = small.and_then(|s| run("large", seed + 1, count.div_ceil(5000), (65, 128), differing).map(|l| (s, l)));
    match large {
        Ok((s, l)) => {
            println!(
                "grids: seed {seed}: {} of sizes 2 to 6 ({} triangles, {:.0} s) and {} of sizes 65 to 128 ({} triangles, {:.0} s), both numberings, no difference",
                s.grids, s.triangles, s.seconds, l.grids, l.triangles, l.seconds
            );
            0
        }
        Err(what) => {
            println!("grids: DIFFERS: {what}");
            1
        }
    }
}

/// Compares the grids of sample records, each with room to spare.
pub fn check(paths: &[String]) -> i32 {
    let mut random = Random::new(31);
    for path in paths {
        let bytes = std::fs::read(path).expect("reading the record");
        let words: Vec<u32> = bytes.chunks_exact(4).map(|w| u32::from_le_bytes([w[0], w[1], w[2], w[3]])).collect();
        let (size, numbering) = (words[1], words[2]);
        let samples: Vec<f32> = words[5..].iter().map(|&w| f32::from_bits(w)).collect();
        let most = 15 * samples.len();
        let before = Lent::garbage(&mut random, extraction::work_room(size.min(128) as usize), 3 * most, most);
        match extraction::compare(size, numbering, &samples, &before) {
            Ok(answer) => println!("{path}: {answer:?}, no difference"),
            Err(what) => {
                println!("{path}: DIFFERS: {what}");
                return 1;
            }
        }
    }
    0
}
