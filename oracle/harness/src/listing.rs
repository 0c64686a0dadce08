//! Records for the listing program and the text that it owes for each: document 01's cases in both numberings, each refusal, the longest
//! record, cut and longer ones. The text is a twin of document 01's "Record and listing", over the Rust's mesh or the joined one.
use crate::extraction::{mesh_of, Mesh};
use crate::grids;
use crate::random::Random;
use crate::scale::record_of;
use std::fmt::Write;
use std::io::Result;
use std::path::Path;

const MOST_SIZE: u32 = 7;

fn mesh_text(n: usize, numbering: u32, mesh: &Mesh) -> String {
    let word = ["crate", "joined"][numbering as usize];
    let mut text = format!("size {n} numbering {word} vertices {} indices {}\n", mesh.vertices.len() / 3, mesh.indices.len());
    for v in mesh.vertices.chunks_exact(3) {
        writeln!(text, "v {:08X} {:08X} {:08X}", v[0].to_bits(), v[1].to_bits(), v[2].to_bits()).unwrap();
    }
    for f in mesh.indices.chunks_exact(3) {
        writeln!(text, "f {} {} {}", f[0], f[1], f[2]).unwrap();
    }
    text
}

/// What the program owes for these bytes.
fn expected(bytes: &[u8]) -> String {
    let refused = |cause: u32, place: usize| format!("refused {cause} at {place}\n");
    if bytes.len() < 20 {
        return refused(8, bytes.len());
    }
    let words: Vec<u32> = bytes.chunks_exact(4).map(|w| u32::from_le_bytes([w[0], w[1], w[2], w[3]])).collect();
    let (version, size, numbering, count, offset) = (words[0], words[1], words[2], words[3], words[4]);
    if version != 1 {
        return refused(8, 0);
    }
    if !(2..=MOST_SIZE).contains(&size) {
        return refused(1, 0);
    }
    if numbering > 1 {
        return refused(2, 0);
    }
    if count != size * size * (size + 1) {
        return refused(3, 0);
    }
    if offset != 20 {
        return refused(8, 16);
    }
    if bytes.len() as u32 != 20 + 4 * count {
        return refused(8, 20);
    }
    let samples: Vec<f32> = words[5..].iter().map(|&w| f32::from_bits(w)).collect();
    if let Some(place) = samples.iter().position(|v| !(v.abs() <= f32::from_bits(0x7E80_0000))) {
        return refused(5, place);
    }
    mesh_text(size as usize, numbering, &mesh_of(numbering, size as usize, &samples))
}

fn with(changes: &[(usize, f32)], others: f32) -> Vec<f32> {
    let mut samples = vec![others; 12];
    changes.iter().for_each(|&(place, value)| samples[place] = value);
    samples
}

/// Document 01's cases W1 to W6 and W11, and larger grids, in both numberings.
fn grids_to_list() -> Vec<(String, Vec<u8>)> {
    let mut random = Random::new(41);
    let mut named = vec![
        ("w1".to_string(), 2, with(&[], 1.0)),
        ("w2".to_string(), 2, with(&[], -1.0)),
        ("w3".to_string(), 2, with(&[(0, -1.0)], 1.0)),
        ("w4-w5".to_string(), 2, with(&[(4, -1.0)], 1.0)),
        ("w6".to_string(), 2, with(&[(0, 0.0)], 1.0)),
        ("w6-minus-zero".to_string(), 2, with(&[(0, -0.0)], 1.0)),
        ("w11-passes".to_string(), 2, with(&[(7, -f32::from_bits(0x7E80_0000))], 1.0)),
    ];
    for n in 3..=7 {
        named.push((format!("smooth-size-{n}"), n, grids::smooth(&mut random, n)));
        named.push((format!("random-size-{n}"), n, (0..grids::count(n)).map(|_| if random.below(2) == 0 { -1.0 } else { 1.0 }).collect()));
    }
    // five triangles in many cells: the most lines
    named.push(("most-lines".to_string(), 7, (0..grids::count(7)).map(|i| if (i % 7 + i / 7 % 7 + i / 49) % 2 == 0 { -1.0 } else { 1.0 }).collect()));
    let both = |(name, n, samples): (String, usize, Vec<f32>)| {
        ["crate", "joined"].into_iter().enumerate().map(move |(word, tail)| (format!("{name}-{tail}"), record_of(n, word as u32, &samples))).collect::<Vec<_>>()
    };
    named.into_iter().flat_map(both).collect()
}

/// One record for each refusal and each place of cause 8, and some for which two refusals compete.
fn refusals() -> Vec<(String, Vec<u8>)> {
    let good = |n: usize| record_of(n, 1, &vec![1.0; grids::count(n)]);
    let word = |n: usize, place: usize, value: u32| {
        let mut bytes = good(n);
        bytes[4 * place..4 * place + 4].copy_from_slice(&value.to_le_bytes());
        bytes
    };
    let cut = |n: usize, length: usize| good(n)[..length].to_vec();
    let longer = |n: usize, more: usize| [good(n), vec![0; more]].concat();
    let sample = |place: usize, bits: u32| record_of(2, 1, &with(&[(place, f32::from_bits(bits)), (11, f32::NAN)], 1.0));
    let mut size_before_numbering = word(2, 1, 8);
    size_before_numbering[8] = 9;
    let mut numbering_before_count = word(2, 2, 2);
    numbering_before_count[12] = 11;
    [
        ("refused-8-empty", vec![]),
        ("refused-8-one-byte", vec![1]),
        ("refused-8-nineteen-bytes", cut(2, 19)),
        ("refused-8-version", word(2, 0, 2)),
        ("refused-1-size-1", word(2, 1, 1)),
        ("refused-1-size-0", word(2, 1, 0)),
        ("refused-1-size-8-whole", good(8)),
        ("refused-1-size-128-cut", record_of(128, 1, &[])),
        ("refused-1-size-largest", word(2, 1, u32::MAX)),
        ("refused-1-before-2", size_before_numbering),
        ("refused-2-numbering-2", word(2, 2, 2)),
        ("refused-2-numbering-largest", word(2, 2, u32::MAX)),
        ("refused-2-before-3", numbering_before_count),
        ("refused-3-one-less", word(2, 3, 11)),
        ("refused-3-cube", word(2, 3, 8)),
        ("refused-8-offset", word(2, 4, 24)),
        ("refused-8-cut-header-only", cut(2, 20)),
        ("refused-8-cut-by-one", cut(2, 67)),
        ("refused-8-longer-by-one", longer(2, 1)),
        ("refused-8-longest-cut", cut(7, 1587)),
        ("refused-8-longest-longer", longer(7, 1)),
        ("refused-8-much-longer", longer(7, 5000)),
        ("refused-5-nan", sample(7, 0x7FC0_0000)),
        ("refused-5-nan-payload", sample(0, 0xFFFF_FFFF)),
        ("refused-5-infinite", sample(3, 0xFF80_0000)),
        ("refused-5-w11", sample(2, 0x7E80_0001)),
        ("refused-5-last", sample(11, 0x7F80_0001)),
    ]
    .map(|(name, bytes)| (name.to_string(), bytes))
    .into()
}

/// Every record and its text, as NAME.record and NAME.text.
pub fn write(folder: &str) -> Result<()> {
    std::fs::create_dir_all(folder)?;
    for (name, bytes) in grids_to_list().into_iter().chain(refusals()) {
        std::fs::write(Path::new(folder).join(format!("{name}.record")), &bytes)?;
        std::fs::write(Path::new(folder).join(format!("{name}.text")), expected(&bytes))?;
    }
    Ok(())
}
