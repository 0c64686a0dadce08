//! Requests and the answers that they must get, for `oracle/archive/replay.c`, which replays them through the archive that users
//! link. A record is its call's number as a little-endian u32, the arguments, then the answer: little-endian words, no gaps.
use crate::cell;
use crate::extraction::{self, Lent};
use crate::grids;
use crate::morton;
use crate::random::Random;
use crate::record;
use std::fs::File;
use std::io::{BufWriter, Result, Write};

const CELL: u32 = 1;
const EDGE: u32 = 2;
const KEY: u32 = 3;
const EXTRACT: u32 = 4;
const RECORD: u32 = 5;

struct Replay(BufWriter<File>);

impl Replay {
    fn call(&mut self, number: u32) -> Result<()> {
        self.words(&[number])
    }

    fn words(&mut self, words: &[u32]) -> Result<()> {
        words.iter().try_for_each(|w| self.0.write_all(&w.to_le_bytes()))
    }
}

fn cells(out: &mut Replay, count: u64) -> Result<()> {
    let mut random = Random::new(11);
    for _ in 0..count {
        let values: [f32; 8] = std::array::from_fn(|_| random.any_f32());
        let answer = cell::rust_cell(&values);
        out.call(CELL)?;
        out.words(&values.map(f32::to_bits))?;
        out.0.write_all(&[answer.signs])?;
        out.0.write_all(&answer.edges.map(|e| e as u8))?;
    }
    Ok(())
}

fn edges(out: &mut Replay, count: u64) -> Result<()> {
    let mut random = Random::new(12);
    for _ in 0..count {
        let (a, b) = (random.any_f32(), random.any_f32());
        let answer = cell::expected_edge(a, b);
        out.call(EDGE)?;
        out.words(&[a.to_bits(), b.to_bits(), answer.kind, answer.cause, answer.place, answer.offset.to_bits()])?;
    }
    Ok(())
}

fn keys(out: &mut Replay, count: u64) -> Result<()> {
    let mut random = Random::new(13);
    for _ in 0..count {
        // keys of all lengths, good and bad
        let key = random.next() >> random.below(64);
        let other = random.next();
        out.call(KEY)?;
        out.0.write_all(&key.to_le_bytes())?;
        out.0.write_all(&other.to_le_bytes())?;
        out.0.write_all(&morton::answers(key, other))?;
    }
    Ok(())
}

fn record(out: &mut Replay, bytes: &[u8]) -> Result<()> {
    let answer = record::expected(bytes);
    out.words(&[RECORD, bytes.len() as u32])?;
    out.0.write_all(bytes)?;
    out.words(&[answer.cause, answer.place as u32, (answer.place >> 32) as u32, answer.size, answer.numbering])
}

/// Small records, whole and damaged, and the largest of either numbering.
fn records(out: &mut Replay, count: u64) -> Result<()> {
    let mut random = Random::new(15);
    let mut bytes = record::Bytes::new(&mut random, 128);
    for _ in 0..count {
        record(out, bytes.draw(&mut random, 4))?;
    }
    (0..2).try_for_each(|numbering| record(out, bytes.good(128, numbering)))
}

fn lent(out: &mut Replay, memory: &Lent) -> Result<()> {
    out.words(&memory.work)?;
    out.words(&memory.vertices.iter().map(|v| v.to_bits()).collect::<Vec<u32>>())?;
    out.words(&memory.indices)
}

/// The lengths, the samples, all lent memory as it is before the call, the answer, and all of it as it is after.
fn extraction(out: &mut Replay, size: u32, numbering: u32, samples: &[f32], before: &Lent) -> Result<()> {
    let (answer, after) = extraction::expected(size, numbering, samples, before);
    let lengths = [samples.len(), before.work.len(), before.vertices.len(), before.indices.len()].map(|k| k as u32);
    out.words(&[EXTRACT, size, numbering])?;
    out.words(&lengths)?;
    out.words(&samples.iter().map(|v| v.to_bits()).collect::<Vec<u32>>())?;
    lent(out, before)?;
    out.words(&[answer.cause])?;
    [answer.place, answer.vertices, answer.indices].iter().try_for_each(|w| out.0.write_all(&w.to_le_bytes()))?;
    lent(out, &after)
}

/// Small grids in both numberings: with room to spare, one float short, one index short, and with a bad sample, size, numbering, number of
/// samples or too little working memory.
fn extractions(out: &mut Replay, count: u64) -> Result<()> {
    let mut random = Random::new(14);
    for i in 0..count {
        let n = 2 + random.below(6) as usize;
        let (mut size, mut numbering) = (n as u32, i as u32 % 2);
        let mut samples = grids::random(&mut random, n);
        let mesh = extraction::mesh_of(numbering, n, &samples);
        let spare = random.below(3) as usize;
        let (mut work, mut floats, mut words) = (extraction::work_room(n) + spare, mesh.vertices.len() + spare, mesh.indices.len() + spare);
        match random.below(16) {
            0 => size = [0, 1, 129][random.below(3) as usize],
            1 => numbering = 2,
            2 => samples.truncate(samples.len() - 1),
            3 => work = extraction::work_room(n) - 1,
            4 => samples[n] = random.any_f32(),
            5 => floats = mesh.vertices.len().saturating_sub(1),
            6 => words = mesh.indices.len().saturating_sub(1),
            _ => (),
        }
        let before = Lent::garbage(&mut random, work, floats, words);
        extraction(out, size, numbering, &samples, &before)?;
    }
    Ok(())
}

pub fn write(path: &str, count: u64) -> Result<()> {
    let mut out = Replay(BufWriter::new(File::create(path)?));
    cells(&mut out, count)?;
    edges(&mut out, count)?;
    keys(&mut out, count)?;
    extractions(&mut out, count / 100)?;
    records(&mut out, count)?;
    out.0.flush()
}
