//! The mesh record against a plain twin of document 02's CR 1, and round trips of extracted meshes. The Rust has no record, so the twin is written
//! from the document alone. Every buffer is compared whole, written or not.
use crate::extraction::{extract, mesh_of, work_room, Lent};
use crate::grids;
use crate::random::Random;

#[repr(C)]
#[derive(Clone, Copy, Debug, Default, PartialEq)]
struct WriteAnswer {
    cause: u32,
    place: u64,
    bytes: u64,
}

#[repr(C)]
#[derive(Clone, Copy, Debug, Default, PartialEq)]
struct ReadAnswer {
    cause: u32,
    size: u32,
    numbering: u32,
    place: u64,
    vertices: u64,
    indices: u64,
}

extern "C" {
    fn bridgeyarn_mesh_write(
        version: u32, size: u32, numbering: u32, coordinates: *const f32, coordinate_count: usize, indices: *const u32, index_count: usize,
        out: *mut u8, out_room: usize,
    ) -> WriteAnswer;
    fn bridgeyarn_mesh_read(bytes: *const u8, length: usize, coordinates: *mut f32, coordinate_room: usize, indices: *mut u32, index_room: usize) -> ReadAnswer;
}

/// A mesh to write. Coordinates are held by their bits; floats and words lie alike in memory.
#[derive(Clone, Debug, PartialEq)]
struct Mesh {
    version: u32,
    size: u32,
    numbering: u32,
    coordinates: Vec<u32>,
    indices: Vec<u32>,
}

/// What is lent to the reader, with something in it.
#[derive(Clone, PartialEq)]
struct Room {
    coordinates: Vec<u32>,
    indices: Vec<u32>,
}

fn words(random: &mut Random, count: usize) -> Vec<u32> {
    (0..count).map(|_| random.next() as u32).collect()
}

fn library_write(m: &Mesh, out: &mut [u8]) -> WriteAnswer {
    unsafe {
        bridgeyarn_mesh_write(
            m.version, m.size, m.numbering, m.coordinates.as_ptr().cast(), m.coordinates.len(), m.indices.as_ptr(), m.indices.len(),
            out.as_mut_ptr(), out.len(),
        )
    }
}

fn library_read(bytes: &[u8], room: &mut Room) -> ReadAnswer {
    unsafe {
        bridgeyarn_mesh_read(
            bytes.as_ptr(), bytes.len(), room.coordinates.as_mut_ptr().cast(), room.coordinates.len(), room.indices.as_mut_ptr(), room.indices.len(),
        )
    }
}

fn finite(bits: u32) -> bool {
    f32::from_bits(bits).is_finite()
}

/// The byte place of the lowest coordinate or index that is bad, in a record whose vertices begin at 28.
fn lowest_bad(coordinates: &[u32], indices: &[u32]) -> Option<usize> {
    let vertices = coordinates.len() / 3;
    let coordinate = coordinates.iter().position(|&c| !finite(c)).map(|k| 28 + 4 * k);
    coordinate.or_else(|| indices.iter().position(|&i| i as usize >= vertices).map(|k| 28 + 4 * coordinates.len() + 4 * k))
}

fn bytes_of(m: &Mesh) -> Vec<u8> {
    let (v, i) = (m.coordinates.len() as u32 / 3, m.indices.len() as u32);
    let header = [1, m.size, m.numbering, v, 28, i, 28 + 12 * v];
    header.iter().chain(&m.coordinates).chain(&m.indices).flat_map(|w| w.to_le_bytes()).collect()
}

fn expected_write(m: &Mesh, before: &[u8]) -> (WriteAnswer, Vec<u8>) {
    let refused = |cause: u32, place: usize| (WriteAnswer { cause, place: place as u64, bytes: 0 }, before.to_vec());
    if m.version != 1 {
        return refused(8, 0);
    }
    if !(2..=128).contains(&m.size) {
        return refused(1, 0);
    }
    if m.numbering > 1 {
        return refused(2, 0);
    }
    let most = u32::MAX as usize;
    if m.coordinates.len() % 3 != 0 || m.coordinates.len() / 3 > most {
        return refused(8, 12);
    }
    if m.indices.len() % 3 != 0 || m.indices.len() > most {
        return refused(8, 20);
    }
    if 28 + 4 * m.coordinates.len() > most {
        return refused(8, 24);
    }
    if let Some(place) = lowest_bad(&m.coordinates, &m.indices) {
        return refused(8, place);
    }
    let record = bytes_of(m);
    if before.len() < record.len() {
        return (WriteAnswer { cause: 10, place: 0, bytes: record.len() as u64 }, before.to_vec());
    }
    let answer = WriteAnswer { cause: 0, place: 0, bytes: record.len() as u64 };
    let rest = before[record.len()..].to_vec();
    (answer, [record, rest].concat())
}

fn expected_read(bytes: &[u8], before: &Room) -> (ReadAnswer, Room) {
    let refused = |cause: u32, place: usize| (ReadAnswer { cause, place: place as u64, ..ReadAnswer::default() }, before.clone());
    if bytes.len() < 28 {
        return refused(8, bytes.len());
    }
    let words: Vec<u32> = bytes.chunks_exact(4).map(|w| u32::from_le_bytes([w[0], w[1], w[2], w[3]])).collect();
    let (size, numbering, vertices, indices) = (words[1], words[2], words[3] as u128, words[5] as u128);
    if words[0] != 1 {
        return refused(8, 0);
    }
    if !(2..=128).contains(&size) {
        return refused(1, 0);
    }
    if numbering > 1 {
        return refused(2, 0);
    }
    if words[4] != 28 {
        return refused(8, 16);
    }
    if indices % 3 != 0 {
        return refused(8, 20);
    }
    if words[6] as u128 != 28 + 12 * vertices || bytes.len() as u128 != 28 + 12 * vertices + 4 * indices {
        return refused(8, 24);
    }
    let (coordinates, named) = words[7..].split_at(3 * vertices as usize);
    if let Some(place) = lowest_bad(coordinates, named) {
        return refused(8, place);
    }
    let answer = ReadAnswer { cause: 0, size, numbering, place: 0, vertices: vertices as u64, indices: indices as u64 };
    if before.coordinates.len() < coordinates.len() || before.indices.len() < named.len() {
        return (ReadAnswer { cause: 10, size: 0, numbering: 0, ..answer }, before.clone());
    }
    let mut after = before.clone();
    after.coordinates[..coordinates.len()].copy_from_slice(coordinates);
    after.indices[..named.len()].copy_from_slice(named);
    (answer, after)
}

fn compare_write(m: &Mesh, before: &[u8]) -> Result<WriteAnswer, String> {
    let mut after = before.to_vec();
    let ours = library_write(m, &mut after);
    let (answer, left) = expected_write(m, before);
    if (ours, &after) != (answer, &left) {
        let bytes = if after == left { "same bytes" } else { "other bytes" };
        let some = (m.version, m.size, m.numbering, m.coordinates.len(), m.indices.len(), m.coordinates.iter().chain(&m.indices).take(100).collect::<Vec<_>>());
        return Err(format!("write into {}: ours {ours:?}, expected {answer:?}, {bytes}: {some:X?}", before.len()));
    }
    Ok(ours)
}

fn compare_read(bytes: &[u8], before: &Room) -> Result<ReadAnswer, String> {
    let mut after = before.clone();
    let ours = library_read(bytes, &mut after);
    let (answer, left) = expected_read(bytes, before);
    if ours != answer || after != left {
        let buffers = if after == left { "same buffers" } else { "other buffers" };
        return Err(format!("read of {} bytes: ours {ours:?}, expected {answer:?}, {buffers}: {:02X?}", bytes.len(), &bytes[..bytes.len().min(400)]));
    }
    Ok(ours)
}

fn finite_bits(random: &mut Random) -> u32 {
    loop {
        let bits = random.any_f32().to_bits();
        if finite(bits) {
            return bits;
        }
    }
}

/// A good mesh of at most so many vertices and triangles.
fn good_mesh(random: &mut Random, most: u64) -> Mesh {
    let vertices = random.below(most + 1);
    let triangles = if vertices == 0 { 0 } else { random.below(most + 1) };
    Mesh {
        version: 1,
        size: 2 + random.below(127) as u32,
        numbering: random.below(2) as u32,
        coordinates: (0..3 * vertices).map(|_| finite_bits(random)).collect(),
        indices: (0..3 * triangles).map(|_| random.below(vertices) as u32).collect(),
    }
}

/// A word that decides something, one beside what stood there, or any other.
fn damaged(random: &mut Random, word: u32) -> u32 {
    let edges = [0, 1, 2, 3, 4, 5, 16, 24, 27, 28, 29, 32, 127, 128, 129, 0x1555_5553, 0x1555_5554, 0x7FFF_FFFF, 0x8000_0000, u32::MAX];
    match random.below(5) {
        0 => edges[random.below(edges.len() as u64) as usize],
        1 => word.wrapping_add(1),
        2 => word.wrapping_sub(1),
        3 => word ^ 1 << random.below(32),
        _ => random.next() as u32,
    }
}

fn not_finite(random: &mut Random) -> u32 {
    let sign = (random.next() as u32 & 1) << 31;
    sign | 0x7F80_0000 | if random.below(2) == 0 { 0 } else { random.next() as u32 & 0x7F_FFFF }
}

/// A record, whole or damaged in one of many ways: header fields, length, coordinates, indices.
fn drawn_record(random: &mut Random) -> Vec<u8> {
    let m = good_mesh(random, 4);
    let mut bytes = bytes_of(&m);
    let put = |bytes: &mut Vec<u8>, word: usize, value: u32| bytes[4 * word..4 * word + 4].copy_from_slice(&value.to_le_bytes());
    let take = |bytes: &Vec<u8>, word: usize| u32::from_le_bytes(bytes[4 * word..4 * word + 4].try_into().unwrap());
    let (coordinates, indices) = (m.coordinates.len() as u64, m.indices.len() as u64);
    match random.below(16) {
        0 | 1 => {}
        2..=5 => {
            for _ in 0..=random.below(2) {
                let field = random.below(7) as usize;
                let value = damaged(random, take(&bytes, field));
                put(&mut bytes, field, value);
            }
        }
        // the counts moved and the offset with them, so that only the length is wrong
        6 => {
            let v = m.coordinates.len() as u32 / 3 + 1 + random.below(2) as u32;
            put(&mut bytes, 3, v);
            put(&mut bytes, 6, 28 + 12 * v);
        }
        7 => put(&mut bytes, 5, (indices as u32).wrapping_add(3)),
        8 => bytes.truncate(random.below(bytes.len() as u64 + 1) as usize),
        9 => bytes.truncate(bytes.len() - (1 + random.below(8) as usize).min(bytes.len())),
        10 => (0..=random.below(8)).for_each(|_| bytes.push(random.next() as u8)),
        11 | 12 if coordinates > 0 => {
            for _ in 0..=random.below(2) {
                let value = not_finite(random);
                put(&mut bytes, 7 + random.below(coordinates) as usize, value);
            }
        }
        13 | 14 if indices > 0 => {
            let value = m.coordinates.len() as u32 / 3 + if random.below(2) == 0 { 0 } else { random.next() as u32 >> random.below(32) };
            put(&mut bytes, 7 + (coordinates + random.below(indices)) as usize, value);
        }
        _ => {
            let value = random.next() as u32;
            let word = random.below(bytes.len() as u64 / 4) as usize;
            put(&mut bytes, word, value);
        }
    }
    bytes
}

/// Room for the mesh that the bytes may hold: enough, one too few of either kind, more, or none.
fn room_for(random: &mut Random, coordinates: usize, indices: usize) -> Room {
    let (c, i) = match random.below(8) {
        0 => (coordinates.saturating_sub(1), indices),
        1 => (coordinates, indices.saturating_sub(1)),
        2 => (0, 0),
        3 => (coordinates + random.below(9) as usize, indices + random.below(9) as usize),
        _ => (coordinates, indices),
    };
    Room { coordinates: words(random, c), indices: words(random, i) }
}

/// How often each kind of answer came; a kind that never came is an error.
struct Kinds<const N: usize>([(&'static str, u64); N]);

impl<const N: usize> Kinds<N> {
    fn note(&mut self, kind: usize) {
        self.0[kind].1 += 1;
    }

    fn summary(&self) -> Result<String, String> {
        match self.0.iter().find(|(_, times)| *times == 0) {
            Some((name, _)) => Err(format!("nothing was drawn for the answer \"{name}\"")),
            None => Ok(self.0.iter().map(|(name, times)| format!("{name} {times}")).collect::<Vec<_>>().join(", ")),
        }
    }
}

fn mesh_read_of_damaged_records(count: u64) -> Result<String, String> {
    let mut random = Random::new(60);
    let names = ["read", "size", "numbering", "no room", "under 28 bytes", "version", "vertex offset", "index count", "index offset or length", "a coordinate or index"];
    let mut kinds = Kinds(names.map(|name| (name, 0)));
    for _ in 0..count {
        let bytes = drawn_record(&mut random);
        let room = room_for(&mut random, 12, 12);
        let answer = compare_read(&bytes, &room)?;
        kinds.note(match (answer.cause, answer.place) {
            (cause @ 0..=2, _) => cause as usize,
            (10, _) => 3,
            _ if bytes.len() < 28 => 4,
            (_, 0) => 5,
            (_, 16) => 6,
            (_, 20) => 7,
            (_, 24) => 8,
            _ => 9,
        });
    }
    Ok(format!("{count} records: {}", kinds.summary()?))
}

fn mesh_read_of_every_header_byte_and_length(_: u64) -> Result<String, String> {
    let mut random = Random::new(61);
    let mut tried = 0;
    for _ in 0..8 {
        let m = good_mesh(&mut random, 5);
        let bytes = bytes_of(&m);
        let room = Room { coordinates: words(&mut random, 20), indices: words(&mut random, 20) };
        for (place, value) in (0..28).flat_map(|place| (0..=255u8).map(move |value| (place, value))) {
            let mut changed = bytes.clone();
            changed[place] = value;
            compare_read(&changed, &room)?;
            tried += 1;
        }
        for length in 0..=bytes.len() + 8 {
            let mut changed = bytes.clone();
            changed.resize(length, 0);
            if (compare_read(&changed, &room)?.cause == 0) != (length == bytes.len()) {
                return Err(format!("a record of {} bytes, made {length} long", bytes.len()));
            }
            tried += 1;
        }
    }
    Ok(format!("{tried} records"))
}

/// A mesh, good or damaged in its words, its counts or its values.
fn drawn_mesh(random: &mut Random) -> Mesh {
    let mut m = good_mesh(random, 4);
    let (coordinates, indices) = (m.coordinates.len() as u64, m.indices.len() as u64);
    match random.below(12) {
        0..=3 => {}
        4 => m.version = damaged(random, 1),
        5 => m.size = damaged(random, m.size),
        6 => m.numbering = damaged(random, m.numbering),
        7 => m.coordinates.extend([0, 0x3F80_0000].iter().take(1 + random.below(2) as usize)),
        8 => m.indices.extend([0, 0].iter().take(1 + random.below(2) as usize)),
        9 | 10 if coordinates > 0 => m.coordinates[random.below(coordinates) as usize] = not_finite(random),
        _ if indices > 0 => m.indices[random.below(indices) as usize] = (coordinates / 3 + random.below(2)) as u32,
        _ => m.version = 0,
    }
    if random.below(8) == 0 {
        m.size = damaged(random, m.size);
        m.numbering = damaged(random, m.numbering);
    }
    m
}

fn mesh_write_of_good_and_bad_meshes(count: u64) -> Result<String, String> {
    let mut random = Random::new(62);
    let names = ["written", "size", "numbering", "no room", "version", "coordinates not in threes", "indices not in threes", "a coordinate or index"];
    let mut kinds = Kinds(names.map(|name| (name, 0)));
    for _ in 0..count {
        let m = drawn_mesh(&mut random);
        let needed = 28 + 4 * (m.coordinates.len() + m.indices.len());
        let room = match random.below(6) {
            0 => needed - 1,
            1 => random.below(needed as u64) as usize,
            2 => needed + random.below(40) as usize,
            _ => needed,
        };
        let before: Vec<u8> = (0..room).map(|_| random.next() as u8).collect();
        let answer = compare_write(&m, &before)?;
        kinds.note(match (answer.cause, answer.place) {
            (cause @ 0..=2, _) => cause as usize,
            (10, _) => 3,
            (_, 0) => 4,
            (_, 12) => 5,
            (_, 20) => 6,
            _ => 7,
        });
    }
    Ok(format!("{count} meshes: {}", kinds.summary()?))
}

/// The fewest vertices after which the indices would begin past what the field holds. Zeros that nobody looks at take no memory.
fn mesh_write_of_an_offset_too_large(_: u64) -> Result<String, String> {
    let vertices = (u32::MAX as usize - 28) / 12 + 1;
    let m = Mesh { version: 1, size: 2, numbering: 0, coordinates: vec![0; 3 * vertices], indices: Vec::new() };
    let answer = compare_write(&m, &[])?;
    if (answer.cause, answer.place) != (8, 24) {
        return Err(format!("{vertices} vertices: {answer:?}"));
    }
    Ok(format!("{vertices} vertices are refused 8 at 24"))
}

/// What the library extracts, written, read back and written again.
fn round_trip(random: &mut Random, n: usize, numbering: u32, samples: &[f32]) -> Result<usize, String> {
    let of_rust = mesh_of(numbering, n, samples);
    let mut lent = Lent::garbage(random, work_room(n), of_rust.vertices.len(), of_rust.indices.len());
    let extracted = extract(n as u32, numbering, samples, &mut lent);
    let m = Mesh { version: 1, size: n as u32, numbering, coordinates: lent.vertices.iter().map(|v| v.to_bits()).collect(), indices: lent.indices };
    let before: Vec<u8> = words(random, 7 + m.coordinates.len() + m.indices.len()).iter().flat_map(|w| w.to_le_bytes()).collect();
    let mut record = before.clone();
    let written = library_write(&m, &mut record);
    let mut room = Room { coordinates: words(random, m.coordinates.len()), indices: words(random, m.indices.len()) };
    let read = library_read(&record, &mut room);
    let back = Mesh { version: 1, size: read.size, numbering: read.numbering, coordinates: room.coordinates, indices: room.indices };
    let mut again = before.clone();
    let rewritten = library_write(&back, &mut again);
    if (extracted.cause, written.cause, read.cause, rewritten.cause) != (0, 0, 0, 0) || back != m || again != record || record != bytes_of(&m) {
        return Err(format!("size {n} numbering {numbering}: extracted {extracted:?}, written {written:?}, read {read:?}, written again {rewritten:?}"));
    }
    Ok(m.indices.len() / 3)
}

fn mesh_round_trips_of_extracted_meshes(count: u64) -> Result<String, String> {
    let mut random = Random::new(63);
    let meshes = count.div_ceil(50).max(10_000);
    let mut triangles = 0;
    for i in 0..meshes {
        let n = 2 + random.below(11) as usize;
        let samples = if random.below(2) == 0 { grids::smooth(&mut random, n) } else { grids::random(&mut random, n) };
        triangles += round_trip(&mut random, n, i as u32 % 2, &samples)?;
    }
    for numbering in 0..2 {
        let samples = grids::smooth(&mut random, 128);
        triangles += round_trip(&mut random, 128, numbering, &samples)?;
    }
    Ok(format!("{meshes} meshes of sizes 2 to 12 and 2 of size 128, {triangles} triangles"))
}

pub const TESTS: &[crate::Test] = &[
    ("mesh_read_of_damaged_records", mesh_read_of_damaged_records),
    ("mesh_read_of_every_header_byte_and_length", mesh_read_of_every_header_byte_and_length),
    ("mesh_write_of_good_and_bad_meshes", mesh_write_of_good_and_bad_meshes),
    ("mesh_write_of_an_offset_too_large", mesh_write_of_an_offset_too_large),
    ("mesh_round_trips_of_extracted_meshes", mesh_round_trips_of_extracted_meshes),
];
