//! The answer about a sample record against a plain twin of document 01's "Record and listing". The Rust has no record, so the twin is
//! written from the document alone.
use crate::random::Random;

#[repr(C)]
#[derive(Clone, Copy, Debug, PartialEq)]
pub struct RecordAnswer {
    pub cause: u32,
    pub place: u64,
    pub size: u32,
    pub numbering: u32,
}

extern "C" {
    fn bridgeyarn_record(bytes: *const u8, length: usize) -> RecordAnswer;
}

fn record(bytes: &[u8]) -> RecordAnswer {
    unsafe { bridgeyarn_record(bytes.as_ptr(), bytes.len()) }
}

const MOST_SIZE: u32 = 128;

/// What document 01 says of these bytes.
pub fn expected(bytes: &[u8]) -> RecordAnswer {
    let refused = |cause: u32, place: usize| RecordAnswer { cause, place: place as u64, size: 0, numbering: 0 };
    if bytes.len() < 20 {
        return refused(8, bytes.len());
    }
    let mut words = bytes.chunks_exact(4).map(|w| u32::from_le_bytes([w[0], w[1], w[2], w[3]]));
    let mut word = || words.next().unwrap();
    let (version, size, numbering, count, offset) = (word(), word(), word(), word(), word());
    let n = size as u128;
    if version != 1 {
        refused(8, 0)
    } else if !(2..=MOST_SIZE).contains(&size) {
        refused(1, 0)
    } else if !(0..=1).contains(&numbering) {
        refused(2, 0)
    } else if count as u128 != n * n * (n + 1) {
        refused(3, 0)
    } else if offset != 20 {
        refused(8, 16)
    } else if bytes.len() as u128 != 20 + 4 * count as u128 {
        refused(8, 20)
    } else {
        RecordAnswer { cause: 0, place: 0, size, numbering }
    }
}

fn compare(bytes: &[u8]) -> Result<RecordAnswer, String> {
    let (ours, twin) = (record(bytes), expected(bytes));
    if ours == twin {
        return Ok(ours);
    }
    let header: Vec<String> = bytes.iter().take(20).map(|b| format!("{b:02X}")).collect();
    Err(format!("record of {} bytes, {}: ours {:?}, expected {:?}", bytes.len(), header.join(" "), ours, twin))
}

/// The answers by kind: the cause, and of a malformed record the place, places under 20 but 0 and 16 being one kind.
#[derive(Default)]
struct Kinds([u64; 8]);

impl Kinds {
    const NAMES: [&'static str; 8] = ["held", "size", "numbering", "count", "too short", "version", "offset", "length"];

    fn note(&mut self, answer: &RecordAnswer, length: usize) {
        self.0[match (answer.cause, answer.place) {
            (cause @ 0..=3, _) => cause as usize,
            _ if length < 20 => 4,
            (_, 0) => 5,
            (_, 16) => 6,
            _ => 7,
        }] += 1;
    }

    fn summary(&self) -> Result<String, String> {
        match self.0.iter().position(|&times| times == 0) {
            Some(kind) => Err(format!("no record was drawn for the answer \"{}\"", Self::NAMES[kind])),
            None => Ok(Self::NAMES.iter().zip(self.0).map(|(name, times)| format!("{name} {times}")).collect::<Vec<_>>().join(", ")),
        }
    }
}

fn header(size: u32, numbering: u32) -> [u32; 5] {
    let count = size.wrapping_mul(size).wrapping_mul(size.wrapping_add(1));
    [1, size, numbering, count, 20]
}

fn whole_length(size: u32) -> usize {
    let n = size as usize;
    20 + 4 * n * n * (n + 1)
}

/// Room for the longest record and some more. The records that are drawn differ in their first bytes and in their length.
pub struct Bytes(Vec<u8>);

impl Bytes {
    pub fn new(random: &mut Random, most_size: u32) -> Bytes {
        Bytes((0..whole_length(most_size) + 64).map(|_| random.next() as u8).collect())
    }

    fn lay(&mut self, words: [u32; 5]) {
        for (place, word) in words.iter().enumerate() {
            self.0[4 * place..4 * place + 4].copy_from_slice(&word.to_le_bytes());
        }
    }

    fn first(&self, length: usize) -> &[u8] {
        &self.0[..length.min(self.0.len())]
    }

    /// A record that is whole.
    pub fn good(&mut self, size: u32, numbering: u32) -> &[u8] {
        self.lay(header(size, numbering));
        self.first(whole_length(size))
    }

    /// A record of a size from 2 to `most_size`, whole or damaged in one of many ways.
    pub fn draw(&mut self, random: &mut Random, most_size: u32) -> &[u8] {
        let size = 2 + random.below(most_size as u64 - 1) as u32;
        let mut words = header(size, random.below(2) as u32);
        let mut length = whole_length(size);
        match random.below(16) {
            0..=2 => {}
            // one header word, or two, or all
            3..=5 => damage(random, &mut words),
            6 => (0..2).for_each(|_| damage(random, &mut words)),
            7 => words.iter_mut().for_each(|w| *w = random.next() as u32),
            8 => words[random.below(5) as usize] ^= 1 << random.below(32),
            // the size and the numbering exchanged; big-endian words
            9 => words.swap(1 + random.below(4) as usize, 1 + random.below(4) as usize),
            10 => words.iter_mut().for_each(|w| *w = w.swap_bytes()),
            // cut anywhere, cut or lengthened by a little, under a header
            11 => length = random.below(length as u64 + 1) as usize,
            12 | 13 => length = length + random.below(17) as usize - 8,
            14 => length = random.below(24) as usize,
            // a size whose number of samples is right modulo 2^32 only
            _ => words = header(random.next() as u32 >> random.below(24), words[2]),
        }
        self.lay(words);
        self.first(length)
    }
}

/// Puts a value that decides something, or any other, into one header word.
fn damage(random: &mut Random, words: &mut [u32; 5]) {
    let which = random.below(5) as usize;
    let edges = [0, 1, 2, 3, 7, 8, 16, 19, 20, 21, 24, 127, 128, 129, 256, 65535, 65536, 0x7FFF_FFFF, 0x8000_0000, u32::MAX];
    words[which] = match random.below(4) {
        0 => edges[random.below(edges.len() as u64) as usize],
        1 => words[which].wrapping_add(1),
        2 => words[which].wrapping_sub(1),
        _ => random.next() as u32,
    };
}

fn record_every_size(_: u64) -> Result<String, String> {
    let mut bytes = Bytes::new(&mut Random::new(50), MOST_SIZE);
    for size in (0..=1000).chain((1 << 16) - 300..(1 << 16) + 300).chain(u32::MAX - 300..=u32::MAX) {
        for numbering in 0..3 {
            bytes.lay(header(size, numbering));
            let length = if size <= MOST_SIZE { whole_length(size) } else { 20 };
            let answer = compare(bytes.first(length))?;
            if (answer.cause == 0) != ((2..=MOST_SIZE).contains(&size) && numbering < 2) {
                return Err(format!("size {size} numbering {numbering}: {answer:?}"));
            }
        }
    }
    Ok("1,901 sizes in 3 numberings".to_string())
}

fn record_every_length(_: u64) -> Result<String, String> {
    let mut bytes = Bytes::new(&mut Random::new(51), MOST_SIZE);
    let mut lengths = 0;
    for size in 2..=MOST_SIZE {
        bytes.lay(header(size, size % 2));
        let whole = whole_length(size);
        let from = if size <= 16 { 0 } else { whole - 8 };
        for length in (from..=whole + 8).chain([0, 19, 20]) {
            if (compare(bytes.first(length))?.cause == 0) != (length == whole) {
                return Err(format!("size {size} length {length}"));
            }
            lengths += 1;
        }
    }
    Ok(format!("{lengths} lengths of 127 records"))
}

fn record_every_byte_of_the_header(_: u64) -> Result<String, String> {
    let mut bytes = Bytes::new(&mut Random::new(52), MOST_SIZE);
    for size in [2, 7, 8, MOST_SIZE] {
        for place in 0..20 {
            for value in 0..=255 {
                bytes.lay(header(size, 1));
                bytes.0[place] = value;
                compare(bytes.first(whole_length(size)))?;
            }
        }
    }
    Ok("256 values of 20 bytes of 4 records".to_string())
}

fn record_on_damaged_records(count: u64) -> Result<String, String> {
    let mut random = Random::new(53);
    let mut bytes = Bytes::new(&mut random, MOST_SIZE);
    let mut kinds = Kinds::default();
    for _ in 0..count {
        let drawn = bytes.draw(&mut random, MOST_SIZE);
        kinds.note(&compare(drawn)?, drawn.len());
    }
    Ok(format!("{count} records: {}", kinds.summary()?))
}

fn record_on_random_bytes(count: u64) -> Result<String, String> {
    let mut random = Random::new(54);
    for _ in 0..count {
        // on its own piece of memory each, as long as it is; low bytes often, so that small words occur
        let mask = if random.below(2) == 0 { 0x03 } else { 0xFF };
        let bytes: Vec<u8> = (0..random.below(96)).map(|_| random.next() as u8 & mask).collect();
        compare(&bytes)?;
    }
    compare(&[])?;
    Ok(format!("{count} pieces of random bytes, and none"))
}

pub const TESTS: &[crate::Test] = &[
    ("record_every_size", record_every_size),
    ("record_every_length", record_every_length),
    ("record_every_byte_of_the_header", record_every_byte_of_the_header),
    ("record_on_damaged_records", record_on_damaged_records),
    ("record_on_random_bytes", record_on_random_bytes),
];
