//! The calls about Morton keys against `Morton`, and against the definitions worked out bit by bit. The Rust takes the level from a
//! logarithm, which misplaces some keys; there half-size and center can't be its own either, and the keys are counted.
use crate::isosurface::morton::Morton;
use crate::random::Random;
use std::panic::{catch_unwind, set_hook, take_hook};

#[repr(C)]
#[derive(Clone, Copy, Debug, PartialEq)]
pub struct KeyAnswer {
    pub cause: u32,
    pub value: u64,
}

#[repr(C)]
#[derive(Clone, Copy, Debug, PartialEq)]
pub struct HalfSizeAnswer {
    pub cause: u32,
    pub value: f32,
}

extern "C" {
    fn bridgeyarn_morton_level(key: u64) -> KeyAnswer;
    fn bridgeyarn_morton_parent(key: u64) -> KeyAnswer;
    fn bridgeyarn_morton_child(key: u64, which: u32) -> KeyAnswer;
    fn bridgeyarn_morton_half_size(key: u64) -> HalfSizeAnswer;
    fn bridgeyarn_morton_center(key: u64, center: *mut f32) -> u32;
    fn bridgeyarn_morton_sum(a: u64, b: u64) -> u64;
    fn bridgeyarn_morton_difference(a: u64, b: u64) -> u64;
}

fn level(key: u64) -> KeyAnswer {
    unsafe { bridgeyarn_morton_level(key) }
}

fn parent(key: u64) -> KeyAnswer {
    unsafe { bridgeyarn_morton_parent(key) }
}

fn child(key: u64, which: u32) -> KeyAnswer {
    unsafe { bridgeyarn_morton_child(key, which) }
}

fn half_size(key: u64) -> HalfSizeAnswer {
    unsafe { bridgeyarn_morton_half_size(key) }
}

/// The cause, and what the three lent floats hold afterwards.
fn center(key: u64, before: [f32; 3]) -> (u32, [f32; 3]) {
    let mut place = before;
    let cause = unsafe { bridgeyarn_morton_center(key, place.as_mut_ptr()) };
    (cause, place)
}

fn sum(a: u64, b: u64) -> u64 {
    unsafe { bridgeyarn_morton_sum(a, b) }
}

fn difference(a: u64, b: u64) -> u64 {
    unsafe { bridgeyarn_morton_difference(a, b) }
}

const REFUSED: KeyAnswer = KeyAnswer { cause: 9, value: 0 };
const LAST_LEVEL: u32 = 21;

fn is(value: u64) -> KeyAnswer {
    KeyAnswer { cause: 0, value }
}

fn key_of(m: Morton) -> u64 {
    usize::from(m) as u64
}

fn is_good(key: u64) -> bool {
    key != 0 && (63 - key.leading_zeros()) % 3 == 0
}

/// How many bits of a word are an axis's own: places axis, axis + 3, axis + 6, ..
fn width(axis: u32) -> u32 {
    (64 - axis).div_ceil(3)
}

fn on_axis(axis: u32, word: u64) -> u64 {
    (0..width(axis)).map(|i| (word >> (3 * i + axis) & 1) << i).sum()
}

fn along(axis: u32, number: u64) -> u64 {
    (0..width(axis)).map(|i| (number >> i & 1) << (3 * i + axis)).sum()
}

/// The word whose number on each axis is `f` of those of a and b, modulo 2 to the axis's width.
fn by_axis(a: u64, b: u64, f: fn(u64, u64) -> u64) -> u64 {
    (0..3).map(|axis| along(axis, f(on_axis(axis, a), on_axis(axis, b)) & ((1 << width(axis)) - 1))).sum()
}

fn wraps(a: u64, b: u64) -> bool {
    (0..3).any(|axis| on_axis(axis, a) + on_axis(axis, b) >= 1 << width(axis))
}

/// Half-size and center by their fractions, which f64 holds.
fn fractions(key: u64, level: u32) -> (f32, [f32; 3]) {
    let side = (2u64 << level) as f64;
    let on = |axis| (2 * (on_axis(axis, key) & ((1 << level) - 1)) + 1) as f64 / side;
    ((1.0 / side) as f32, [on(0) as f32, on(1) as f32, on(2) as f32])
}

fn bits(place: [f32; 3]) -> [u32; 3] {
    place.map(f32::to_bits)
}

/// All answers about a good key. True where the Rust's own level is right, and then all are the Rust's.
fn compare_key(key: u64) -> Result<bool, String> {
    let differs = |what: &str| Err(format!("{what} of key {key:#X}"));
    let (rust, depth) = (Morton::with_key(key), (63 - key.leading_zeros()) / 3);
    if level(key) != is(depth as u64) {
        return differs("level");
    }
    if parent(key) != is(key_of(rust.parent())) {
        return differs("parent");
    }
    for which in 0..8 {
        let expected = if depth < LAST_LEVEL { is(key_of(rust.child(which as u8))) } else { REFUSED };
        if child(key, which) != expected {
            return differs("child");
        }
    }
    let (ours, (cause, place)) = (half_size(key), center(key, [-1.0; 3]));
    let (size, middle) = fractions(key, depth);
    if ours.cause != 0 || ours.value.to_bits() != size.to_bits() {
        return differs("half-size");
    }
    if cause != 0 || bits(place) != bits(middle) {
        return differs("center");
    }
    if rust.level() != depth as usize {
        return Ok(false);
    }
    let point = rust.center();
    if ours.value.to_bits() != rust.size().to_bits() || bits(place) != bits([point.x, point.y, point.z]) {
        return differs("the Rust's half-size or center");
    }
    Ok(true)
}

fn random_key(random: &mut Random, depth: u32) -> u64 {
    let lowest = 1u64 << (3 * depth);
    lowest | (random.next() & (lowest - 1))
}

fn morton_keys_of_all_levels(count: u64) -> Result<String, String> {
    let mut random = Random::new(41);
    let mut misplaced = 0u64;
    for i in 0..count {
        misplaced += !compare_key(random_key(&mut random, (i % 22) as u32))? as u64;
    }
    Ok(format!("{count} keys over 22 levels, {misplaced} of them misplaced by the Rust's logarithm"))
}

/// How far from the ends of each level every key is compared.
const REACH: u64 = 100_000;

fn morton_keys_around_the_ends_of_levels(_: u64) -> Result<String, String> {
    let (mut compared, mut misplaced_high) = (0u64, 0u64);
    let mut misplaced_low = Vec::new();
    for depth in 0..=LAST_LEVEL {
        let lowest = 1u64 << (3 * depth);
        let (below, above) = (REACH.min(lowest.div_ceil(2)), REACH.min(lowest / 2));
        let mut low = 0u64;
        for j in 0..below {
            low += !compare_key(lowest + j)? as u64;
        }
        for j in 0..above {
            misplaced_high += !compare_key(lowest + (lowest - 1 - j))? as u64;
        }
        compared += below + above;
        misplaced_low.push(low);
    }
    Ok(format!(
        "{compared} keys within {REACH} of an end, misplaced by the Rust's logarithm: {misplaced_low:?} at the low ends of levels 0 to 21, {misplaced_high} at the high ends"
    ))
}

/// A bad key gets no answer but 9 and zeros, and what was lent stays, bit for bit.
fn compare_refusals(key: u64, before: [f32; 3]) -> Result<(), String> {
    let half = half_size(key);
    let (cause, place) = center(key, before);
    let numbers = [level(key), parent(key), child(key, 0), child(key, 7), child(key, 8)];
    if numbers == [REFUSED; 5] && half.cause == 9 && half.value.to_bits() == 0 && cause == 9 && bits(place) == bits(before) {
        return Ok(());
    }
    Err(format!("bad key {key:#X}: {numbers:?} {half:?} {cause} {place:?}"))
}

fn morton_refusals(count: u64) -> Result<String, String> {
    let mut random = Random::new(42);
    let mut bad = 0u64;
    for i in 0..count {
        // any length of word, so that short ones are drawn as often as long ones
        let word = random.next() >> (i % 64);
        let key = if i % 1000 == 0 { 0 } else { word };
        if !is_good(key) {
            compare_refusals(key, [random.any_f32(), random.any_f32(), random.any_f32()])?;
            bad += 1;
            continue;
        }
        let which = 8 + (random.next() as u32 >> random.below(32)).min(u32::MAX - 8);
        if child(key, which) != REFUSED {
            return Err(format!("child {which} of key {key:#X}"));
        }
    }
    Ok(format!("{bad} bad keys, {} good keys with a child above 7", count - bad))
}

fn morton_sums_and_differences(count: u64) -> Result<String, String> {
    let mut random = Random::new(43);
    let mut plain = 0u64;
    for i in 0..count {
        let (mut a, mut b) = (random.next(), random.next());
        if i % 2 == 0 {
            // keys of any two levels, whose sums seldom wrap
            a = random_key(&mut random, (i % 21) as u32);
            b = b >> (64 - 3 * (1 + random.below(21)));
        }
        let (x, y) = (Morton::with_key(a), Morton::with_key(b));
        if sum(a, b) != by_axis(a, b, u64::wrapping_add) {
            return Err(format!("sum of {a:#X} and {b:#X}"));
        }
        if difference(a, b) != by_axis(a, b, u64::wrapping_sub) || difference(a, b) != key_of(x - y) {
            return Err(format!("difference of {a:#X} and {b:#X}"));
        }
        if !wraps(a, b) {
            plain += 1;
            if sum(a, b) != key_of(x + y) {
                return Err(format!("the Rust's sum of {a:#X} and {b:#X}"));
            }
        }
    }
    Ok(format!("{count} pairs, {plain} of them without a wrapping sum and equal to the Rust's"))
}

/// The first key of each level from 1 on.
fn difference_3_level_of_powers_of_eight(_: u64) -> Result<String, String> {
    let mut lower = 0;
    for depth in 1..=LAST_LEVEL {
        let key = 1u64 << (3 * depth);
        compare_key(key)?;
        lower += (Morton::with_key(key).level() + 1 == depth as usize) as u32;
    }
    Ok(format!("21 keys 8^k have level k, of which the Rust puts {lower} one lower"))
}

/// A sum that wraps is a panic of the Rust where overflow is checked, and the same word where it isn't.
fn difference_5_sum_that_wraps(_: u64) -> Result<String, String> {
    let top = [(1u64 << 61, 1 << 61), (1 << 62, 1 << 62), (1 << 63, 1 << 63), (u64::MAX, 7), (u64::MAX, u64::MAX)];
    let hook = take_hook();
    set_hook(Box::new(|_| {}));
    let rust = top.map(|(a, b)| catch_unwind(|| key_of(Morton::with_key(a) + Morton::with_key(b))));
    set_hook(hook);
    let mut panics = 0;
    for ((a, b), answer) in top.into_iter().zip(rust) {
        let ours = sum(a, b);
        if ours != by_axis(a, b, u64::wrapping_add) || answer.as_ref().is_ok_and(|word| *word != ours) {
            return Err(format!("wrapping sum of {a:#X} and {b:#X}"));
        }
        panics += answer.is_err() as u32;
    }
    Ok(format!("{} wrapping sums, {panics} of them a panic of this build of the Rust", top.len()))
}

/// Keys and children that the Rust answers for and the library refuses.
fn difference_4_refused_keys_and_children(_: u64) -> Result<String, String> {
    for key in [0u64, 2, 3, 4, 7, 16, u64::MAX >> 1] {
        compare_refusals(key, [1.0, -0.0, f32::NAN])?;
    }
    if (Morton::with_key(0).level(), key_of(Morton::with_key(1).child(8)), key_of(Morton::with_key(1 << 63).child(0))) != (0, 8, 0) {
        return Err("the Rust has changed".to_string());
    }
    if child(1, 8) != REFUSED || child(1, 264) != REFUSED || child(1 << 63, 0) != REFUSED {
        return Err("child 8, child 264 or a child at level 21".to_string());
    }
    Ok("7 bad keys, children 8 and 264, a child at level 21".to_string())
}

/// What all seven calls answer about a key and another word, as bytes for the C driver. `compare_key`, `compare_refusals` and
/// `morton_sums_and_differences` hold these answers to the Rust and to the rule.
pub fn answers(key: u64, other: u64) -> Vec<u8> {
    let mut bytes = Vec::new();
    let numbers = [level(key), parent(key), child(key, other as u32 % 10)];
    numbers.iter().for_each(|a| {
        bytes.extend(a.cause.to_le_bytes());
        bytes.extend(a.value.to_le_bytes());
    });
    let half = half_size(key);
    let (cause, place) = center(key, [0.5, -0.5, 0.25]);
    for word in [half.cause, half.value.to_bits(), cause, place[0].to_bits(), place[1].to_bits(), place[2].to_bits()] {
        bytes.extend(word.to_le_bytes());
    }
    bytes.extend(sum(key, other).to_le_bytes());
    bytes.extend(difference(key, other).to_le_bytes());
    bytes
}

pub const TESTS: &[crate::Test] = &[
    ("morton_keys_of_all_levels", morton_keys_of_all_levels),
    ("morton_keys_around_the_ends_of_levels", morton_keys_around_the_ends_of_levels),
    ("morton_refusals", morton_refusals),
    ("morton_sums_and_differences", morton_sums_and_differences),
    ("difference_3_level_of_powers_of_eight", difference_3_level_of_powers_of_eight),
    ("difference_5_sum_that_wraps", difference_5_sum_that_wraps),
    ("difference_4_refused_keys_and_children", difference_4_refused_keys_and_children),
];
