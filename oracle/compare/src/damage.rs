//! Copies that are nearly right: a number replaced, records missing, repeated, exchanged, a slice
//! that lends less.

use oracle::random::Random;

/// Changes one thing; records have `stride` numbers.
pub fn damage<T: Copy>(
    random: &mut Random,
    numbers: &mut Vec<T>,
    stride: usize,
    near: fn(&mut Random, T) -> T,
) {
    let records = (numbers.len() / stride) as u64;
    if records == 0 {
        return;
    }
    let mut record = || stride * random.below(records) as usize;
    let (first, second) = (record(), record());
    match random.below(9) {
        0 => drop(numbers.drain(first..first + stride)),
        1 => {
            let copy = numbers[first..first + stride].to_vec();
            numbers.splice(second..second, copy);
        }
        2 => (0..stride).for_each(|at| numbers.swap(first + at, second + at)),
        3 => numbers.truncate(random.below(numbers.len() as u64) as usize),
        _ => {
            let place = random.below(numbers.len() as u64) as usize;
            numbers[place] = near(random, numbers[place]);
        }
    }
}

fn pick<T: Copy>(random: &mut Random, values: &[T]) -> T {
    values[random.below(values.len() as u64) as usize]
}

pub fn near_byte(random: &mut Random, byte: u8) -> u8 {
    match random.below(4) {
        0 => byte ^ (1 << random.below(8)),
        1 => random.next() as u8,
        2 => byte.wrapping_add(1),
        _ => pick(
            random,
            b"0123456789abcdef= \n\r\x00\x7F\x80\xC3\xED\xF4\xFF",
        ),
    }
}

/// A number of a text or of a token.
pub fn near_u32(random: &mut Random, number: u32) -> u32 {
    const VALUES: [u32; 12] = [
        0,
        1,
        2,
        4,
        0xD7FF,
        0xD800,
        0xDFFF,
        0xE000,
        0x10_FFFF,
        0x11_0000,
        1 << 31,
        u32::MAX,
    ];
    match random.below(4) {
        0 => number.wrapping_add(1),
        1 => number.wrapping_sub(1),
        2 => number ^ (1 << random.below(32)),
        _ => pick(random, &VALUES),
    }
}

/// A number of an operation or a cursor.
pub fn near_usize(random: &mut Random, number: usize) -> usize {
    const VALUES: [usize; 14] = [
        0,
        1,
        2,
        3,
        5,
        8_192,
        8_193,
        16_384,
        16_385,
        1 << 32,
        1 << 63,
        usize::MAX,
        usize::MAX - 1,
        usize::MAX / 6 + 1,
    ];
    match random.below(4) {
        0 => number.wrapping_add(1),
        1 => number.wrapping_sub(1),
        2 => number ^ (1 << random.below(64)),
        _ => pick(random, &VALUES),
    }
}

/// A number of a diff item.
pub fn near_i64(random: &mut Random, number: i64) -> i64 {
    const VALUES: [i64; 14] = [
        i64::MIN,
        i64::MIN + 1,
        -(1 << 32),
        -65_536,
        -1,
        0,
        1,
        2,
        3,
        65_535,
        131_071,
        1 << 32,
        i64::MAX - 1,
        i64::MAX,
    ];
    match random.below(5) {
        0 => number.wrapping_add(1),
        1 => number.wrapping_sub(1),
        2 => number.wrapping_neg(),
        3 => number ^ (1 << random.below(64)),
        _ => pick(random, &VALUES),
    }
}

/// A few numbers, most of them small, some extreme.
pub fn garbage<T: Copy + Default>(
    random: &mut Random,
    most: u64,
    from: fn(u64) -> T,
    near: fn(&mut Random, T) -> T,
) -> Vec<T> {
    let extremes = random.below(4);
    (0..random.below(most + 1))
        .map(|_| {
            if random.below(12) < extremes {
                near(random, T::default())
            } else {
                let below = 1 + random.below(7);
                from(random.below(below))
            }
        })
        .collect()
}
