//! UTF-8: RFC 3629's examples, each boundary, the kinds of Markus Kuhn's stress test, bad
//! sequences in each place of a block; every one- and two-byte string.

use super::super::refusal::{AMPLE, Refusal};
use super::super::utf8;
use super::{NO_CODE_POINTS, one_part};
use crate::random::Random;
use crate::vectors::Vectors;

/// RFC 3629 section 7: "A<NOT IDENTICAL TO><ALPHA>.", "hangugeo" and "nihongo" in their own
/// scripts, and U+233B4 behind a byte order mark.
const EXAMPLES: [&[u8]; 4] = [
    b"\x41\xE2\x89\xA2\xCE\x91\x2E",
    b"\xED\x95\x9C\xEA\xB5\xAD\xEC\x96\xB4",
    b"\xE6\x97\xA5\xE6\x9C\xAC\xE8\xAA\x9E",
    b"\xEF\xBB\xBF\xF0\xA3\x8E\xB4",
];

/// Both sides of each change of length or of goodness.
const BOUNDARIES: [u32; 14] = [
    0, 0x7F, 0x80, 0x7FF, 0x800, 0xD7FF, 0xD800, 0xDFFF, 0xE000, 0xFFFD, 0xFFFF, 0x1_0000,
    0x10_FFFF, 0x11_0000,
];

/// The sequences of the stress test's sections 1 to 5, by kind.
const STRESS: [&[u8]; 72] = [
    // 1: correct text, "kosme" in its own script
    b"\xCE\xBA\xE1\xBD\xB9\xCF\x83\xCE\xBC\xCE\xB5",
    // 2.1, 2.2: the first and the last of each length, five and six bytes too
    b"\x00",
    b"\xC2\x80",
    b"\xE0\xA0\x80",
    b"\xF0\x90\x80\x80",
    b"\xF8\x88\x80\x80\x80",
    b"\xFC\x84\x80\x80\x80\x80",
    b"\x7F",
    b"\xDF\xBF",
    b"\xEF\xBF\xBF",
    b"\xF7\xBF\xBF\xBF",
    b"\xFB\xBF\xBF\xBF\xBF",
    b"\xFD\xBF\xBF\xBF\xBF\xBF",
    // 2.3: others
    b"\xED\x9F\xBF",
    b"\xEE\x80\x80",
    b"\xEF\xBF\xBD",
    b"\xF4\x8F\xBF\xBF",
    b"\xF4\x90\x80\x80",
    // 3.1: continuation bytes that nothing begins
    b"\x80",
    b"\xBF",
    b"\x80\xBF",
    b"\x80\xBF\x80",
    b"\x80\xBF\x80\xBF",
    b"\x80\xBF\x80\xBF\x80",
    b"\x80\xBF\x80\xBF\x80\xBF",
    b"\x80\xBF\x80\xBF\x80\xBF\x80",
    // 3.2: first bytes, each followed by a space
    b"\xC0 \xC1 \xDF ",
    b"\xE0 \xEF ",
    b"\xF0 \xF7 ",
    b"\xF8 \xFB ",
    b"\xFC \xFD ",
    // 3.3: the last byte is missing
    b"\xC0",
    b"\xE0\x80",
    b"\xF0\x80\x80",
    b"\xF8\x80\x80\x80",
    b"\xFC\x80\x80\x80\x80",
    b"\xDF",
    b"\xEF\xBF",
    b"\xF7\xBF\xBF",
    b"\xFB\xBF\xBF\xBF",
    b"\xFD\xBF\xBF\xBF\xBF",
    // 3.4: these one after another
    b"\xC0\xE0\x80\xF0\x80\x80\xF8\x80\x80\x80\xFC\x80\x80\x80\x80\
      \xDF\xEF\xBF\xF7\xBF\xBF\xFB\xBF\xBF\xBF\xFD\xBF\xBF\xBF\xBF",
    // 3.5: impossible bytes
    b"\xFE",
    b"\xFF",
    b"\xFE\xFE\xFF\xFF",
    // 4.1: an overlong slash
    b"\xC0\xAF",
    b"\xE0\x80\xAF",
    b"\xF0\x80\x80\xAF",
    b"\xF8\x80\x80\x80\xAF",
    b"\xFC\x80\x80\x80\x80\xAF",
    // 4.2: the longest overlong of each length
    b"\xC1\xBF",
    b"\xE0\x9F\xBF",
    b"\xF0\x8F\xBF\xBF",
    b"\xF8\x87\xBF\xBF\xBF",
    b"\xFC\x83\xBF\xBF\xBF\xBF",
    // 4.3: overlong zero
    b"\xC0\x80",
    b"\xE0\x80\x80",
    b"\xF0\x80\x80\x80",
    b"\xF8\x80\x80\x80\x80",
    b"\xFC\x80\x80\x80\x80\x80",
    // 5.1, 5.2: surrogates, single and paired
    b"\xED\xA0\x80",
    b"\xED\xAD\xBF",
    b"\xED\xAE\x80",
    b"\xED\xAF\xBF",
    b"\xED\xB0\x80",
    b"\xED\xBE\x80",
    b"\xED\xBF\xBF",
    b"\xED\xA0\x80\xED\xB0\x80",
    b"\xED\xAF\xBF\xED\xBF\xBF",
    // 5.3: noncharacters, which are good
    b"\xEF\xBF\xBE",
    b"\xEF\xB7\x90",
    b"\xF4\x8F\xBF\xBE",
];

const SECOND_BYTES: [u8; 10] = [0x00, 0x7F, 0x80, 0x8F, 0x90, 0x9F, 0xA0, 0xBF, 0xC0, 0xFF];

/// A good text that reaches every length of sequence.
const GOOD: &[u8] = b"a\xC3\xA9\xE2\x82\xAC\xF0\x9F\x90\x91z";

/// Text of each length of sequence alone and of all, and the places in it that are tried.
const LONG: [(&[u8], std::ops::Range<usize>); 5] = [
    (b"7", 32..64),
    (GOOD, 32..48),
    (b"\xC3\xA9", 32..48),
    (b"\xE2\x82\xAC", 32..48),
    (b"\xF0\x9F\x90\x91", 32..48),
];

/// Each way to be bad.
const BAD: [&[u8]; 9] = [
    b"\x80",
    b"\xC1\xBF",
    b"\xC3",
    b"\xE0\x9F\xBF",
    b"\xE2\x82",
    b"\xED\xA0\x80",
    b"\xF0\x8F\xBF\xBF",
    b"\xF0\x9F\x90",
    b"\xF4\x90\x80\x80",
];

/// 67 bytes: text up to a place, with ASCII where no whole sequence fits, then a sequence there.
fn long(repeated: &[u8], place: usize, sequence: &[u8]) -> Vec<u8> {
    let mut bytes: Vec<u8> = repeated.iter().copied().cycle().take(place).collect();
    while let Err(error) = std::str::from_utf8(&bytes) {
        bytes[error.valid_up_to()..].fill(b'7');
    }
    bytes.extend(sequence);
    bytes.resize(67, b'7');
    bytes
}

pub fn read() -> Vectors {
    let mut vectors = Vectors::new();
    let mut case = |bytes: &[u8]| {
        vectors.line(bytes);
        one_part(&mut vectors, utf8::read(bytes, AMPLE));
    };

    for bytes in EXAMPLES.into_iter().chain(STRESS) {
        case(bytes);
        case(&[b"ab", bytes, b"c"].concat());
    }
    for number in BOUNDARIES {
        case(&sequence(number));
        case(&[GOOD, &sequence(number), b"\x7F"].concat());
    }
    for length in 0..=GOOD.len() {
        case(&GOOD[..length]);
        case(&GOOD[length..]);
    }
    // Three and four bytes: every edge of the second byte behind the first bytes that narrow it.
    for first in [0xE0, 0xE1, 0xEC, 0xED, 0xEE, 0xEF] {
        for second in SECOND_BYTES {
            case(&[first, second, 0x80]);
        }
        for third in SECOND_BYTES {
            case(&[first, 0xA0 - 0x10 * u8::from(first == 0xED), third]);
        }
    }
    for first in [0xF0, 0xF1, 0xF3, 0xF4, 0xF5] {
        for second in SECOND_BYTES {
            case(&[first, second, 0x80, 0x80]);
        }
        for third in SECOND_BYTES {
            case(&[first, 0x8F + u8::from(first == 0xF0), third, 0x80]);
            case(&[first, 0x8F + u8::from(first == 0xF0), 0x80, third]);
        }
    }
    // ASCII around the lengths at which readers take many bytes at once, with one bad byte.
    for length in [7, 8, 9, 15, 16, 17, 31, 32, 33] {
        case(&vec![b'7'; length]);
        for bad in [0, length / 2, length - 1] {
            let mut bytes = vec![b'7'; length];
            bytes[bad] = 0x80;
            case(&bytes);
        }
    }
    // Longer ones: each kind of text up to each place of a block, there a sequence, then ASCII.
    for (kind, (repeated, places)) in LONG.into_iter().enumerate() {
        for place in places {
            case(&long(repeated, place, BAD[(place + kind) % BAD.len()]));
        }
    }
    for place in 32..48 {
        case(&long(GOOD, place, "\u{10348}".as_bytes()));
    }
    vectors
}

/// The bytes that the table of RFC 3629 section 3 makes of a number, good or not.
fn sequence(number: u32) -> Vec<u8> {
    let continuation = |shift: u32| 0x80 | (number >> shift & 0x3F) as u8;
    match number {
        0..0x80 => vec![number as u8],
        0x80..0x800 => vec![0xC0 | (number >> 6) as u8, continuation(0)],
        0x800..0x1_0000 => vec![
            0xE0 | (number >> 12) as u8,
            continuation(6),
            continuation(0),
        ],
        _ => vec![
            0xF0 | (number >> 18) as u8,
            continuation(12),
            continuation(6),
            continuation(0),
        ],
    }
}

pub fn write() -> Vectors {
    let mut vectors = Vectors::new();
    let mut case = |points: &[u32]| {
        vectors.line(points);
        one_part(&mut vectors, utf8::write(points, AMPLE));
    };

    case(&[]);
    for number in BOUNDARIES.into_iter().chain(NO_CODE_POINTS) {
        case(&[number]);
        for beside in [1, u32::MAX] {
            case(&[number.wrapping_add(beside)]);
        }
        case(&[0x61, number, 0x62]);
    }
    for bytes in EXAMPLES {
        let points = utf8::read(bytes, AMPLE).expect("the RFC's examples are good");
        case(&points);
        for bad in 0..points.len() {
            for number in NO_CODE_POINTS {
                let mut points = points.clone();
                points[bad] = number;
                case(&points);
            }
        }
    }
    // Two blocks and one more, with one number that is not ASCII in each place of the second.
    for place in 16..32 {
        for number in [0x1_0348, NO_CODE_POINTS[place % NO_CODE_POINTS.len()]] {
            let mut points = [0x37; 33];
            points[place] = number;
            case(&points);
        }
    }
    let mut random = Random::new(31);
    for length in 0..40 {
        let points: Vec<u32> = (0..length)
            .map(|_| {
                let bits = 1 + random.below(21);
                random.below(1 << bits) as u32
            })
            .collect();
        case(&points);
    }
    vectors
}

/// Every one-byte string and then every two-byte string, each in the order of its numbers, as runs:
/// how many strings, the answer, and the code points of the first; from each string to the next the
/// last code point goes up by one.
pub fn pairs() -> Vectors {
    let one = (0..=u8::MAX).map(|byte| vec![byte]);
    let two = (0..=u16::MAX).map(|number| number.to_be_bytes().to_vec());
    let mut runs: Vec<(u32, Result<Vec<u32>, Refusal>)> = Vec::new();
    for string in one.chain(two) {
        let outcome = utf8::read(&string, AMPLE);
        match runs.last_mut() {
            Some((strings, first)) if outcome == risen(first, *strings) => *strings += 1,
            _ => runs.push((1, outcome)),
        }
    }

    let mut vectors = Vectors::new();
    for (strings, outcome) in runs {
        vectors.line(&[strings]);
        one_part(&mut vectors, outcome);
    }
    vectors
}

/// An outcome whose last code point is so much greater.
fn risen(outcome: &Result<Vec<u32>, Refusal>, by: u32) -> Result<Vec<u32>, Refusal> {
    let mut outcome = outcome.clone();
    if let Some(last) = outcome.as_mut().ok().and_then(|points| points.last_mut()) {
        *last += by;
    }
    outcome
}
