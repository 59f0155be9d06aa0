//! The program: good triples, damaged and cut ones, oversize files, counts that do not fit, bad
//! UTF-8 in each file, and two refusals at once.

use super::super::edit_file;
use super::super::program::program;
use super::super::refusal::{AMPLE, size};
use super::edit_files::{EMPTY, good};
use super::points;
use crate::flat::{NUMBER, TEXT};
use crate::random::Random;
use crate::vectors::Vectors;

/// Three files: the original, the left edit file, the right one.
pub type Triple = [Vec<u8>; 3];

const LEFT: usize = 1;
const RIGHT: usize = 2;

pub fn merge_files() -> Vectors {
    let mut vectors = Vectors::new();
    let mut case = |files: &Triple| {
        for file in files {
            vectors.line(file);
        }
        let [original, left, right] = files;
        vectors.line(&program(Some(original), Some(left), Some(right)));
    };
    let with = |files: &Triple, place: usize, bytes: &[u8]| {
        let mut files = files.clone();
        files[place] = bytes.to_vec();
        files
    };

    for files in sheets() {
        case(&files);
    }
    let mut random = Random::new(111);
    for _ in 0..26 {
        case(&triple(&mut random));
    }

    // Cut at every place, and a bit flipped here and there, in each file in turn.
    let small = small();
    for (place, file) in small.iter().enumerate() {
        for length in 0..file.len() {
            case(&with(&small, place, &file[..length]));
            if random.below(8) == 0 {
                let mut damaged = file.clone();
                damaged[length] ^= 1 << random.below(8);
                case(&with(&small, place, &damaged));
            }
        }
        case(&with(&small, place, &[file, &b"\n"[..]].concat()));
    }

    // Counts that do not fit.
    for original in ["", "a", "ab", "é\n", "\u{10FFFF}"] {
        case(&with(&small, 0, original.as_bytes()));
    }
    for place in [LEFT, RIGHT] {
        case(&with(&small, place, EMPTY.as_bytes()));
        for count in [1, 2, -257, 65_535] {
            case(&with(&small, place, &written(&[NUMBER, count, 0], &[])));
        }
    }

    // Bad UTF-8, behind good beginnings too; in an edit file it goes before the file's own rules.
    for place in 0..3 {
        for bad in [&b"\xFF"[..], b"\xC3", b"a\xED\xA0\x80", b"\xF4\x90\x80\x80"] {
            case(&with(&small, place, bad));
            case(&with(&small, place, &[&small[place][..], bad].concat()));
        }
        // Good UTF-8 that is no edit file.
        case(&with(&small, place, "é\u{1F411}".as_bytes()));
    }

    // A file of the largest size is looked at, one byte more is refused.
    let limit = size::PROGRAM_FILE;
    let [largest, oversize] = [vec![9; limit], vec![9; limit + 1]];
    for place in 0..3 {
        case(&with(&small, place, &oversize));
    }
    let keep = written(&[NUMBER, limit as i64, 0], &[]);
    case(&[largest, keep.clone(), keep]);
    case(&[vec![], EMPTY.into(), largest_edit_file()]);

    // Two refusals at once: 3, 10, 8 and 2 in the files where they can stand.
    let defects = [
        (0, &b"a\x80"[..]),
        (LEFT, b"\xC0\x80"),
        (RIGHT, b"form=1\n\xFF"),
        (LEFT, b"form=2\n"),
        (RIGHT, &small[RIGHT][..20]),
        (0, b"abc"),
        (LEFT, EMPTY.as_bytes()),
    ];
    for (place, first) in defects {
        for (other, second) in defects.into_iter().filter(|(other, _)| *other > place) {
            case(&with(&with(&small, place, first), other, second));
        }
    }
    case(&with(&with(&small, 0, b"a\x80"), RIGHT, &oversize));
    vectors
}

/// The edit file of a diff that can be written.
fn written(items: &[i64], text: &[u32]) -> Vec<u8> {
    edit_file::write(items, text, AMPLE).expect("the diff can be written")
}

/// The bench sheets that are merges.
fn sheets() -> Vec<Triple> {
    let number = |number| [NUMBER, number, 0];
    let abcdef = [
        b"abcdef".to_vec(),
        written(
            &[number(2), number(-2), [TEXT, 0, 1], number(2)].concat(),
            &points("X"),
        ),
        written(
            &[number(3), number(-2), [TEXT, 0, 1], number(1)].concat(),
            &points("Y"),
        ),
    ];
    let pqr = [
        vec![],
        written(&[TEXT, 0, 2], &points("pq")),
        written(&[TEXT, 0, 2], &points("qr")),
    ];
    let b = written(&[number(-1), [TEXT, 0, 1]].concat(), &points("b"));
    let both = [b"a".to_vec(), b.clone(), b];
    let empty = [vec![], EMPTY.into(), EMPTY.into()];
    vec![abcdef, pqr, both, empty]
}

/// One code point of two bytes; the left keeps it and adds, the right drops it.
fn small() -> Triple {
    [
        "é".into(),
        written(&[[NUMBER, 1, 0], [TEXT, 0, 1]].concat(), &points("z")),
        written(&[NUMBER, -1, 0], &[]),
    ]
}

/// An edit file of exactly the largest size: it adds to nothing.
pub fn largest_edit_file() -> Vec<u8> {
    let mut text = vec![9];
    loop {
        let bytes = written(&[TEXT, 0, text.len() as i64], &text);
        // Each further code point takes two bytes; a longer one makes up for an odd rest.
        match size::PROGRAM_FILE - bytes.len() {
            0 => return bytes,
            1 => text[0] = 0x10,
            _ => text.push(9),
        }
    }
}

/// An original and two edit files for it, or nearly so.
pub fn triple(random: &mut Random) -> Triple {
    let length = random.below(9);
    let alphabet = ['a', 'b', 'é', '\u{1F411}'];
    let letter = |random: &mut Random| alphabet[random.below(4) as usize];
    let original: String = (0..length).map(|_| letter(random)).collect();

    let edits = |random: &mut Random| {
        if random.below(12) == 0 {
            // A good file whose counts fit only by chance.
            let (items, text) = good(random);
            return written(&items, &text);
        }
        let mut items: Vec<[i64; 3]> = Vec::new();
        let mut text = Vec::new();
        let mut left = length as i64;
        while left > 0 || random.below(3) == 0 {
            let after_keep = matches!(items.last(), Some([NUMBER, number, _]) if *number > 0);
            let taken = 1 + random.below(left.clamp(1, 4) as u64) as i64;
            match random.below(3) {
                0 if left > 0 && !after_keep => items.push([NUMBER, taken.min(left), 0]),
                1 if left > 0 => items.push([NUMBER, -taken.min(left), 0]),
                _ => {
                    let count = 1 + random.below(3) as i64;
                    items.push([TEXT, text.len() as i64, count]);
                    text.extend((0..count).map(|_| u32::from(letter(random))));
                    continue;
                }
            }
            left -= taken.min(left);
        }
        written(&items.concat(), &text)
    };
    let left = edits(random);
    let right = if random.below(10) == 0 {
        left.clone()
    } else {
        edits(random)
    };
    [original.into(), left, right]
}
