//! Edit files: the paper's own, every rule broken once, every proper beginning, numbers of 1 to
//! 40 digits, every bit flipped, each size at its limit and one past it, originals that fit or
//! not; diffs to write, each refusal at each place, sums past every number, each size likewise.

use super::super::edit_file::{self, EditFile};
use super::super::refusal::{AMPLE, size};
use super::{NO_CODE_POINTS, PIECE, PIECES, answer, points, replaced};
use crate::flat::{ITEM_STRIDE, NUMBER, TEXT};
use crate::random::Random;
use crate::vectors::Vectors;

/// The file of document 01's bench sheet.
pub const SHEET: &str = "form=1\noriginal=6\nresult=5\nitems=6\nkeep=2\ndrop=2\ndrop=1\nadd=58\n\
                         add=59\nkeep=1\nend=6\n";
/// "Empty everything"
pub const EMPTY: &str = "form=1\noriginal=0\nresult=0\nitems=0\nend=0\n";
/// One line of each kind.
const KINDS: &str = "form=1\noriginal=3\nresult=3\nitems=3\nkeep=2\ndrop=1\nadd=7a\nend=3\n";
/// Longer numbers, and several code points in a line.
const LONG: &str = "form=1\noriginal=120\nresult=23\nitems=3\ndrop=100\nkeep=20\n\
                    add=1f411 0 a\nend=3\n";
/// The shortest with an item.
const SHORT: &str = "form=1\noriginal=0\nresult=1\nitems=1\nadd=a\nend=1\n";
/// These, each with the original's length that it is for.
pub const WHOLE: [(&str, usize); 5] = [(SHEET, 6), (EMPTY, 0), (KINDS, 3), (LONG, 120), (SHORT, 0)];

/// So many lines of so many code points make 131,070.
const PARTS: usize = PIECES / 10;
const PART: usize = PIECE * 10;

/// Each line of `KINDS` in turn becomes each of these; `@` stands for its key, `#` for the rest.
const BROKEN_LINES: [&str; 12] = [
    "", "@", "#", "@#\r", " @#", "@# ", "@0#", "@+#", "@#\n", "@#\n@#", "@# #", "@00",
];

/// Item lines that stand alone in a file, good and bad.
const ITEM_LINES: [&str; 40] = [
    "add=0",
    "add=00",
    "add=a",
    "add=A",
    "add=0a",
    "add=g",
    "add=1F",
    "add=0x1",
    "add=",
    "add= ",
    "add= a",
    "add=a ",
    "add=a  b",
    "add=a\tb",
    "add=a b c",
    "add=a 0 b",
    "add=a 00",
    "add=d7ff",
    "add=d800",
    "add=dfff",
    "add=e000",
    "add=ffff",
    "add=10000",
    "add=10ffff",
    "add=110000",
    "add=ffffff",
    "add=100000000",
    "add=100000061",
    "add=a d800 b",
    "Add=a",
    "ad=a",
    "adda",
    "add",
    "keep=0",
    "drop=0",
    "keep=",
    "keep=a",
    "drop=1 1",
    "keep",
    "end=1",
];

/// Whole files, each with one rule broken or at its edge.
const FILES: [&str; 44] = [
    "",
    "\n",
    "\n\n\n\n\n",
    "form=1",
    "form=2\noriginal=0\nresult=0\nitems=0\nend=0\n",
    "form=11\noriginal=0\nresult=0\nitems=0\nend=0\n",
    "form=01\noriginal=0\nresult=0\nitems=0\nend=0\n",
    "\u{FEFF}form=1\noriginal=0\nresult=0\nitems=0\nend=0\n",
    "form=1\r\noriginal=0\r\nresult=0\r\nitems=0\r\nend=0\r\n",
    // lines out of order, one missing, one twice
    "form=1\nresult=0\noriginal=0\nitems=0\nend=0\n",
    "form=1\noriginal=0\nitems=0\nend=0\n",
    "form=1\noriginal=0\nresult=0\nend=0\n",
    "form=1\nform=1\noriginal=0\nresult=0\nitems=0\nend=0\n",
    "form=1\noriginal=0\nresult=0\nitems=0\nend=0\nend=0\n",
    // the count of items
    "form=1\noriginal=1\nresult=1\nitems=2\nkeep=1\nend=1\n",
    "form=1\noriginal=1\nresult=1\nitems=2\nkeep=1\nend=2\n",
    "form=1\noriginal=1\nresult=1\nitems=0\nkeep=1\nend=1\n",
    "form=1\noriginal=2\nresult=1\nitems=1\nkeep=1\ndrop=1\nend=1\n",
    "form=1\noriginal=1\nresult=1\nitems=1\nkeep=1\nend=0\n",
    "form=1\noriginal=1\nresult=1\nitems=1\nkeep=1\nend=2\n",
    "form=1\noriginal=1\nresult=1\nitems=1\nkeep=1\nend=11\n",
    // bytes after the end
    "form=1\noriginal=0\nresult=0\nitems=0\nend=0\n\n",
    "form=1\noriginal=0\nresult=0\nitems=0\nend=0\nx",
    "form=1\noriginal=0\nresult=0\nitems=0\nend=0\n\0",
    // neighbours
    "form=1\noriginal=2\nresult=2\nitems=2\nkeep=1\nkeep=1\nend=2\n",
    "form=1\noriginal=3\nresult=2\nitems=3\nkeep=1\ndrop=1\nkeep=1\nend=3\n",
    "form=1\noriginal=2\nresult=0\nitems=2\ndrop=1\ndrop=1\nend=2\n",
    "form=1\noriginal=0\nresult=2\nitems=2\nadd=a\nadd=a\nend=2\n",
    "form=1\noriginal=4\nresult=4\nitems=3\ndrop=1\nkeep=2\nkeep=1\nend=3\n",
    // false sums: the original's, the result's, both, and with another bad line
    "form=1\noriginal=4\nresult=3\nitems=3\nkeep=2\ndrop=1\nadd=7a\nend=3\n",
    "form=1\noriginal=2\nresult=3\nitems=3\nkeep=2\ndrop=1\nadd=7a\nend=3\n",
    "form=1\noriginal=3\nresult=4\nitems=3\nkeep=2\ndrop=1\nadd=7a\nend=3\n",
    "form=1\noriginal=3\nresult=2\nitems=3\nkeep=2\ndrop=1\nadd=7a\nend=3\n",
    "form=1\noriginal=2\nresult=2\nitems=3\nkeep=2\ndrop=1\nadd=7a\nend=3\n",
    "form=1\noriginal=2\nresult=2\nitems=3\nkeep=2\ndrop=1\nadd=7A\nend=3\n",
    "form=1\noriginal=2\nresult=2\nitems=3\nkeep=2\ndrop=1\nadd=7a\nend=4\n",
    "form=1\noriginal=2\nresult=2\nitems=3\nkeep=2\ndrop=1\nadd=7a\nend=3\nx",
    "form=1\noriginal=2\nresult=2\nitems=3\nkeep=2\ndrop=1\nadd=7a\nend=3",
    // sizes
    "form=1\noriginal=65535\nresult=65535\nitems=1\nkeep=65535\nend=1\n",
    "form=1\noriginal=65536\nresult=65536\nitems=1\nkeep=65536\nend=1\n",
    "form=1\noriginal=65535\nresult=65535\nitems=2\nkeep=65535\ndrop=1\nend=2\n",
    "form=1\noriginal=65535\nresult=1\nitems=2\ndrop=65534\nkeep=2\nend=2\n",
    "form=1\noriginal=1\nresult=1\nitems=8192\nkeep=1\nend=8192\n",
    "form=1\noriginal=1\nresult=1\nitems=8193\nkeep=1\nend=8193\n",
];

/// A file with one number left open, at `#`; 1 is right there.
const NUMBERS: [&str; 7] = [
    "form=1\noriginal=1\nresult=#\nitems=1\nkeep=1\nend=1\n",
    "form=1\noriginal=1\nresult=1\nitems=1\nkeep=#\nend=1\n",
    "form=1\noriginal=0\nresult=1\nitems=1\nadd=#\nend=1\n",
    "form=1\noriginal=#\nresult=1\nitems=1\nkeep=1\nend=1\n",
    "form=1\noriginal=1\nresult=1\nitems=#\nkeep=1\nend=1\n",
    "form=1\noriginal=1\nresult=0\nitems=1\ndrop=#\nend=1\n",
    "form=1\noriginal=1\nresult=1\nitems=1\nkeep=1\nend=#\n",
];

/// Numbers that would be 1 if only their low 8 to 128 bits were read.
const WRAPPING: [&str; 5] = [
    "257",
    "65537",
    "4294967297",
    "18446744073709551617",
    "340282366920938463463374607431768211457",
];

/// A case of reading: file, answer, text, items; the lengths given and for each whether the file
/// is believed; the lines charged to its proper beginnings and to its flipped bits, if wanted.
fn read_case(vectors: &mut Vectors, bytes: &[u8], lengths: &[usize], damaged: bool) {
    let file = edit_file::read(bytes, AMPLE, AMPLE);
    vectors.pieces(bytes);
    let counts = |file: &EditFile| vec![file.items.len() / ITEM_STRIDE, file.text.len()];
    answer(vectors, file.as_ref().map(counts).map_err(|no| *no));
    let (items, text) = file.map_or_else(|_| Default::default(), |file| (file.items, file.text));
    vectors.pieces(&text);
    vectors.pieces(&items);
    let believed = |&length: &usize| [length, edit_file::believed(bytes, length).into()];
    vectors.line(&lengths.iter().flat_map(believed).collect::<Vec<_>>());
    let places = 0..if damaged { bytes.len() } else { 0 };
    let beginnings = places.clone().map(|length| charged(&bytes[..length]));
    vectors.line(&beginnings.collect::<Vec<_>>());
    let flips = places.flat_map(|place| (0..8).map(move |bit| flipped(bytes, place, bit)));
    vectors.line(&flips.map(|bytes| charged(&bytes)).collect::<Vec<_>>());
}

/// The line charged, 0 where the file is accepted.
fn charged(bytes: &[u8]) -> u64 {
    match edit_file::read(bytes, AMPLE, AMPLE) {
        Ok(_) => 0,
        Err(refusal) => refusal.values()[0],
    }
}

fn flipped(bytes: &[u8], place: usize, bit: u32) -> Vec<u8> {
    let mut bytes = bytes.to_vec();
    bytes[place] ^= 1 << bit;
    bytes
}

pub fn read() -> Vectors {
    let mut vectors = Vectors::new();

    // The paper's files and others like them, whole and damaged, for originals that fit or not.
    for (file, length) in WHOLE {
        let bytes = file.as_bytes();
        let lengths = [
            length,
            length + 1,
            length.wrapping_sub(1),
            length + (1 << 32),
        ];
        read_case(&mut vectors, bytes, &lengths, true);
        let lengths = &lengths[..1];
        read_case(&mut vectors, &[bytes, b"\n"].concat(), lengths, false);
        for place in 0..bytes.len() {
            for damaged in (0..8).map(|bit| flipped(bytes, place, bit)) {
                if charged(&damaged) == 0 {
                    read_case(&mut vectors, &damaged, lengths, false);
                }
            }
        }
    }
    for file in FILES {
        read_case(&mut vectors, file.as_bytes(), &[0, 1, 2, 3, 4], false);
    }
    for file in limits() {
        read_case(&mut vectors, file.as_bytes(), &[65_535, 65_536], false);
    }
    let mut case = |file: &str| read_case(&mut vectors, file.as_bytes(), &[1], false);
    for broken in broken_lines() {
        case(&broken);
    }
    for line in ITEM_LINES {
        let (original, result) = if line.starts_with("add=") {
            (0, 1 + line.matches(' ').count())
        } else {
            (1, 1)
        };
        case(&format!(
            "form=1\noriginal={original}\nresult={result}\nitems=1\n{line}\nend=1\n"
        ));
    }
    for file in NUMBERS {
        for digits in 1..=40 {
            case(&file.replace('#', &"1".repeat(digits)));
        }
        for number in WRAPPING {
            case(&file.replace('#', number));
        }
    }
    vectors
}

/// Each size at its limit and one past it, alone and with the others.
pub fn limits() -> Vec<String> {
    let file = |original: usize, result: usize, items: usize, lines: &str| {
        format!("form=1\noriginal={original}\nresult={result}\nitems={items}\n{lines}end={items}\n")
    };
    let drops = |count: usize| "drop=1\n".repeat(count);
    let add = |count: usize| format!("add={}9\n", "9 ".repeat(count - 1));
    let mut files = Vec::new();
    // Items, counted or there.
    for count in [size::DIFF_ITEMS - 1, size::DIFF_ITEMS, size::DIFF_ITEMS + 1] {
        files.push(file(count, 0, count, &drops(count)));
        files.push(file(count, 0, size::DIFF_ITEMS, &drops(count)));
    }
    // Code points of text, in one line and in several, the last of one code point or none.
    for count in [size::DIFF_TEXT - 1, size::DIFF_TEXT, size::DIFF_TEXT + 1] {
        files.push(file(0, count, 1, &add(count)));
        files.push(file(0, count, 2, &(add(count - 1) + &add(1))));
        files.push(file(0, count, 3, &(add(1) + &add(count - 2) + &add(1))));
        let lines = add(PART).repeat(PARTS - 1) + &add(count - PART * (PARTS - 1));
        files.push(file(0, count, PARTS, &lines));
    }
    files.push(file(
        0,
        size::DIFF_TEXT,
        2,
        &(add(size::DIFF_TEXT) + &add(1)),
    ));
    // The original, in one line and in as many as there may be.
    for count in [size::ORIGINAL - 1, size::ORIGINAL, size::ORIGINAL + 1] {
        for original in [count, size::ORIGINAL] {
            files.push(file(original, count, 1, &format!("keep={count}\n")));
            let kept = count - (size::DIFF_ITEMS - 1);
            let lines = drops(size::DIFF_ITEMS - 1) + &format!("keep={kept}\n");
            files.push(file(original, kept, size::DIFF_ITEMS, &lines));
            files.push(file(original, kept, size::DIFF_ITEMS - 1, &lines));
        }
    }
    // All at once, and each of them one past its limit.
    let dropped = size::DIFF_ITEMS - 2;
    let kept = size::ORIGINAL - dropped;
    for (kept, added) in [
        (kept, size::DIFF_TEXT),
        (kept + 1, size::DIFF_TEXT),
        (kept, size::DIFF_TEXT + 1),
        (kept + 1, size::DIFF_TEXT + 1),
    ] {
        for items in [size::DIFF_ITEMS, size::DIFF_ITEMS + 1] {
            let lines = drops(items - 2) + &format!("keep={kept}\n") + &add(added);
            files.push(file(size::ORIGINAL, kept + added, items, &lines));
        }
    }
    // The largest result there can be, and one that is false.
    let most = size::ORIGINAL + size::DIFF_TEXT;
    for result in [most, most + 1] {
        let lines = format!("keep={}\n", size::ORIGINAL) + &add(size::DIFF_TEXT);
        files.push(file(size::ORIGINAL, result, 2, &lines));
    }
    files
}

/// `KINDS` with one of its lines broken.
fn broken_lines() -> Vec<String> {
    let lines: Vec<&str> = KINDS.lines().collect();
    let mut files = Vec::new();
    for (place, line) in lines.iter().enumerate() {
        let equals = line.find('=').map_or(0, |at| at + 1);
        let (key, rest) = line.split_at(equals);
        for broken in BROKEN_LINES {
            let mut lines = lines.clone();
            let broken = broken.replace('@', key).replace('#', rest);
            lines[place] = &broken;
            files.push(lines.join("\n") + "\n");
        }
    }
    files
}

pub fn write() -> Vectors {
    let mut vectors = Vectors::new();
    let mut case = |items: &[i64], text: &[u32]| {
        let bytes = edit_file::write(items, text, AMPLE);
        vectors.pieces(bytes.as_deref().unwrap_or_default());
        let length = bytes.map(|bytes| vec![bytes.len()]);
        answer(&mut vectors, length);
        vectors.pieces(text);
        vectors.pieces(items);
    };
    let number = |number| [NUMBER, number, 0];
    let text = points("XYZ");

    // The paper's file, nothing at all, and what other files say.
    for (file, _) in WHOLE {
        let file = edit_file::read(file.as_bytes(), AMPLE, AMPLE).expect("these files are good");
        case(&file.items, &file.text);
    }

    // Each number of a diff replaced; each number of its text by no code point.
    let items = [number(2), [TEXT, 0, 1], number(-2), [TEXT, 1, 2], number(1)].concat();
    let values = [i64::MIN, -1, 0, 1, 3, 65_533, 65_536, i64::MAX];
    for damaged in replaced(&items, &values) {
        case(&damaged, &text);
    }
    for damaged in replaced(&text, &NO_CODE_POINTS) {
        case(&items, &damaged);
    }
    for length in 0..items.len() {
        case(&items[..length], &text);
    }

    // A zero, an empty text, a second keep: at every place of pairs and of threes.
    let choices = [
        number(1),
        number(-1),
        number(0),
        [TEXT, 0, 1],
        [TEXT, 0, 0],
        [2, 1, 0],
    ];
    for first in choices {
        for second in choices {
            case(&[first, second].concat(), &text);
        }
    }
    for first in [number(1), [TEXT, 1, 1]] {
        for second in choices {
            case(&[first, second, number(1), number(1)].concat(), &text);
        }
    }

    // Sums at the limit and one past it, and sums that are small only when they wrap.
    for sum in [
        &[65_535][..],
        &[65_536],
        &[-65_535],
        &[-65_536],
        &[65_534, -1],
        &[65_535, -1],
        &[-65_535, 1],
        &[-1, 32_767, -32_767],
        &[-2, 32_767, -32_767],
        &[1 << 32],
        &[(1 << 32) + 1, -1],
        &[i64::MIN],
        &[i64::MIN, i64::MIN],
        &[i64::MIN, i64::MAX, -1],
        &[i64::MIN, i64::MAX, -2],
        &[i64::MAX, -i64::MAX, -2],
        &[1 << 62, -(1 << 62), -(1 << 62), 1 << 62],
        &[i64::MIN + 1, i64::MIN, -1],
    ] {
        let items: Vec<i64> = sum.iter().flat_map(|&sum| number(sum)).collect();
        case(&items, &[]);
        // Size goes before code points, and these before records.
        case(&items, &[0x61, 0xD800]);
        case(&[&items[..], &[5, i64::MAX, i64::MIN]].concat(), &[]);
    }

    // Text past its size by repeated ranges: at the limit a record is refused, past it the size.
    let much = [TEXT, 0, PIECE as i64].repeat(PIECES);
    let nines = vec![9; PIECE];
    case(&[&much[..], &number(0)].concat(), &nines);
    case(&[&much[..], &[TEXT, 0, 1], &number(0)].concat(), &nines);
    let much = [TEXT, 0, PART as i64].repeat(PARTS);
    let nines = vec![9; PART];
    case(&much, &nines);
    case(&[&much[..], &[TEXT, 0, 1]].concat(), &nines);

    // Each size at its limit and one past it: items, text that is lent and text that is used.
    for count in [size::DIFF_ITEMS, size::DIFF_ITEMS + 1] {
        case(&number(-1).repeat(count), &[]);
        // Code points and records come after.
        case(&number(0).repeat(count), &text);
        case(&number(-1).repeat(count), &[0xD800]);
    }
    for count in [size::DIFF_TEXT, size::DIFF_TEXT + 1] {
        let nines = vec![9; count];
        case(&[TEXT, 0, count as i64], &nines);
        case(&number(1), &nines);
        let mut last_bad = nines;
        last_bad[count - 1] = 0xDFFF;
        case(&[TEXT, 0, 1], &last_bad);
        case(&[TEXT, 0, 0], &last_bad);
    }
    // All at once, and each of them one past its limit.
    let most = size::DIFF_TEXT;
    let dropped = size::DIFF_ITEMS - 2;
    let kept = (size::ORIGINAL - dropped) as i64;
    for (dropped, kept, added) in [
        (dropped, kept, most),
        (dropped + 1, kept - 1, most),
        (dropped, kept + 1, most),
        (dropped, kept, most + 1),
    ] {
        let items = [
            number(-1).repeat(dropped),
            number(kept).to_vec(),
            vec![TEXT, 0, added as i64],
        ];
        case(&items.concat(), &vec![9; added]);
    }

    let mut random = Random::new(61);
    for _ in 0..30 {
        let (items, text) = good(&mut random);
        case(&items, &text);
    }
    for _ in 0..30 {
        let (mut items, text) = good(&mut random);
        if !items.is_empty() {
            let place = random.below(items.len() as u64) as usize;
            items[place] = values[random.below(values.len() as u64) as usize];
        }
        case(&items, &text);
    }
    vectors
}

/// A diff that can be written.
pub fn good(random: &mut Random) -> (Vec<i64>, Vec<u32>) {
    let mut items = Vec::new();
    let mut text = Vec::new();
    let mut after_keep = false;
    for _ in 0..random.below(6) {
        let bits = random.below(11);
        let size = 1 + random.below(1 << bits) as i64;
        match random.below(3) {
            0 if !after_keep => items.extend([NUMBER, size, 0]),
            1 => {
                let length = 1 + random.below(3);
                items.extend([TEXT, text.len() as i64, length as i64]);
                text.extend((0..length).map(|_| code_point(random)));
            }
            _ => items.extend([NUMBER, -size, 0]),
        }
        after_keep = matches!(items[items.len() - 3..], [NUMBER, number, _] if number > 0);
    }
    (items, text)
}

/// A code point of any number of hex digits.
fn code_point(random: &mut Random) -> u32 {
    let bits = 1 + random.below(20);
    match random.below(1 << bits) as u32 {
        0xD800..=0xDFFF => 0x10_FFFF,
        other => other,
    }
}
