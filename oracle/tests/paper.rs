//! The independent reading of document 01: its bench sheets, its refusals and their order, its
//! sizes and rooms at their limits, and the laws of edit files over many random ones.

use oracle::flat::{self, DELETE, INSERT, Lent, NUMBER, RETAIN, TEXT};
use oracle::generate::lists::{SMALL, merge as random_merge};
use oracle::paper::cases::edit_files::good;
use oracle::paper::diff::{covering_replay, replay};
use oracle::paper::edit_file::{believed, read, write};
use oracle::paper::lists::{ElongateRooms, List, MergeRooms, RawList, check_list, check_merge};
use oracle::paper::program::program;
use oracle::paper::refusal::{AMPLE, Refusal};
use oracle::paper::{calls, cases, utf8};
use oracle::published::DiffError;
use oracle::random::Random;
use oracle::vectors;

fn points(text: &str) -> Vec<u32> {
    text.chars().map(u32::from).collect()
}

fn number(number: i64) -> [i64; 3] {
    [NUMBER, number, 0]
}

/// The edit file of these items.
fn file(items: &[[i64; 3]], text: &str) -> Vec<u8> {
    write(&items.concat(), &points(text), AMPLE).expect("the diff can be written")
}

// The bench sheets.

#[test]
fn sheet_of_overlaps() {
    let old = [0, 1, 9, 0, 2, 5];
    for (new, range) in [
        (&[9, 0, 2, 5, 1][..], 2..6),
        (&[0, 2], 3..5),
        (&[0, 4], 0..1),
        (&[], 0..0),
    ] {
        assert_eq!(calls::overlap(&old, new, AMPLE), Ok(range));
    }
}

#[test]
fn sheet_of_replays() {
    let abcde = points("abcde");
    let items = [number(2), [TEXT, 0, 1], number(-2)].concat();
    let text = points("X");
    assert_eq!(replay(&abcde, &items, &text, AMPLE), Ok(points("abX")));
    assert_eq!(
        covering_replay(&abcde, &items, &text, AMPLE),
        Err(Refusal::Unmentioned { left: 1 })
    );
    for (items, position, requested, available) in [
        ([number(3), number(-3)].concat(), 3, 3, 2),
        (number(i64::MIN).to_vec(), 0, 9_223_372_036_854_775_808, 5),
    ] {
        let refusal = Refusal::Short {
            position,
            requested,
            available,
        };
        assert_eq!(replay(&abcde, &items, &[], AMPLE), Err(refusal));
        assert_eq!(covering_replay(&abcde, &items, &[], AMPLE), Err(refusal));
        assert_eq!(refusal.number(), 6);
        assert_eq!(
            refusal.values(),
            [position as u64, requested, available as u64]
        );
    }
}

#[test]
fn sheets_of_the_program() {
    let merged = |original: &str, left: &[u8], right: &[u8]| {
        let written = program(Some(original.as_bytes()), Some(left), Some(right));
        String::from_utf8(written).expect("the program writes ASCII")
    };
    let left = file(&[number(2), number(-2), [TEXT, 0, 1], number(2)], "X");
    let right = file(&[number(3), number(-2), [TEXT, 0, 1], number(1)], "Y");
    assert_eq!(
        merged("abcdef", &left, &right),
        "form=1\noriginal=6\nresult=5\nitems=6\nkeep=2\ndrop=2\ndrop=1\nadd=58\nadd=59\nkeep=1\n\
         end=6\n"
    );

    let replayed = |original: &str, left: &[u8], right: &[u8]| {
        let merged = merged(original, left, right);
        let file = read(merged.as_bytes(), AMPLE, AMPLE).expect("a merge writes a good file");
        covering_replay(&points(original), &file.items, &file.text, AMPLE)
    };
    let (pq, qr) = (file(&[[TEXT, 0, 2]], "pq"), file(&[[TEXT, 0, 2]], "qr"));
    assert_eq!(replayed("", &pq, &qr), Ok(points("pqr")));
    let b = file(&[number(-1), [TEXT, 0, 1]], "b");
    assert_eq!(
        merged("a", &b, &b),
        "form=1\noriginal=1\nresult=1\nitems=2\ndrop=1\nadd=62\nend=2\n"
    );

    let empty = "form=1\noriginal=0\nresult=0\nitems=0\nend=0\n";
    assert_eq!(file(&[], ""), empty.as_bytes());
    assert_eq!(merged("", empty.as_bytes(), empty.as_bytes()), empty);
}

#[test]
fn the_program_refuses_in_order() {
    let keep = file(&[number(1)], "");
    let (oversize, bad_utf8) = (vec![b'\n'; 2_049], b"\xFF".to_vec());
    let (no_edit_file, misfit) = (b"form=2\n".to_vec(), file(&[number(2)], ""));
    // Each file that is refused, with its number; the smaller place in this list goes first.
    let refused = [
        (&oversize, "3"),
        (&bad_utf8, "10"),
        (&no_edit_file, "8"),
        (&misfit, "2"),
    ];
    let line = |number: &str| format!("refused={number}\n").into_bytes();
    for (rank, (bytes, number)) in refused.iter().enumerate() {
        assert_eq!(program(Some(b"a"), Some(bytes), Some(&keep)), line(number));
        assert_eq!(program(Some(b"a"), Some(&keep), Some(bytes)), line(number));
        for (later, _) in &refused[rank..] {
            assert_eq!(program(Some(b"a"), Some(later), Some(bytes)), line(number));
            assert_eq!(program(Some(b"a"), Some(bytes), Some(later)), line(number));
        }
        let unreadable = b"unreadable\n";
        assert_eq!(program(None, Some(bytes), Some(&keep)), unreadable);
        assert_eq!(program(Some(bytes), None, Some(&keep)), unreadable);
        assert_eq!(program(Some(bytes), Some(&keep), None), unreadable);
    }
    assert_eq!(
        program(Some(&oversize), Some(&keep), Some(&keep)),
        line("3")
    );
    assert_eq!(
        program(Some(&bad_utf8), Some(&keep), Some(&keep)),
        line("10")
    );
    assert_eq!(program(Some(b"ab"), Some(&keep), Some(&keep)), line("2"));
    // The largest size passes.
    let original = vec![b'a'; 2_048];
    let whole = file(&[number(2_048)], "");
    assert_eq!(program(Some(&original), Some(&whole), Some(&whole)), whole);
}

// Edit files.

/// The line that a file is refused at.
fn bad_line(file: &str) -> usize {
    match read(file.as_bytes(), 0, 0) {
        Err(Refusal::Line { line }) => line,
        other => panic!("{file:?} gives {other:?}"),
    }
}

#[test]
fn lines_charged() {
    let with = |original: &str, result: &str, items: &str, rest: &str| {
        format!("form=1\noriginal={original}\nresult={result}\nitems={items}\n{rest}")
    };
    let forty = "1".repeat(40);
    for (file, line) in [
        // READINGS: an end that comes for an item, sizes on item lines, long numbers
        (with("1", "1", "2", "keep=1\nend=1\n"), 6),
        (with("1", "9", "1", "keep=65536\nend=1\n"), 5),
        (with("9", "9", "2", "drop=65535\nkeep=1\nend=2\n"), 6),
        (with(&forty, "1", "1", "keep=1\nend=1\n"), 2),
        (with("1", &forty, "1", "keep=1\nend=1\n"), 3),
        (with("1", &forty, "1", "keep=1\nend=2\n"), 6),
        (with("1", "1", &forty, "keep=1\nend=1\n"), 4),
        (with("1", "1", "1", &format!("keep={forty}\nend=1\n")), 5),
        (with("1", "1", "1", &format!("add={forty}\nend=1\n")), 5),
        (with("1", "1", "1", &format!("keep=1\nend={forty}\n")), 6),
        // false sums: line 2, then 3, and only with all lines good
        (with("2", "2", "1", "keep=1\nend=1\n"), 2),
        (with("1", "2", "1", "keep=1\nend=1\n"), 3),
        (with("2", "2", "1", "keep=1\nend=1\nx"), 7),
        (with("2", "2", "1", "keep=1\nend=1"), 6),
        (with("2", "2", "1", "keep=1\n"), 6),
        (with("2", "2", "1", "keep=0\nend=1\n"), 5),
        // wrong port 3
        (with("12", "12", "1", "keep=1"), 5),
        (with("2", "2", "2", "keep=1\nkeep=1\nend=2\n"), 6),
        (String::new(), 1),
        ("form=1\n".into(), 2),
    ] {
        assert_eq!(bad_line(&file), line, "{file:?}");
    }
}

#[test]
fn sizes_of_edit_files() {
    // 8,192 items and 131,070 code points pass; one more of either is charged to its line.
    let drops = |count: usize| {
        let lines = "drop=1\n".repeat(count);
        format!("form=1\noriginal={count}\nresult=0\nitems={count}\n{lines}end={count}\n")
    };
    assert!(read(drops(8_192).as_bytes(), AMPLE, AMPLE).is_ok());
    assert_eq!(bad_line(&drops(8_193)), 4);

    let adds = |last: usize| {
        let line = |count: usize| format!("add={}\n", vec!["a"; count].join(" "));
        let result = 131_069 + last;
        let (first, last) = (line(131_069), line(last));
        format!("form=1\noriginal=0\nresult={result}\nitems=2\n{first}{last}end=2\n")
    };
    assert!(read(adds(1).as_bytes(), AMPLE, AMPLE).is_ok());
    assert_eq!(bad_line(&adds(2)), 6);
}

#[test]
fn laws_of_edit_files() {
    let mut random = Random::new(1);
    for _ in 0..3_000 {
        let (items, text) = good(&mut random);
        let bytes = write(&items, &text, AMPLE).expect("the diff can be written");

        // What is written reads back the same.
        let file = read(&bytes, items.len(), text.len()).expect("what is written is good");
        assert_eq!((&file.items, &file.text), (&items, &text));

        // It is believed for its own length only, and covers every original of that length.
        assert!(believed(&bytes, file.original));
        assert!(!believed(&bytes, file.original + 1));
        let original = vec![0x61; file.original];
        assert!(covering_replay(&original, &items, &text, AMPLE).is_ok());

        // No proper beginning is accepted, and the line charged is the one that was cut.
        for length in 0..bytes.len() {
            let whole_lines = bytes[..length]
                .iter()
                .filter(|&&byte| byte == b'\n')
                .count();
            assert_eq!(
                read(&bytes[..length], AMPLE, AMPLE),
                Err(Refusal::Line {
                    line: whole_lines + 1
                })
            );
        }

        // A damaged file that is accepted is what is written for its items.
        for _ in 0..20 {
            let mut bytes = bytes.clone();
            let place = random.below(bytes.len() as u64) as usize;
            match random.below(3) {
                0 => bytes[place] ^= 1 << random.below(8),
                1 => bytes[place] = b"0123456789abcdef =\n"[random.below(19) as usize],
                _ => drop(bytes.remove(place)),
            }
            if let Ok(file) = read(&bytes, AMPLE, AMPLE) {
                assert_eq!(write(&file.items, &file.text, AMPLE), Ok(bytes));
            }
        }
    }
}

#[test]
fn writing_refuses_in_order() {
    let refusal = |items: &[[i64; 3]], text: &[u32]| write(&items.concat(), text, AMPLE);
    let record = |index| Err(Refusal::Record { index });
    assert_eq!(refusal(&[number(1), number(0)], &[]), record(1));
    assert_eq!(refusal(&[number(1), number(1)], &[]), record(1));
    assert_eq!(
        refusal(&[number(1), [TEXT, 0, 0], number(1)], &[]),
        record(1)
    );
    assert_eq!(refusal(&[[TEXT, 0, 2]], &[0x61]), record(0));
    assert_eq!(refusal(&[[TEXT, -1, 1]], &[0x61]), record(0));
    assert_eq!(refusal(&[[TEXT, 1, -1]], &[0x61]), record(0));
    assert_eq!(refusal(&[[2, i64::MIN, 0]], &[]), record(0));
    assert_eq!(
        refusal(&[number(0)], &[0x61, 0xD800]),
        Err(Refusal::CodePoint { index: 1 })
    );
    assert!(refusal(&[number(65_535)], &[]).is_ok());
    assert_eq!(refusal(&[number(65_536)], &[0xD800]), Err(Refusal::Size));
    assert_eq!(refusal(&[number(i64::MIN); 2], &[]), Err(Refusal::Size));
    assert_eq!(refusal(&[number(i64::MIN); 8_192], &[]), Err(Refusal::Size));
    assert_eq!(refusal(&[number(-1); 8_193], &[]), Err(Refusal::Size));
}

// Diffs.

#[test]
fn plain_replay_is_the_rusts_and_covering_replay_leaves_nothing() {
    let mut random = Random::new(2);
    for _ in 0..50_000 {
        let original = vec![0x61; random.below(6) as usize];
        let text = [0x62, 0x63];
        let items: Vec<i64> = (0..random.below(5))
            .flat_map(|_| match random.below(2) {
                0 if random.below(20) == 0 => number(i64::MIN),
                0 => number(random.below(9) as i64 - 4),
                _ => [TEXT, random.below(3) as i64, random.below(2) as i64],
            })
            .collect();
        let mentioned: u128 = items
            .chunks_exact(3)
            .filter(|item| item[0] == NUMBER)
            .map(|item| u128::from(item[1].unsigned_abs()))
            .sum();
        let plain = replay(&original, &items, &text, AMPLE);
        // The Rust has no refusal 1.
        if !matches!(plain, Err(Refusal::Record { .. })) {
            let rust = flat::replay(&original, &items, &text).map_err(|error| match error {
                DiffError::LengthExceedsOriginal {
                    position,
                    requested,
                    available,
                } => Refusal::Short {
                    position,
                    requested: requested as u64,
                    available,
                },
                other => panic!("{other:?}"),
            });
            assert_eq!(plain, rust);
        }
        let left = (original.len() as u128).saturating_sub(mentioned) as usize;
        let covering = match plain {
            Ok(_) if left > 0 => Err(Refusal::Unmentioned { left }),
            ref other => other.clone(),
        };
        assert_eq!(covering_replay(&original, &items, &text, AMPLE), covering);
    }
}

#[test]
fn sizes_of_diffs() {
    let outcome = |original: usize, items: &[i64], text: usize| {
        replay(&vec![0; original], items, &vec![0; text], AMPLE).map(|text| text.len())
    };
    assert_eq!(outcome(65_535, &[], 0), Ok(0));
    assert_eq!(outcome(65_536, &[], 0), Err(Refusal::Size));
    assert_eq!(outcome(0, &number(0).repeat(8_192), 0), Ok(0));
    assert_eq!(outcome(0, &number(0).repeat(8_193), 0), Err(Refusal::Size));
    assert_eq!(outcome(0, &[], 131_070), Ok(0));
    assert_eq!(outcome(0, &[], 131_071), Err(Refusal::Size));
    let twice = [[TEXT, 0, 65_535], [TEXT, 0, 65_535]].concat();
    assert_eq!(outcome(0, &twice, 65_535), Ok(131_070));
    let more = [&twice[..], &[TEXT, 0, 1]].concat();
    assert_eq!(outcome(0, &more, 65_535), Err(Refusal::Size));
    let outside = [&twice[..], &[TEXT, 65_535, 1]].concat();
    assert_eq!(
        outcome(0, &outside, 65_535),
        Err(Refusal::Record { index: 2 })
    );
}

// UTF-8.

/// "The number of one bits at the top of the first byte gives the length: 0 means one byte, 2 to
/// 4 that many, any other count is bad. Continuation bytes carry six bits under the mark 10.
/// Overlong forms, surrogates and numbers above 10FFFF are bad."
fn decoded(bytes: &[u8]) -> Result<Vec<u32>, Refusal> {
    let mut points = Vec::new();
    let mut offset = 0;
    while offset < bytes.len() {
        let bad = Refusal::Utf8 { offset };
        let ones = bytes[offset].leading_ones() as usize;
        let (length, smallest) = match ones {
            0 => (1, 0),
            2 => (2, 0x80),
            3 => (3, 0x800),
            4 => (4, 0x1_0000),
            _ => return Err(bad),
        };
        let sequence = bytes.get(offset..offset + length).ok_or(bad)?;
        let mut point = u32::from(sequence[0]) & (0xFF >> ones);
        for byte in &sequence[1..] {
            if byte >> 6 != 0b10 {
                return Err(bad);
            }
            point = point << 6 | u32::from(byte & 0x3F);
        }
        if point < smallest || point > 0x10_FFFF || (0xD800..=0xDFFF).contains(&point) {
            return Err(bad);
        }
        points.push(point);
        offset += length;
    }
    Ok(points)
}

#[test]
fn the_judge_of_utf8_agrees_with_the_paper() {
    let all: Vec<u8> = (0..=255).collect();
    let edges = [
        0x00, 0x7F, 0x80, 0x8F, 0x90, 0x9F, 0xA0, 0xBF, 0xC0, 0xC1, 0xC2, 0xDF, 0xE0, 0xE1, 0xEC,
        0xED, 0xEE, 0xEF, 0xF0, 0xF1, 0xF3, 0xF4, 0xF5, 0xF7, 0xF8, 0xFF,
    ];
    // All strings of one and of two bytes, then of three and four at the edges.
    let mut strings: Vec<Vec<u8>> = vec![vec![]];
    for choices in [&all[..], &all, &edges, &edges] {
        strings = strings
            .iter()
            .flat_map(|string| choices.iter().map(|&byte| [&string[..], &[byte]].concat()))
            .collect();
        for string in &strings {
            let outcome = utf8::read(string, AMPLE);
            assert_eq!(outcome, decoded(string), "{string:?}");
            if let Ok(points) = outcome {
                assert_eq!(utf8::write(&points, string.len()), Ok(string.clone()));
            }
        }
        if strings[0].len() > 1 {
            strings.retain(|string| string.iter().all(|byte| edges.contains(byte)));
        }
    }
}

// Lists.

const DELETED: [usize; 6] = [DELETE, 0, 1, 0, 0, 0];
const INSERTED: [usize; 6] = [INSERT, 0, 0, 0, 0, 1];
const RETAINED: [usize; 6] = [RETAIN, 0, 1, 0, 0, 0];

fn list<'a>(operations: &'a [usize], cursors: &'a [usize]) -> List<'a> {
    List {
        operations,
        cursors,
    }
}

/// A merge over one code point and one token that spells one code point.
fn merge_outcome(left: List, right: List) -> Result<(), Refusal> {
    let lent = Lent {
        original: &[0x61],
        inserted: &[0x62],
        spans: &[0, 1],
        keys: &[0],
    };
    check_merge(&lent, left, right, MergeRooms::AMPLE)
}

#[test]
fn lists_are_refused_in_order() {
    let good = list(&RETAINED, &[]);
    assert_eq!(merge_outcome(good, good), Ok(()));

    let unknown_kind = [RETAINED, [3, 0, 0, 0, 0, usize::MAX]].concat();
    let unknown_side = [[RETAIN, 0, 1, 2, 0, 0]].concat();
    let past_end = [RETAIN, 0, 2, 0, 0, 0];
    let wrong_order = [INSERTED, [DELETE, 1, 1, 0, 0, 0]].concat();
    let claims = [RETAINED, [INSERT, 0, 0, 0, 0, 8_193]].concat();
    let wrapping = [[INSERT, 0, 0, 0, 0, 1 << 63]; 2].concat();
    // Refused lists with their refusal, in the paper's order.
    let refused = [
        (list(&claims, &[]), Refusal::Size),
        (list(&wrapping, &[]), Refusal::Size),
        (list(&unknown_kind, &[]), Refusal::Record { index: 1 }),
        (list(&unknown_side, &[]), Refusal::Record { index: 0 }),
        (list(&past_end, &[]), Refusal::Tiling { index: 0 }),
        (list(&wrong_order, &[]), Refusal::Tiling { index: 1 }),
        (list(&INSERTED, &[]), Refusal::Tiling { index: 1 }),
        (list(&[], &[]), Refusal::Tiling { index: 0 }),
        (
            list(&RETAINED, &[9, 1, 8, 2, 7, 3]),
            Refusal::Cursor { place: 1 },
        ),
        (list(&DELETED, &[9, 0, 8, 1]), Refusal::Cursor { place: 1 }),
    ];
    for (rank, (list, refusal)) in refused.into_iter().enumerate() {
        assert_eq!(merge_outcome(list, good), Err(refusal));
        assert_eq!(merge_outcome(good, list), Err(refusal));
        // On the left it goes before what has the same number on the right.
        for (later, other) in &refused[rank..] {
            assert_eq!(merge_outcome(list, *later), Err(refusal));
            if other.number() != refusal.number() {
                assert_eq!(merge_outcome(*later, list), Err(refusal));
            }
        }
    }
}

#[test]
fn sizes_of_lists() {
    let outcome = |original: usize, inserted: usize, list: List, merging: bool| {
        let lent = Lent {
            original: &vec![0; original],
            inserted: &vec![0; inserted],
            spans: &[0, 1].repeat(16_384),
            keys: &[0; 16_384],
        };
        if merging {
            check_merge(&lent, list, list, MergeRooms::AMPLE)
        } else {
            check_list(&lent, list)
        }
    };
    for (merging, scale) in [(true, 1), (false, 2)] {
        let size = |original, inserted, operations: &[usize], cursors: &[usize]| {
            outcome(original, inserted, list(operations, cursors), merging)
        };
        let long = |length| [RETAIN, 0, length, 0, 0, 0];
        assert_eq!(size(65_535, 0, &long(65_535), &[]), Ok(()));
        assert_eq!(size(65_536, 0, &long(65_536), &[]), Err(Refusal::Size));
        assert_eq!(size(0, 131_070, &[], &[]), Ok(()));
        assert_eq!(size(0, 131_071, &[], &[]), Err(Refusal::Size));

        let inserts = |count: usize| INSERTED.repeat(count);
        assert_eq!(size(0, 1, &inserts(4_096 * scale), &[]), Ok(()));
        assert_eq!(
            size(0, 1, &inserts(4_096 * scale + 1), &[]),
            Err(Refusal::Size)
        );
        let claim = |count| [INSERT, 0, 0, 0, 0, count];
        assert_eq!(size(0, 1, &claim(8_192 * scale), &[]), Ok(()));
        assert_eq!(
            size(0, 1, &claim(8_192 * scale + 1), &[]),
            Err(Refusal::Size)
        );
        let cursors = |count: usize| [0, 0].repeat(count);
        assert_eq!(size(0, 0, &[], &cursors(256 * scale)), Ok(()));
        assert_eq!(
            size(0, 0, &[], &cursors(256 * scale + 1)),
            Err(Refusal::Size)
        );
    }

    // Inserted text by tokens of 65,535 and of 1.
    let lent = Lent {
        original: &[],
        inserted: &[0; 65_535],
        spans: &[0, 65_535, 0, 1],
        keys: &[0, 0],
    };
    let (long, short) = ([INSERT, 0, 0, 0, 0, 1], [INSERT, 0, 0, 0, 1, 1]);
    let merging = |operations: &[usize]| {
        let list = list(operations, &[]);
        check_merge(&lent, list, list, MergeRooms::AMPLE)
    };
    assert_eq!(merging(&long), Ok(()));
    assert_eq!(merging(&[long, short].concat()), Err(Refusal::Size));
    let otherwise = |operations: &[usize]| check_list(&lent, list(operations, &[]));
    assert_eq!(otherwise(&[long, long].concat()), Ok(()));
    assert_eq!(otherwise(&[long, long, short].concat()), Err(Refusal::Size));
}

#[test]
fn raw_lists_are_refused_in_order() {
    let outcome = |operations: &[usize], text: &[u32]| {
        let raw = RawList {
            operations,
            spans: &[0, 1, 0, 0, 1, u32::MAX],
            keys: &[0; 3],
            joins: &[0; 3],
            text,
        };
        raw.check(ElongateRooms::AMPLE)
    };
    let record = |index| Err(Refusal::Record { index });
    let good = [RETAIN, 0, 1];
    assert_eq!(outcome(&good, &[0x61]), Ok(()));
    for bad in [
        [3, 0, usize::MAX],
        [DELETE, 0, 0],
        [INSERT, 1, 1],
        [RETAIN, 2, 1],
        [INSERT, 3, 1],
        [DELETE, usize::MAX, 1],
    ] {
        assert_eq!(outcome(&[good, bad].concat(), &[0x61]), record(1));
        let not_a_point = Err(Refusal::CodePoint { index: 1 });
        assert_eq!(outcome(&[bad, good].concat(), &[0x61, 0xDFFF]), not_a_point);
        let claim = [RETAIN, 0, 16_384];
        assert_eq!(
            outcome(&[bad, good, claim].concat(), &[0xDFFF]),
            Err(Refusal::Size)
        );
    }
    assert_eq!(outcome(&[RETAIN, 0, 16_384], &[0x61]), record(0));
}

#[test]
fn damaged_lists_are_refused_or_merged() {
    let mut random = Random::new(3);
    let mut accepted = 0;
    for _ in 0..20_000 {
        let mut case = random_merge(&mut random, SMALL);
        let outcome = |case: &oracle::generate::Merge| {
            calls::merge(
                &case.lent(),
                list(&case.left, &case.left_cursors),
                list(&case.right, &case.right_cursors),
                MergeRooms::AMPLE,
            )
        };
        assert!(outcome(&case).is_ok());
        for _ in 0..4 {
            let numbers = match random.below(4) {
                0 => &mut case.left,
                1 => &mut case.right,
                2 => &mut case.left_cursors,
                _ => &mut case.right_cursors,
            };
            if !numbers.is_empty() {
                let place = random.below(numbers.len() as u64) as usize;
                numbers[place] = [0, 1, 2, 3, 7, usize::MAX][random.below(6) as usize];
            }
            // The completed Rust takes whatever is accepted.
            accepted += usize::from(outcome(&case).is_ok());
        }
    }
    assert!(accepted > 1_000);
}

// Rooms.

#[test]
fn a_room_of_the_length_asked_passes_and_a_shorter_one_is_refused() {
    /// The outcomes with each room as long as asked, and with each in turn one shorter.
    fn rooms<const N: usize>(asked: [usize; N], outcome: impl Fn([usize; N]) -> Option<Refusal>) {
        assert_eq!(outcome(asked), None);
        for shorter in (0..N).filter(|&place| asked[place] > 0) {
            let mut rooms = asked;
            rooms[shorter] -= 1;
            assert_eq!(outcome(rooms), Some(Refusal::Room));
        }
    }

    let abcde = points("abcde");
    rooms([3], |[text]| replay(&abcde, &number(3), &[], text).err());
    rooms([5], |[text]| {
        covering_replay(&abcde, &number(5), &[], text).err()
    });
    rooms([2], |[text]| utf8::read("aé".as_bytes(), text).err());
    rooms([3], |[bytes]| utf8::write(&points("aé"), bytes).err());
    rooms([41], |[bytes]| write(&[], &[], bytes).err());
    let two = file(&[number(1), [TEXT, 0, 1]], "b");
    rooms([6, 1], |[items, text]| read(&two, items, text).err());
    rooms([3], |[work]| calls::overlap(&[1], &[1, 2, 3], work).err());

    let raw = RawList {
        operations: &[INSERT, 0, 2, INSERT, 1, 1],
        spans: &[0, 1, 0, 1],
        keys: &[0, 1],
        joins: &[3, 3],
        text: &[0x61],
    };
    rooms([12, 6, 3, 3], |[operations, spans, keys, joins]| {
        let rooms = ElongateRooms {
            operations,
            spans,
            keys,
            joins,
        };
        calls::elongate(raw, rooms).err()
    });

    let lent = Lent {
        original: &[0x61],
        inserted: &[0x62],
        spans: &[0, 1],
        keys: &[0],
    };
    let left = [INSERTED, RETAINED].concat();
    let cursors = [1, 0, 2, 2];
    rooms([18, 4, 2], |[operations, cursors_room, work]| {
        let rooms = MergeRooms {
            operations,
            cursors: cursors_room,
            work,
        };
        calls::merge(&lent, list(&left, &cursors), list(&DELETED, &[]), rooms).err()
    });
    rooms([2, 4], |[text, cursors_room]| {
        calls::apply(&lent, list(&left, &cursors), text, cursors_room).err()
    });
    rooms([8, 2], |[spans, text]| {
        calls::apply_with_history(&lent, &left, spans, text).err()
    });
    rooms([6, 1], |[items, text]| {
        calls::to_diff(&lent, &left, items, text).err()
    });
}

// The stored vectors.

#[test]
fn stored_vectors_are_made_again_byte_for_byte() {
    let mut total = 0;
    for (name, made) in cases::files() {
        let stored = std::fs::read_to_string(vectors::folder().join(name))
            .unwrap_or_else(|error| panic!("{name}: {error}"));
        assert!(stored == made.as_str(), "{name} is not what is made now");
        total += stored.len();
    }
    assert!(total <= 700_000, "{total} bytes");
}
