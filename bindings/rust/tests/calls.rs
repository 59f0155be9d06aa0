//! The library through the bindings: the paper's sheets, every refusal with its values, and rooms as they are left.

use fleecelatch::*;

fn points(text: &str) -> Vec<u32> {
    code_points(text)
}

/// A list and its tokens by words: `=2` retains, `-2` deletes, other words are inserted, a token for each character.
struct Words {
    text: Vec<u32>,
    tokens: Vec<Token>,
    lists: Vec<Vec<Operation>>,
}

impl Words {
    fn new(lists: &[&str]) -> Words {
        let mut words = Words { text: Vec::new(), tokens: Vec::new(), lists: Vec::new() };
        for list in lists {
            let (mut operations, mut order) = (Vec::new(), 0);
            for word in list.split_whitespace() {
                if let Some(length) = word.strip_prefix('=') {
                    let length = length.parse().unwrap();
                    operations.push(Operation::retain(order, length));
                    order += length;
                } else if let Some(length) = word.strip_prefix('-') {
                    let length = length.parse().unwrap();
                    operations.push(Operation::delete(order, length));
                    order += length;
                } else {
                    let first = words.tokens.len();
                    for point in word.chars() {
                        words.tokens.push(Token { start: words.text.len() as u32, length: 1 });
                        words.text.push(point.into());
                    }
                    operations.push(Operation::insert(first, words.tokens.len() - first));
                }
            }
            words.lists.push(operations);
        }
        words
    }

    fn lent<'a>(&'a self, original: &'a [u32]) -> Lent<'a> {
        Lent { original, text: &self.text, tokens: &self.tokens, keys: &self.text }
    }
}

fn at(indexes: &[usize]) -> Vec<Cursor> {
    indexes.iter().enumerate().map(|(identity, &index)| Cursor { identity, index }).collect()
}

fn file(original: usize, result: usize, items: &[&str]) -> Vec<u8> {
    let count = items.len();
    let lines: String = items.iter().map(|item| format!("{item}\n")).collect();
    format!("form=1\noriginal={original}\nresult={result}\nitems={count}\n{lines}end={count}\n").into_bytes()
}

#[test]
fn sheets_of_the_overlap() {
    let old = [0, 1, 9, 0, 2, 5];
    assert_eq!(overlap(&old, &[9, 0, 2, 5, 1]), Ok(2..6));
    assert_eq!(overlap(&old, &[0, 2]), Ok(3..5));
    assert_eq!(overlap(&old, &[0, 4]), Ok(0..1));
    assert_eq!(overlap(&old, &[]), Ok(0..0));
}

#[test]
fn sheets_of_replay() {
    let original = points("abcde");
    let diff = |numbers: &[i64]| Diff { items: numbers.iter().map(|&n| Item::number(n)).collect(), text: Vec::new() };
    assert_eq!(replay(&original, &diff(&[3, -3])), Err(Refusal::Short { position: 3, requested: 3, available: 2 }));
    let least = Refusal::Short { position: 0, requested: 9_223_372_036_854_775_808, available: 5 };
    assert_eq!(replay(&original, &diff(&[i64::MIN])), Err(least));
}

#[test]
fn the_sheet_of_the_merge() {
    let original = points("abcdef");
    let words = Words::new(&["=2 -2 X =2", "=3 -2 Y =1"]);
    let lent = words.lent(&original);
    let merged = merge(lent, &words.lists[0], &words.lists[1], &at(&[3]), &at(&[3, 4])).unwrap();
    let mut indexes: Vec<usize> = merged.cursors.iter().map(|c| c.index).collect();
    indexes.sort();
    assert_eq!(indexes, [2, 3, 4]);

    let all = apply_with_all(lent, &merged.operations, &merged.cursors).unwrap();
    assert_eq!(all.applied, apply(lent, &merged.operations, &merged.cursors).unwrap());
    assert_eq!(all.history, history(lent, &merged.operations).unwrap());
    assert_eq!(string(&all.applied.text).unwrap(), "abXYf");
    let spans: Vec<(usize, usize, String)> = all.history.spans.iter().map(|s| (s.kind, s.side, string(all.history.text_of(s)).unwrap())).collect();
    let due = [
        (Span::UNCHANGED, LEFT, "ab"),
        (Span::REMOVED, LEFT, "cd"),
        (Span::REMOVED, RIGHT, "e"),
        (Span::ADDED, LEFT, "X"),
        (Span::ADDED, RIGHT, "Y"),
        (Span::UNCHANGED, LEFT, "f"),
    ];
    assert_eq!(spans, due.map(|(kind, side, text)| (kind, side, text.to_string())));

    let diff = to_diff(lent, &merged.operations).unwrap();
    assert_eq!(replay_covering(&original, &diff).unwrap(), all.applied.text);
    let due = file(6, 5, &["keep=2", "drop=2", "drop=1", "add=58", "add=59", "keep=1"]);
    assert_eq!(write_edit_file(&diff).unwrap(), due);
    let left = file(6, 5, &["keep=2", "drop=2", "add=58", "keep=2"]);
    let right = file(6, 5, &["keep=3", "drop=2", "add=59", "keep=1"]);
    assert_eq!(merge_files(b"abcdef", &left, &right), Files::Merged(due));
}

#[test]
fn the_sheet_of_shared_inserts() {
    let words = Words::new(&["pq", "qr"]);
    let lent = words.lent(&[]);
    let merged = merge(lent, &words.lists[0], &words.lists[1], &[], &at(&[0, 1, 2])).unwrap();
    assert_eq!(string(&apply(lent, &merged.operations, &[]).unwrap().text).unwrap(), "pqr");
    assert_eq!(merged.cursors, [1, 2, 3].iter().enumerate().map(|(identity, &index)| Cursor { identity, index }).collect::<Vec<_>>());
}

#[test]
fn the_sheet_of_equal_edits() {
    let original = points("a");
    let words = Words::new(&["-1 b", "-1 b"]);
    let merged = merge(words.lent(&original), &words.lists[0], &words.lists[1], &[], &[]).unwrap();
    assert_eq!(merged.operations.iter().map(|o| o.side).collect::<Vec<_>>(), [RIGHT, RIGHT]);
}

#[test]
fn empty_everything() {
    let empty = file(0, 0, &[]);
    assert_eq!(merge_files(b"", &empty, &empty), Files::Merged(empty.clone()));
    assert_eq!(merge(Lent::default(), &[], &[], &[], &[]), Ok(Merged::default()));
    assert_eq!(write_edit_file(&read_edit_file(&empty).unwrap()), Ok(empty));
}

#[test]
fn each_refusal_has_its_values() {
    let original = points("abc");
    let lent = Lent { original: &original, ..Lent::default() };
    let refused = [
        (apply(lent, &[Operation::retain(0, 1), Operation { kind: 3, ..Operation::default() }], &[]).unwrap_err(), Refusal::Record { index: 1 }),
        (apply(lent, &[Operation::retain(0, 2)], &[]).unwrap_err(), Refusal::Tiling { index: 1 }),
        (apply(Lent { original: &[97; 65536], ..Lent::default() }, &[], &[]).unwrap_err(), Refusal::Size),
        (write_utf8(&[97, 0x11_0000]).unwrap_err(), Refusal::CodePoint { index: 1 }),
        (apply(lent, &[Operation::retain(0, 3)], &at(&[3, 4])).unwrap_err(), Refusal::Cursor { place: 1 }),
        (rooms::utf8_read(b"ab", &mut [0]).unwrap_err(), Refusal::Room),
        (read_edit_file(b"form=1\noriginal=01\n").unwrap_err(), Refusal::Line { line: 2 }),
        (replay_covering(&original, &Diff { items: vec![Item::number(1)], text: vec![] }).unwrap_err(), Refusal::Unmentioned { left: 2 }),
        (read_utf8(b"ab\xc0\x80").unwrap_err(), Refusal::Utf8 { offset: 2 }),
    ];
    for (given, due) in refused {
        assert_eq!(given, due);
        assert!(given.to_string().starts_with(&format!("refusal {}: ", due.number())), "{given}");
    }
}

#[test]
fn claims_of_any_size_are_refused_and_lend_little() {
    let huge = [Operation::insert(0, usize::MAX), Operation::insert(usize::MAX, usize::MAX)];
    assert_eq!(merge(Lent::default(), &huge, &huge, &[], &[]), Err(Refusal::Size));
    let raw = [RawOperation { kind: Operation::RETAIN, first: 0, count: usize::MAX }];
    assert_eq!(elongate(&raw, &[], &[], &[], &[]), Err(Refusal::Size));
    for number in [i64::MIN, i64::MAX, 1 << 33, 0] {
        let diff = Diff { items: vec![Item::number(number)], text: Vec::new() };
        assert_eq!(Lists::from_diffs(&diff, &Diff::default()), Err(Refusal::Record { index: 0 }), "{number}");
    }
    for item in [Item::text(-1, 1), Item::text(0, i64::MAX), Item::text(1, 1), Item { kind: 2, value: 0, length: 0 }] {
        let diff = Diff { items: vec![item], text: vec![97] };
        assert_eq!(Lists::from_diffs(&Diff::default(), &diff), Err(Refusal::Record { index: 0 }), "{item:?}");
    }
}

#[test]
fn rooms_are_left_as_said() {
    let original = points("abc");
    let words = Words::new(&["=3 X"]);
    let lent = words.lent(&original);
    let mut text = [7; 6];
    let mut moved = [Cursor { identity: 9, index: 9 }; 3];
    assert_eq!(rooms::apply(lent, &words.lists[0], &at(&[4, 0]), &mut text, &mut moved), Ok((4, 2)));
    assert_eq!(text, [97, 98, 99, 88, 7, 7]);
    assert_eq!(moved.map(|c| (c.identity, c.index)), [(1, 0), (0, 4), (9, 9)]);

    let mut short = [7; 3];
    assert_eq!(rooms::apply(lent, &words.lists[0], &at(&[4, 0]), &mut short, &mut moved), Err(Refusal::Room));
    assert_eq!(short, [7; 3]);
    assert_eq!(moved[2], Cursor { identity: 9, index: 9 });

    let bytes = file(1, 1, &["keep=1"]);
    let (mut items, mut added) = ([Item::number(5); 2], [7; 1]);
    assert_eq!(rooms::edit_file_read(&bytes, &mut items, &mut added), Ok((1, 0)));
    assert_eq!((items, added), ([Item::number(1), Item::number(5)], [7]));
    assert_eq!(rooms::edit_file_read(&bytes, &mut [], &mut []), Err(Refusal::Room));

    let mut out = vec![7; bytes.len() + 1];
    assert_eq!(rooms::merge_files(b"a", &bytes, &bytes, &mut out[..1]), Err(Refusal::Room));
    assert_eq!(out[0], 7);
    assert_eq!(rooms::merge_files(b"a", &bytes, &bytes, &mut out), Ok((bytes.len(), false)));
    assert_eq!((&out[..bytes.len()], out[bytes.len()]), (&bytes[..], 7));
    assert_eq!(rooms::merge_files(b"ab", &bytes, &bytes, &mut out), Ok((10, true)));
    assert_eq!(&out[..10], b"refused=2\n");
}

#[test]
fn a_list_made_of_an_edit_file_is_the_programs() {
    let mut seed = 1u64;
    let mut random = move |below: u64| {
        seed = seed.wrapping_mul(6364136223846793005).wrapping_add(1442695040888963407);
        (seed >> 33) % below
    };
    for _ in 0..500 {
        let length = random(12) as usize;
        let original: String = (0..length).map(|_| ['a', 'b', 'é'][random(3) as usize]).collect();
        let mut edit = || {
            let (mut items, mut at, mut result, mut kept) = (Vec::new(), 0, 0, false);
            while at < length || random(3) == 0 {
                let most = (length - at) as u64;
                match random(3) {
                    0 if most > 0 && !kept => {
                        let n = 1 + random(most) as usize;
                        items.push(format!("keep={n}"));
                        (at, result, kept) = (at + n, result + n, true);
                        continue;
                    }
                    1 if most > 0 => {
                        let n = 1 + random(most) as usize;
                        items.push(format!("drop={n}"));
                        at += n;
                    }
                    _ => {
                        let added: Vec<String> = (0..1 + random(3)).map(|_| format!("{:x}", 97 + random(3))).collect();
                        items.push(format!("add={}", added.join(" ")));
                        result += added.len();
                    }
                }
                kept = false;
            }
            file(length, result, &items.iter().map(String::as_str).collect::<Vec<_>>())
        };
        let (left, right) = (edit(), edit());
        let Files::Merged(merged) = merge_files(original.as_bytes(), &left, &right) else { panic!("refused") };
        let lists = Lists::from_diffs(&read_edit_file(&left).unwrap(), &read_edit_file(&right).unwrap()).unwrap();
        let points = points(&original);
        let lent = lists.lent(&points);
        let list = merge(lent, &lists.left, &lists.right, &[], &[]).unwrap().operations;
        assert_eq!(write_edit_file(&to_diff(lent, &list).unwrap()).unwrap(), merged);
        let text = replay_covering(&points, &read_edit_file(&merged).unwrap()).unwrap();
        assert_eq!(string(&text).unwrap(), merge_text(&original, &left, &right).unwrap());
    }
}
