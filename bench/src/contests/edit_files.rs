//! Edit files, read and written, beside a plain reader and writer that go over their input once; and the program's work,
//! beside the oracle's reading of it.

use oracle::{flat::ITEM_STRIDE, generate::Merge, paper::program::program, random::Random};

use super::{keep, lists, number};
use crate::{
    clock::{Contest, calls},
    edit_file,
    inputs::{self, Sizes},
    library,
    ours::Viewing,
};

const ORIGINAL: &[u8] = include_bytes!("../../../examples/recipe.txt");
const LAPTOP: &[u8] = include_bytes!("../../../examples/laptop.edit");
const PANEL: &[u8] = include_bytes!("../../../examples/panel.edit");

pub fn contests(eighths: usize, seed: u64) -> Vec<Contest> {
    let limits = Sizes::otherwise(eighths);
    let small_items = Sizes {
        text: limits.tokens,
        ..limits
    };
    let ascii = inputs::single(seed, limits);
    let mut wide = ascii.clone();
    for point in &mut wide.tokens.text {
        *point += 0x1_F300;
    }

    [
        files("ASCII", ascii),
        files("code points of 5 digits", wide),
        files("short items", inputs::single(seed, small_items)),
    ]
    .into_iter()
    .flatten()
    .collect()
}

pub fn small() -> Vec<Contest> {
    let mut contests = files("a sheet of words", lists::words());
    contests.extend(contest_of("examples/laptop.edit", LAPTOP));
    contests.push(program_on("the README's files", ORIGINAL, LAPTOP, PANEL));
    let (original, left, right) = two_kilobytes();
    contests.push(program_on(
        "files of nearly 2,048 bytes",
        &original,
        &left,
        &right,
    ));

    contests
}

/// The edit file of a list's diff.
fn file_of(case: Merge) -> Vec<u8> {
    let mut viewing = Viewing::new(keep(case));
    let [items, text, _] = viewing.diff().counts();
    let (items, text) = (
        &viewing.items[..ITEM_STRIDE * items],
        &viewing.history_text[..text],
    );
    let [length, _, _] = library::edit_file_write_length(items, text).counts();
    let mut bytes = vec![0; length];
    library::edit_file_write(items, text, &mut bytes).counts();

    bytes
}

fn files(kind: &str, case: Merge) -> Vec<Contest> {
    contest_of(kind, &file_of(case))
}

fn contest_of(kind: &str, bytes: &[u8]) -> Vec<Contest> {
    let bytes = keep(bytes.to_vec());
    let [items, text, _] = library::edit_file_read_lengths(bytes).counts();
    let (mut items, mut text) = (vec![0; ITEM_STRIDE * items], vec![0; text]);
    library::edit_file_read(bytes, &mut items, &mut text).counts();
    let read = edit_file::read(bytes).expect("an accepted file");
    assert_eq!((&read.items, &read.text), (&items, &text));

    let (diff, diff_text) = (keep(items.clone()), keep(text.clone()));
    let mut out = vec![0; bytes.len()];
    library::edit_file_write(diff, diff_text, &mut out).counts();
    assert_eq!(&out, bytes);
    assert_eq!(edit_file::write(diff, diff_text).as_ref(), Ok(bytes));

    let input = format!(
        "{kind}, {} items, {} bytes",
        number(items.len() / ITEM_STRIDE),
        number(bytes.len())
    );
    vec![
        Contest {
            call: "edit file read",
            input: input.clone(),
            ours: calls(move || library::edit_file_read(bytes, &mut items, &mut text)),
            rust: calls(|| edit_file::read(bytes)),
        },
        Contest {
            call: "edit file write",
            input,
            ours: calls(move || library::edit_file_write(diff, diff_text, &mut out)),
            rust: calls(|| edit_file::write(diff, diff_text)),
        },
    ]
}

/// An original and two files of many short items.
fn two_kilobytes() -> (Vec<u8>, Vec<u8>, Vec<u8>) {
    let random = &mut Random::new(41);
    let original: Vec<u8> = inputs::letters(random, 2_000, 26)
        .into_iter()
        .map(|point| point as u8)
        .collect();
    let mut file = || {
        let (mut items, mut text, mut left) = (Vec::new(), Vec::new(), original.len() as i64);
        for _ in 0..75 {
            let keep = 1 + random.below(20) as i64;
            let added = inputs::letters(random, 2, 26);
            items.extend([0, keep, 0, 0, -1, 0, 1, text.len() as i64, 2]);
            text.extend(added);
            left -= keep + 1;
        }
        items.extend([0, left, 0]);
        let [length, _, _] = library::edit_file_write_length(&items, &text).counts();
        let mut bytes = vec![0; length];
        library::edit_file_write(&items, &text, &mut bytes).counts();
        bytes
    };

    let (left, right) = (file(), file());
    (original, left, right)
}

fn program_on(kind: &str, original: &[u8], left: &[u8], right: &[u8]) -> Contest {
    let files: &[Vec<u8>; 3] = keep([original, left, right].map(<[u8]>::to_vec));
    let [original, left, right] = files;
    let rust = || program(Some(original), Some(left), Some(right));
    let mut out = vec![0; 65_536];
    let [length, refused, _] = library::merge_files(original, left, right, &mut out).counts();
    assert_eq!(refused, 0, "{kind}");
    assert_eq!(out[..length], rust());

    Contest {
        call: "the program's work",
        input: kind.to_owned(),
        ours: calls(move || library::merge_files(original, left, right, &mut out)),
        rust: calls(rust),
    }
}
