//! UTF-8, read and written, beside the standard library's: judged by `from_utf8` and `char::from_u32`, into a buffer that is
//! used again.

use oracle::random::Random;

use super::{keep, number};
use crate::{
    clock::{Contest, calls},
    library,
};

const FRENCH: &str = "Rincer l’élément 2 à l’eau adoucie, puis vérifier la pression d’entrée (≤ 4 bar) — sinon arrêter 🙂. ";

pub fn contests(eighths: usize, seed: u64) -> Vec<Contest> {
    let bytes = 16_384 * eighths;
    let mixed = FRENCH.repeat(bytes / FRENCH.len());
    let kinds = [
        ("ASCII", letters(seed, bytes, 'a', 26)),
        ("mixed", mixed),
        ("2-byte", letters(seed, bytes / 2, 'а', 32)),
        ("3-byte", letters(seed, bytes / 3, '一', 20_000)),
        ("4-byte", letters(seed, bytes / 4, '🌀', 700)),
    ];

    kinds
        .iter()
        .map(|(kind, text)| read(kind, text))
        .chain(kinds.iter().map(|(kind, text)| write(kind, text)))
        .collect()
}

pub fn small() -> Vec<Contest> {
    let line = "set_feed_pressure=12\n";

    vec![
        read("a recipe's line", line),
        write("a recipe's line", line),
        read("one sentence", FRENCH),
        write("one sentence", FRENCH),
    ]
}

fn letters(seed: u64, count: usize, first: char, kinds: u64) -> String {
    let random = &mut Random::new(seed);

    (0..count)
        .map(|_| char::from_u32(u32::from(first) + random.below(kinds) as u32).expect("a letter"))
        .collect()
}

fn read(kind: &str, text: &str) -> Contest {
    let bytes = keep(text.as_bytes().to_vec());
    let points: Vec<u32> = text.chars().map(u32::from).collect();
    let mut room = vec![0; points.len()];
    let mut buffer = Vec::with_capacity(points.len());
    let mut rust = move || {
        buffer.clear();
        buffer.extend(std::str::from_utf8(bytes)?.chars().map(u32::from));
        Ok::<_, std::str::Utf8Error>(buffer.last().copied())
    };

    assert_eq!(
        library::utf8_read(bytes, &mut room).counts()[0],
        points.len()
    );
    assert_eq!(room, points);
    assert_eq!(rust(), Ok(points.last().copied()));

    Contest {
        call: "UTF-8 read",
        input: format!("{kind}, {} bytes", number(bytes.len())),
        ours: calls(move || library::utf8_read(bytes, &mut room)),
        rust: calls(rust),
    }
}

fn write(kind: &str, text: &str) -> Contest {
    let points: &Vec<u32> = keep(text.chars().map(u32::from).collect());
    let mut room = vec![0; text.len()];
    let mut buffer = String::with_capacity(text.len());
    let mut rust = move || {
        buffer.clear();
        for &point in points {
            buffer.push(char::from_u32(point)?);
        }
        Some(buffer.len())
    };

    assert_eq!(
        library::utf8_write(points, &mut room).counts()[0],
        text.len()
    );
    assert_eq!(room, text.as_bytes());
    assert_eq!(rust(), Some(text.len()));

    Contest {
        call: "UTF-8 write",
        input: format!("{kind}, {} bytes", number(text.len())),
        ours: calls(move || library::utf8_write(points, &mut room)),
        rust: calls(rust),
    }
}
