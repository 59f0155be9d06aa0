//! Lists as people write them: `R2` retains 2, `D1` deletes 1, `I[mat| ]` inserts the tokens
//! `mat` and a blank. Tokens that spell the same have the same key.

use crate::{
    flat::{self, DELETE, INSERT, LEFT, OPERATION_STRIDE, RETAIN},
    generate::{JOINABLE, Merge, Tokens},
};

pub fn code_points(string: &str) -> Vec<u32> {
    string.chars().map(u32::from).collect()
}

pub fn string(text: &[u32]) -> String {
    text.iter()
        .map(|number| char::from_u32(*number).expect("a code point"))
        .collect()
}

/// A merge without cursors.
///
/// # Panics
///
/// Panics if a list is not written as above.
pub fn merge(original: &str, left: &str, right: &str) -> Merge {
    let mut tokens = Tokens::default();
    let mut spellings = Vec::new();
    let left = list(left, &mut tokens, &mut spellings);
    let right = list(right, &mut tokens, &mut spellings);

    Merge {
        original: code_points(original),
        tokens,
        left,
        right,
        ..Merge::default()
    }
}

fn list(written: &str, tokens: &mut Tokens, spellings: &mut Vec<String>) -> Vec<usize> {
    let mut operations = Vec::new();
    let mut consumed = 0;
    let mut rest = written;
    while !rest.is_empty() {
        let operation;
        if let Some(inserted) = rest.strip_prefix("I[") {
            (operation, rest) = inserted.split_once(']').expect("an insert ends in ]");
            let first = tokens.count();
            for spelling in operation.split('|') {
                let known = spellings.iter().position(|known| known == spelling);
                let key = known.unwrap_or(spellings.len());
                if known.is_none() {
                    spellings.push(spelling.to_owned());
                }
                tokens.push(&code_points(spelling), key as u32, JOINABLE);
            }
            operations.extend([INSERT, 0, 0, LEFT, first, tokens.count() - first]);
        } else {
            let end = rest.find(' ').unwrap_or(rest.len());
            (operation, rest) = rest.split_at(end);
            let kind = if operation.starts_with('R') {
                RETAIN
            } else {
                DELETE
            };
            let length = operation[1..].parse().expect("a length");
            operations.extend([kind, consumed, length, LEFT, 0, 0]);
            consumed += length;
        }
        rest = rest.trim_start();
    }

    operations
}

/// A list of `case`; with `sides`, each operation ends in `l` or `r`.
pub fn written(case: &Merge, list: &[usize], sides: bool) -> String {
    let written: Vec<String> = list
        .chunks_exact(OPERATION_STRIDE)
        .map(|record| {
            let side = match (sides, record[3]) {
                (false, _) => "",
                (true, LEFT) => "l",
                (true, _) => "r",
            };
            match record[0] {
                INSERT => {
                    let tokens: Vec<String> = (record[4]..record[4] + record[5])
                        .map(|token| string(&spelling(&case.tokens, token)))
                        .collect();
                    format!("I[{}]{side}", tokens.join("|"))
                }
                DELETE => format!("D{}{side}", record[2]),
                _ => format!("R{}{side}", record[2]),
            }
        })
        .collect();

    written.join(" ")
}

fn spelling(tokens: &Tokens, token: usize) -> Vec<u32> {
    let span = &tokens.spans[flat::SPAN_STRIDE * token..];

    tokens.text[span[0] as usize..][..span[1] as usize].to_vec()
}
