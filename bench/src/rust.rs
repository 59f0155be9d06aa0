//! Flat records as the Rust's own types, with 32-bit keys. All of it is made outside the timed part.

use oracle::{
    flat::{
        ADDED, CURSOR_STRIDE, DELETE, HISTORY_STRIDE, INSERT, ITEM_STRIDE, LEFT, LEFT_JOINABLE,
        NUMBER, OPERATION_STRIDE, RAW_STRIDE, RIGHT_JOINABLE, SPAN_STRIDE, UNCHANGED,
    },
    generate::{Merge, Raw, Tokens},
    published::{
        CursorPosition, EditedText, History, NumberOrText, Operation, RawOperation, Side,
        SpanWithHistory, Token,
    },
};

pub fn string(text: &[u32]) -> String {
    text.iter()
        .map(|&point| char::from_u32(point).expect("a code point"))
        .collect()
}

/// The original of a case, for as long as the program runs: an `EditedText` borrows it.
pub fn original(case: &Merge) -> &'static str {
    string(&case.original).leak()
}

fn side(number: usize) -> Side {
    if number == LEFT {
        Side::Left
    } else {
        Side::Right
    }
}

fn token(tokens: &Tokens, index: usize, joins: u8) -> Token<u32> {
    let span = &tokens.spans[SPAN_STRIDE * index..][..SPAN_STRIDE];

    Token::new(
        tokens.keys[index],
        string(&tokens.text[span[0] as usize..][..span[1] as usize]),
        joins & LEFT_JOINABLE != 0,
        joins & RIGHT_JOINABLE != 0,
    )
}

pub fn edited_text(
    original: &'static str,
    tokens: &Tokens,
    operations: &[usize],
    cursors: &[usize],
) -> EditedText<'static, u32> {
    let records = operations.chunks_exact(OPERATION_STRIDE);
    let sides = records.clone().map(|record| side(record[3])).collect();
    let operations = records
        .map(|record| match record[0] {
            DELETE => Operation::create_delete(record[1], record[2]),
            INSERT => {
                let range = record[4]..record[4] + record[5];
                let tokens = range.map(|index| token(tokens, index, 0)).collect();
                Operation::create_insert(record[1], tokens)
            }
            _ => Operation::create_equal(record[1], record[2]),
        })
        .collect();

    EditedText::new(original, operations, sides, positions(cursors))
}

pub fn positions(cursors: &[usize]) -> Vec<CursorPosition> {
    cursors
        .chunks_exact(CURSOR_STRIDE)
        .map(|cursor| CursorPosition::new(cursor[0], cursor[1]))
        .collect()
}

pub fn raw_operations(raw: &Raw) -> Vec<RawOperation<u32>> {
    raw.operations
        .chunks_exact(RAW_STRIDE)
        .map(|record| {
            let range = record[1]..record[1] + record[2];
            let tokens = range
                .map(|index| token(&raw.tokens, index, raw.tokens.joins[index]))
                .collect();
            match record[0] {
                DELETE => RawOperation::Delete(tokens),
                INSERT => RawOperation::Insert(tokens),
                _ => RawOperation::Equal(tokens),
            }
        })
        .collect()
}

pub fn keys(keys: &[u32]) -> Vec<Token<u32>> {
    keys.iter()
        .map(|&key| Token::new(key, key.to_string(), true, true))
        .collect()
}

pub fn history(spans: &[usize], text: &[u32]) -> Vec<SpanWithHistory> {
    spans
        .chunks_exact(HISTORY_STRIDE)
        .map(|span| {
            let history = match (span[0], side(span[1])) {
                (UNCHANGED, _) => History::Unchanged,
                (ADDED, Side::Left) => History::AddedFromLeft,
                (ADDED, Side::Right) => History::AddedFromRight,
                (_, Side::Left) => History::RemovedFromLeft,
                (_, Side::Right) => History::RemovedFromRight,
            };
            SpanWithHistory::new(string(&text[span[2]..][..span[3]]), history)
        })
        .collect()
}

pub fn diff(items: &[i64], text: &[u32]) -> Vec<NumberOrText> {
    items
        .chunks_exact(ITEM_STRIDE)
        .map(|item| match item[0] {
            NUMBER => NumberOrText::Number(item[1]),
            _ => NumberOrText::Text(string(&text[item[1] as usize..][..item[2] as usize])),
        })
        .collect()
}
