//! What must hold of every merge, whatever its rules: laws over lists and texts alone, with no
//! model of the merge.

use crate::{
    flat::{
        self, ADDED, CURSOR_STRIDE, DELETE, HISTORY_STRIDE, INSERT, Lent, Merged, OPERATION_STRIDE,
        REMOVED, RETAIN, UNCHANGED,
    },
    generate::Merge,
};

/// A law, named by its sentence, that a merge breaks; or none.
pub type Verdict = Result<(), &'static str>;

fn law(holds: bool, sentence: &'static str) -> Verdict {
    if holds { Ok(()) } else { Err(sentence) }
}

/// For each code point of the original, whether a list retains it; none if the list's retains
/// and deletes do not tile the original in order.
pub fn retained(length: usize, operations: &[usize]) -> Option<Vec<bool>> {
    let mut retained = Vec::with_capacity(length);
    for record in operations.chunks_exact(OPERATION_STRIDE) {
        if record[0] == INSERT {
            continue;
        }
        if record[1] != retained.len() || record[2] == 0 {
            return None;
        }
        retained.resize(record[1] + record[2], record[0] == RETAIN);
    }

    (retained.len() == length).then_some(retained)
}

/// All laws of a merged list and of its cursors.
pub fn of_a_merge(case: &Merge, merged: &Merged) -> Verdict {
    let length = case.original.len();
    let (Some(left), Some(right)) = (retained(length, &case.left), retained(length, &case.right))
    else {
        return Err("the lent lists tile the original");
    };
    let Some(both) = retained(length, &merged.operations) else {
        return Err("the merge's retains and deletes tile the original in order");
    };

    law(
        both.iter()
            .zip(left.iter().zip(&right))
            .all(|(both, (left, right))| *both == (*left && *right)),
        "a code point is retained exactly if both lists retain it",
    )?;
    law(
        merged.operations.len() <= case.left.len() + case.right.len(),
        "a merge has at most as many operations as both lists together",
    )?;
    inserts(case, merged)?;
    of_a_list(&case.lent(), &merged.operations)?;
    cursors(case, merged)
}

/// A merged insert is the end of an insert that its side lent, at the order where it stands.
fn inserts(case: &Merge, merged: &Merged) -> Verdict {
    let mut consumed = 0;
    for record in merged.operations.chunks_exact(OPERATION_STRIDE) {
        let &[kind, order, length, side, first, count] = record else {
            unreachable!("the stride is six")
        };
        if kind != INSERT {
            consumed += length;
            law((first, count) == (0, 0), "a field that means nothing is 0")?;
            continue;
        }
        let list = if side == flat::LEFT {
            &case.left
        } else {
            &case.right
        };
        law(
            order == consumed && length == case.tokens.length(first, count),
            "an insert's order is the original text consumed before it, its length its text's",
        )?;
        law(
            count > 0
                && list.chunks_exact(OPERATION_STRIDE).any(|lent| {
                    lent[0] == INSERT && first >= lent[4] && first + count == lent[4] + lent[5]
                }),
            "a merged insert is what is left of an insert of its side",
        )?;
    }

    Ok(())
}

/// Text, history and diff of any accepted list agree.
pub fn of_a_list(lent: &Lent, operations: &[usize]) -> Verdict {
    let text = flat::apply(lent, operations, &[]).text;
    let history = flat::apply_with_history(lent, operations);
    let spelled = |kinds: [usize; 2]| -> Vec<u32> {
        history
            .spans
            .chunks_exact(HISTORY_STRIDE)
            .filter(|span| kinds.contains(&span[0]))
            .flat_map(|span| &history.text[span[2]..span[2] + span[3]])
            .copied()
            .collect()
    };

    law(
        history.spans.len() / HISTORY_STRIDE == operations.len() / OPERATION_STRIDE,
        "history has one span for each operation",
    )?;
    law(
        spelled([UNCHANGED, ADDED]) == text,
        "unchanged and added spans spell the text",
    )?;
    law(
        spelled([UNCHANGED, REMOVED]) == lent.original,
        "unchanged and removed spans spell the original",
    )?;
    let (applied, spans) = flat::apply_with_all(lent, operations, &[]);
    law(
        applied.text == text && spans == history,
        "text and history in one pass are text and history",
    )?;
    let diff = flat::to_diff(lent, operations);
    law(
        flat::replay(lent.original, &diff.items, &diff.text) == Ok(text),
        "replaying the diff gives the text",
    )
}

/// Every cursor comes out once, in the text, in order.
fn cursors(case: &Merge, merged: &Merged) -> Verdict {
    let text = crate::generate::text_length(&case.tokens, &merged.operations);
    let out = merged.cursors.chunks_exact(CURSOR_STRIDE);
    law(
        out.clone().all(|cursor| cursor[1] <= text),
        "every cursor lies in the merged text",
    )?;
    law(
        out.clone().is_sorted_by_key(|cursor| cursor[1]),
        "cursors come out sorted by index",
    )?;

    let mut lent: Vec<usize> = [&case.left_cursors, &case.right_cursors]
        .into_iter()
        .flat_map(|cursors| cursors.chunks_exact(CURSOR_STRIDE))
        .map(|cursor| cursor[0])
        .collect();
    let mut kept: Vec<usize> = out.map(|cursor| cursor[0]).collect();
    lent.sort_unstable();
    kept.sort_unstable();
    law(
        lent == kept,
        "every cursor comes out once, with its identity",
    )
}

/// Whether an insert stands directly before a delete. Elongating leaves no such place.
pub fn insert_before_delete(operations: &[usize]) -> bool {
    let kinds = operations
        .chunks_exact(OPERATION_STRIDE)
        .map(|record| record[0]);

    kinds
        .clone()
        .zip(kinds.skip(1))
        .any(|pair| pair == (INSERT, DELETE))
}
