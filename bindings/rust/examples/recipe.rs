//! Merges two edits of a recipe sheet and prints the merged text's history and the merged edit file.
//!
//! usage: recipe ORIGINAL LEFT RIGHT

use fleecelatch::{Diff, Lists, Span, history, merge, read_edit_file, read_utf8, string, to_diff, write_edit_file};
use std::{env, error::Error, fs};

fn read_diff(name: &str) -> Result<Diff, Box<dyn Error>> {
    Ok(read_edit_file(&fs::read(name)?)?)
}

fn main() -> Result<(), Box<dyn Error>> {
    let names: Vec<String> = env::args().skip(1).collect();
    let [original, left, right] = names.as_slice() else {
        return Err("usage: recipe ORIGINAL LEFT RIGHT".into());
    };
    let original = read_utf8(&fs::read(original)?)?;
    let lists = Lists::from_diffs(&read_diff(left)?, &read_diff(right)?)?;
    let lent = lists.lent(&original);
    let merged = merge(lent, &lists.left, &lists.right, &[], &[])?;

    let history = history(lent, &merged.operations)?;
    for span in &history.spans {
        let side = ["left", "right"][span.side];
        let who = match span.kind {
            Span::ADDED => format!("added {side}"),
            Span::REMOVED => format!("removed {side}"),
            _ => "unchanged".to_string(),
        };
        println!("{who} \"{}\"", string(history.text_of(span)).unwrap_or_default().replace('\n', "\\n"));
    }
    let file = write_edit_file(&to_diff(lent, &merged.operations)?)?;
    print!("{}", String::from_utf8(file)?);
    Ok(())
}
