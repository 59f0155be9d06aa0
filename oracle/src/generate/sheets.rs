//! Sheets as people write them: an original and two edits of it, as words with blanks between
//! or as lines, and the lists that lead from the one to the other.

use crate::{
    flat::{DELETE, INSERT, OPERATION_STRIDE, RETAIN},
    generate::{JOINABLE, Merge, Tokens, text_length},
    random::Random,
};

/// What a sheet is cut into. Blanks are tokens of their own beside words; lines don't join.
#[derive(Debug, Clone, Copy, PartialEq, Eq)]
pub enum Cut {
    Words,
    Lines,
}

#[derive(Debug, Clone, Copy)]
pub struct Shape {
    pub cut: Cut,
    /// Words or lines of an original, at least and at most.
    pub items: (u64, u64),
    /// Different words or lines there are.
    pub vocabulary: u64,
    /// Edits each side makes, at most; at least one.
    pub edits: u64,
    /// Cursors of each side, at any place; no identity twice.
    pub cursors: u64,
}

pub fn merge(random: &mut Random, shape: Shape) -> Merge {
    let (least, most) = shape.items;
    let items: Vec<u64> = (0..least + random.below(most - least + 1))
        .map(|_| random.below(shape.vocabulary))
        .collect();
    let mut vocabulary = Vocabulary::default();
    let original = vocabulary.tokens(&items, shape.cut);

    let mut case = Merge {
        original: original
            .iter()
            .flat_map(|key| vocabulary.spellings[*key].iter().copied())
            .collect(),
        ..Merge::default()
    };
    for left in [true, false] {
        let edited = edited(random, shape, &items);
        let edited = vocabulary.tokens(&edited, shape.cut);
        let list = list(&vocabulary, shape.cut, &original, &edited, &mut case.tokens);
        let places = text_length(&case.tokens, &list) as u64 + 1;
        let identities = match left {
            true => 0..shape.cursors,
            false => shape.cursors..2 * shape.cursors,
        };
        let cursors = identities
            .flat_map(|identity| [identity as usize, random.below(places) as usize])
            .collect();
        if left {
            (case.left, case.left_cursors) = (list, cursors);
        } else {
            (case.right, case.right_cursors) = (list, cursors);
        }
    }

    case
}

/// Keys by first appearance, with what they spell.
#[derive(Debug, Default)]
struct Vocabulary {
    spellings: Vec<Vec<u32>>,
}

impl Vocabulary {
    fn key(&mut self, spelling: &str) -> usize {
        let spelling: Vec<u32> = spelling.chars().map(u32::from).collect();
        let known = self.spellings.iter().position(|known| *known == spelling);

        known.unwrap_or_else(|| {
            self.spellings.push(spelling);
            self.spellings.len() - 1
        })
    }

    fn tokens(&mut self, items: &[u64], cut: Cut) -> Vec<usize> {
        let mut tokens = Vec::new();
        for (place, item) in items.iter().enumerate() {
            match cut {
                Cut::Words => {
                    if place > 0 {
                        tokens.push(self.key(" "));
                    }
                    tokens.push(self.key(&word(*item)));
                }
                Cut::Lines => tokens.push(self.key(&format!("{}\n", word(*item)))),
            }
        }

        tokens
    }
}

/// The word of a number: letters in base 26, so that lengths differ.
fn word(mut number: u64) -> String {
    let mut word = String::new();
    loop {
        word.push(char::from(b'a' + (number % 26) as u8));
        number /= 26;
        if number == 0 {
            return word;
        }
        number -= 1;
    }
}

/// Some edits: words dropped, words added, words put in the place of others.
fn edited(random: &mut Random, shape: Shape, items: &[u64]) -> Vec<u64> {
    let mut edited = items.to_vec();
    for _ in 0..1 + random.below(shape.edits) {
        let start = random.below(edited.len() as u64 + 1) as usize;
        let dropped = random.below(3).min((edited.len() - start) as u64) as usize;
        let added: Vec<u64> = (0..random.below(3))
            .map(|_| random.below(shape.vocabulary))
            .collect();
        edited.splice(start..start + dropped, added);
    }

    edited
}

/// The elongated list of a smallest difference. Where several are smallest, at the first
/// place they part retain comes before delete and delete before insert.
fn list(
    vocabulary: &Vocabulary,
    cut: Cut,
    original: &[usize],
    edited: &[usize],
    tokens: &mut Tokens,
) -> Vec<usize> {
    let joins = match cut {
        Cut::Words => JOINABLE,
        Cut::Lines => 0,
    };

    let mut raw = Vec::new();
    let mut raw_tokens = Tokens::default();
    for (kind, key) in difference(original, edited) {
        raw.extend([kind, raw_tokens.count(), 1]);
        raw_tokens.push(&vocabulary.spellings[key], key as u32, joins);
    }

    let elongated = raw_tokens.elongated(&raw);
    let mut operations = elongated.operations;
    for record in operations.chunks_exact_mut(OPERATION_STRIDE) {
        let first = tokens.count();
        if record[0] == INSERT {
            for key in &elongated.keys[record[4]..record[4] + record[5]] {
                tokens.push(&vocabulary.spellings[*key as usize], *key, joins);
            }
            record[4] = first;
        } else {
            record[4..].fill(0);
        }
    }

    operations
}

fn difference(original: &[usize], edited: &[usize]) -> Vec<(usize, usize)> {
    let width = edited.len() + 1;
    let mut cost = vec![0; (original.len() + 1) * width];
    for old in (0..=original.len()).rev() {
        for new in (0..=edited.len()).rev() {
            cost[old * width + new] = if old == original.len() {
                edited.len() - new
            } else if new == edited.len() {
                original.len() - old
            } else if original[old] == edited[new] {
                cost[(old + 1) * width + new + 1]
            } else {
                1 + cost[(old + 1) * width + new].min(cost[old * width + new + 1])
            };
        }
    }

    let (mut old, mut new) = (0, 0);
    let mut answer = Vec::new();
    while old < original.len() || new < edited.len() {
        let left = cost[old * width + new];
        if old < original.len() && new < edited.len() && original[old] == edited[new] {
            answer.push((RETAIN, original[old]));
            (old, new) = (old + 1, new + 1);
        } else if old < original.len() && cost[(old + 1) * width + new] + 1 == left {
            answer.push((DELETE, original[old]));
            old += 1;
        } else {
            answer.push((INSERT, edited[new]));
            new += 1;
        }
    }

    answer
}
