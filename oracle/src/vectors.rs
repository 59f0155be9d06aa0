//! The writer for the vector files: lines of decimal numbers with one space between, each
//! line ended by LF; an empty line is an empty array.

pub mod accepted;

use std::fmt::{Display, Write};

/// The longest part that is looked for again, and how much its repeats have to make up.
const LONGEST_PART: usize = 48;
const LONG_REPEAT: usize = 20;

/// How often the numbers begin with a part and how long that is: of the parts, the one whose
/// repeats reach furthest, and the shortest of these.
fn repeated<N: PartialEq>(numbers: &[N]) -> (usize, usize) {
    let mut best = (1, 1);
    for size in 1..=LONGEST_PART.min(numbers.len()) {
        let alike = numbers
            .iter()
            .zip(&numbers[size..])
            .take_while(|(number, later)| number == later)
            .count();
        let times = alike / size + 1;
        if times > 1 && times * size > best.0 * best.1 {
            best = (times, size);
        }
    }
    best
}

/// The text of one vector file, growing line by line.
#[derive(Debug, Clone, Default)]
pub struct Vectors {
    text: String,
}

impl Vectors {
    pub fn new() -> Self {
        Self::default()
    }

    /// Appends one line.
    pub fn line<N: Display>(&mut self, numbers: &[N]) {
        for (place, number) in numbers.iter().enumerate() {
            if place > 0 {
                self.text.push(' ');
            }
            write!(self.text, "{number}").expect("writing into a String does not fail");
        }
        self.text.push('\n');
    }

    /// Appends one line of pieces: how often a piece stands, how many numbers it has, and these.
    /// What repeats much is said once, so that sizes at their limits make short lines.
    pub fn pieces<N: Display + PartialEq>(&mut self, numbers: &[N]) {
        let mut words: Vec<String> = Vec::new();
        let mut piece = |times: usize, part: &[N]| {
            words.extend([times, part.len()].map(|count| count.to_string()));
            words.extend(part.iter().map(N::to_string));
        };
        let (mut plain, mut at) = (0, 0);
        while at < numbers.len() {
            let (times, size) = repeated(&numbers[at..]);
            if times * size < LONG_REPEAT {
                at += 1;
                continue;
            }
            if plain < at {
                piece(1, &numbers[plain..at]);
            }
            piece(times, &numbers[at..at + size]);
            at += times * size;
            plain = at;
        }
        if plain < at {
            piece(1, &numbers[plain..]);
        }
        self.line(&words);
    }

    /// Appends another file's lines.
    pub fn append(&mut self, other: &Self) {
        self.text.push_str(&other.text);
    }

    /// The numbers of the longest line.
    pub fn longest_line(&self) -> usize {
        self.text
            .lines()
            .map(|line| line.split_ascii_whitespace().count())
            .max()
            .unwrap_or(0)
    }

    pub fn as_str(&self) -> &str {
        &self.text
    }

    pub fn len(&self) -> usize {
        self.text.len()
    }

    pub fn is_empty(&self) -> bool {
        self.text.is_empty()
    }

    /// Writes the file `name` under `folder`, which is made if it is not there.
    pub fn save(&self, folder: &std::path::Path, name: &str) -> std::io::Result<()> {
        std::fs::create_dir_all(folder)?;
        std::fs::write(folder.join(name), &self.text)
    }
}

/// The package's folder of vectors.
pub fn folder() -> std::path::PathBuf {
    std::path::Path::new(env!("CARGO_MANIFEST_DIR")).join("vectors")
}
