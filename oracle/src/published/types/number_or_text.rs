/// One item of a diff: a positive number retains, a negative one deletes, text is inserted.
#[derive(Debug, Clone, PartialEq, Eq)]
pub enum NumberOrText {
    Number(i64),
    Text(String),
}
