/// Where a span of a merged text came from.
#[derive(Debug, Clone, Copy, PartialEq, Eq)]
pub enum History {
    Unchanged,
    AddedFromLeft,
    AddedFromRight,
    RemovedFromLeft,
    RemovedFromRight,
}
