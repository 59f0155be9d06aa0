use std::fmt::Debug;

use super::tokenizer::token::Token;

/// Text editing operation containing the affected tokens.
///
/// `RawOperation`s can be joined together when the underlying tokens
/// allow for joining subsequent operations.
#[derive(Debug, Clone, PartialEq)]
pub enum RawOperation<T>
where
    T: PartialEq + Clone + Debug,
{
    Insert(Vec<Token<T>>),
    Delete(Vec<Token<T>>),
    Equal(Vec<Token<T>>),
}

impl<T> RawOperation<T>
where
    T: PartialEq + Clone + Debug,
{
    pub fn tokens(&self) -> &[Token<T>] {
        match self {
            RawOperation::Insert(tokens)
            | RawOperation::Delete(tokens)
            | RawOperation::Equal(tokens) => tokens,
        }
    }

    pub fn original_text_length(&self) -> usize {
        self.tokens().iter().map(Token::get_original_length).sum()
    }

    pub fn get_original_text(&self) -> String {
        self.tokens().iter().map(Token::original).collect()
    }

    pub fn is_left_joinable(&self) -> bool {
        let first_token = self.tokens().first();
        first_token.is_none_or(|token| token.is_left_joinable)
    }

    pub fn is_right_joinable(&self) -> bool {
        let last_token = self.tokens().last();
        last_token.is_none_or(|token| token.is_right_joinable)
    }

    /// Extends the operation with another operation. Only operations of the
    /// same type as self can be used to extend self, otherwise the function
    /// will panic.
    pub fn join(self, other: RawOperation<T>) -> RawOperation<T> {
        match (self, other) {
            (RawOperation::Insert(mut tokens1), RawOperation::Insert(tokens2)) => {
                tokens1.extend(tokens2);
                RawOperation::Insert(tokens1)
            }
            (RawOperation::Delete(mut tokens1), RawOperation::Delete(tokens2)) => {
                tokens1.extend(tokens2);
                RawOperation::Delete(tokens1)
            }
            (RawOperation::Equal(mut tokens1), RawOperation::Equal(tokens2)) => {
                tokens1.extend(tokens2);
                RawOperation::Equal(tokens1)
            }
            _ => unreachable!("Only operations of the same type can be extended"),
        }
    }
}
