//! From text to moves.

use super::lex::{Kind, Parsed, TextError, Token, line_tokens};
use crate::step::Move;

/// The moves of a text: five numbers on a text line. Blank lines and
/// comments, from `#` to the end of the line, are passed over.
pub fn moves(text: &str) -> Parsed<Vec<Move>> {
    let mut moves = Vec::new();
    for (at, line) in text.lines().enumerate() {
        let mut tokens = Vec::new();
        line_tokens(at + 1, line, &mut tokens).map_err(|error| TextError {
            expected: "a number".to_string(),
            hint: None,
            ..error
        })?;
        if !tokens.is_empty() {
            moves.push(one_move(&tokens)?);
        }
    }
    Ok(moves)
}

/// The move of a text line that is not blank.
fn one_move(tokens: &[Token<'_>]) -> Parsed<Move> {
    let numbers: Vec<u32> = tokens.iter().take(5).map(number).collect::<Parsed<_>>()?;
    if let Some(sixth) = tokens.get(5) {
        return Err(sixth.instead_of("the end of the line after five numbers"));
    }
    let count = numbers.len();
    let short = || TextError {
        place: tokens[count - 1].after(),
        expected: "five numbers on the line".to_string(),
        found: format!("only {count}"),
        hint: None,
    };
    numbers.try_into().map(Move::new).map_err(|_| short())
}

fn number(token: &Token<'_>) -> Parsed<u32> {
    let Kind::Number(digits) = token.kind else {
        return Err(token.instead_of("a number"));
    };
    digits.parse().map_err(|_| token.instead_of("a number below 4294967296"))
}
