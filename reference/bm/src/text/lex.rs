//! Words, numbers and signs with their places.

use std::fmt;

/// The words that are not names.
pub const KEYWORDS: [&str; 16] = [
    "free",
    "restricted",
    "received",
    "exposed",
    "box",
    "site",
    "hidden",
    "new",
    "expose",
    "hide",
    "unhide",
    "estimate",
    "rho",
    "shown",
    "eps",
    "kap",
];

/// A text that cannot be used: where, and what was expected there.
#[derive(Clone, PartialEq, Eq, Debug)]
pub struct TextError {
    pub place: TextPlace,
    pub expected: String,
    pub found: String,
    /// What to write instead.
    pub hint: Option<String>,
}

/// What is read from a text, or its error.
pub type Parsed<T> = Result<T, TextError>;

impl TextError {
    /// The same error with a hint.
    pub fn hint(self, hint: impl Into<String>) -> TextError {
        TextError { hint: Some(hint.into()), ..self }
    }
}

impl fmt::Display for TextError {
    fn fmt(&self, f: &mut fmt::Formatter<'_>) -> fmt::Result {
        let TextPlace { line, column } = self.place;
        let (expected, found) = (&self.expected, &self.found);
        write!(f, "line {line}, column {column}: expected {expected}, found {found}")?;
        self.hint.as_ref().map_or(Ok(()), |hint| write!(f, "; {hint}"))
    }
}

/// A line and a column of a text, from 1.
#[derive(Clone, Copy, PartialEq, Eq, Debug)]
pub struct TextPlace {
    pub line: usize,
    pub column: usize,
}

/// What a token is.
#[derive(Clone, Copy, PartialEq, Eq, Debug)]
pub enum Kind<'a> {
    Keyword(&'a str),
    Name(&'a str),
    Number(&'a str),
    Sign(char),
    End,
}

/// A token of a text.
#[derive(Clone, Copy, PartialEq, Eq, Debug)]
pub struct Token<'a> {
    pub kind: Kind<'a>,
    pub place: TextPlace,
}

impl Token<'_> {
    /// The place after the token.
    pub fn after(&self) -> TextPlace {
        let len = match self.kind {
            Kind::Keyword(text) | Kind::Name(text) | Kind::Number(text) => text.len(),
            Kind::Sign(_) => 1,
            Kind::End => 0,
        };
        TextPlace { column: self.place.column + len, ..self.place }
    }

    /// The error that something else was expected here.
    pub fn instead_of(&self, expected: impl Into<String>) -> TextError {
        let found = match self.kind {
            Kind::Keyword(word) => format!("the word '{word}'"),
            Kind::Name(name) => format!("the name '{name}'"),
            Kind::Number(digits) => format!("the number {digits}"),
            Kind::Sign(sign) => format!("'{}'", sign.escape_debug()),
            Kind::End => "the end of the text".to_string(),
        };
        TextError { place: self.place, expected: expected.into(), found, hint: None }
    }
}

/// The tokens of a text, the last of kind `End`. Blanks and comments, from
/// `#` to the end of the line, part tokens.
pub fn tokens(text: &str) -> Parsed<Vec<Token<'_>>> {
    let mut tokens = Vec::new();
    let mut end = TextPlace { line: 1, column: 1 };
    for (number, line) in text.lines().enumerate() {
        end = TextPlace { line: number + 1, column: line.chars().count() + 1 };
        line_tokens(number + 1, line, &mut tokens)?;
    }
    tokens.push(Token { kind: Kind::End, place: end });
    Ok(tokens)
}

/// Bytes as text. Where they are not UTF-8, the error has the place of the
/// first byte that is not.
pub fn utf8(bytes: &[u8]) -> Parsed<&str> {
    std::str::from_utf8(bytes).map_err(|error| {
        let (good, bad) = bytes.split_at(error.valid_up_to());
        let good = String::from_utf8_lossy(good);
        let line = good.split('\n').count();
        let column = good.chars().rev().take_while(|c| *c != '\n').count() + 1;
        TextError {
            place: TextPlace { line, column },
            expected: "UTF-8 text".to_string(),
            found: format!("the byte {:#04x}", bad[0]),
            hint: None,
        }
    })
}

/// Appends the tokens of one text line.
pub fn line_tokens<'a>(number: usize, line: &'a str, tokens: &mut Vec<Token<'a>>) -> Parsed<()> {
    let mut rest = line;
    let mut column = 1;
    while let Some(first) = rest.chars().next() {
        if first == '#' {
            break;
        }
        let len = token_len(rest, first);
        let (text, after) = rest.split_at(len);
        let token = Token { kind: kind_of(text, first), place: TextPlace { line: number, column } };
        if !first.is_whitespace() {
            tokens.push(token);
        }
        if let Kind::Sign(sign) = token.kind
            && !first.is_whitespace()
            && !"(){}<>.,|!@".contains(sign)
        {
            return Err(unknown_sign(token, sign));
        }
        rest = after;
        column += text.chars().count();
    }
    Ok(())
}

/// The error at a sign that the text form does not have, with a hint where
/// the papers use it.
fn unknown_sign(token: Token<'_>, sign: char) -> TextError {
    let error = token.instead_of("a name, a word, a number or one of ( ) { } < > . , | ! @");
    match sign {
        'ν' => error.hint("a restriction is written 'new n.P'"),
        '⟨' | '〈' => error.hint("an output is written 'x<z>.P'"),
        _ => error,
    }
}

fn in_word(c: char) -> bool {
    c.is_ascii_alphanumeric() || c == '_' || c == '\''
}

/// The bytes of the token at the front.
fn token_len(rest: &str, first: char) -> usize {
    let end_of = |part: fn(char) -> bool| rest.find(|c| !part(c)).unwrap_or(rest.len());
    match first {
        'a'..='z' | 'A'..='Z' | '_' => end_of(in_word),
        '0'..='9' => end_of(|c| c.is_ascii_digit()),
        _ => first.len_utf8(),
    }
}

fn kind_of(text: &str, first: char) -> Kind<'_> {
    match first {
        'a'..='z' | 'A'..='Z' | '_' if KEYWORDS.contains(&text) => Kind::Keyword(text),
        'a'..='z' | 'A'..='Z' | '_' => Kind::Name(text),
        '0'..='9' => Kind::Number(text),
        sign => Kind::Sign(sign),
    }
}
