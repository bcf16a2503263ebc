//! The tokens of a Rattle source. Comments are left out.

#[derive(Clone, Copy, PartialEq, Eq, Debug)]
pub enum Kind {
    Word,
    Number,
    Sign,
    /// A byte string or a byte character.
    Text,
}

/// A token, as a range of the source's bytes.
#[derive(Clone, Copy, Debug)]
pub struct Token {
    pub kind: Kind,
    pub at: usize,
    pub end: usize,
}

/// Signs of more than one character, the longest first.
const SIGNS: [&str; 23] = [
    "..=", "<<=", ">>=", "::", "->", "=>", "<=", ">=", "==", "!=", "&&", "||", "+=", "-=", "*=",
    "/=", "%=", "^=", "|=", "&=", "<<", ">>", "..",
];

pub fn tokens(source: &str) -> Vec<Token> {
    let mut found = Vec::new();
    let mut at = 0;
    while let Some(first) = source[at..].chars().next() {
        let rest = &source[at..];
        let (kind, length) = if first.is_whitespace() {
            (None, first.len_utf8())
        } else if rest.starts_with("//") {
            (None, rest.find('\n').unwrap_or(rest.len()))
        } else if rest.starts_with("b\"") || rest.starts_with("b'") {
            (Some(Kind::Text), 1 + quoted(&rest[1..]))
        } else if first.is_ascii_digit() {
            (
                Some(Kind::Number),
                run(rest, |c| c.is_ascii_alphanumeric() || c == '_'),
            )
        } else if is_letter(first) || first == '\'' {
            (
                Some(Kind::Word),
                first.len_utf8() + run(&rest[first.len_utf8()..], is_letter),
            )
        } else {
            let long = SIGNS.iter().find(|sign| rest.starts_with(**sign));
            (
                Some(Kind::Sign),
                long.map_or(first.len_utf8(), |sign| sign.len()),
            )
        };
        if let Some(kind) = kind {
            found.push(Token {
                kind,
                at,
                end: at + length,
            });
        }
        at += length;
    }
    found
}

fn is_letter(c: char) -> bool {
    c.is_alphanumeric() || c == '_'
}

fn run(text: &str, belongs: impl Fn(char) -> bool) -> usize {
    text.find(|c| !belongs(c)).unwrap_or(text.len())
}

/// The length of a quoted text, both quotes included.
fn quoted(text: &str) -> usize {
    let quote = text.as_bytes()[0];
    let mut escaped = false;
    for (i, &byte) in text.as_bytes().iter().enumerate().skip(1) {
        if byte == quote && !escaped {
            return i + 1;
        }
        escaped = byte == b'\\' && !escaped;
    }
    text.len()
}
