//! The items of a Rattle source that mutants are made from: functions, constants, enums and structs.

use crate::lexer::{tokens, Kind, Token};
use std::ops::Range;

/// A source with its tokens.
#[derive(Debug)]
pub struct Source {
    pub text: String,
    pub tokens: Vec<Token>,
}

/// A function, with ranges of token indices.
#[derive(Debug)]
pub struct Function {
    pub name: String,
    /// With the type that it belongs to, as in `Clock::send`.
    pub path: String,
    pub public: bool,
    /// The type of each parameter but `self`.
    pub parameters: Vec<String>,
    pub contracts: Vec<Range<usize>>,
    pub body: Range<usize>,
}

#[derive(Debug)]
pub struct Constant {
    pub name: String,
    pub value: Range<usize>,
}

/// A case of an enum, with what it holds, as written.
#[derive(Debug)]
pub struct Case {
    pub name: String,
    pub holds: String,
}

#[derive(Debug)]
pub struct Enum {
    pub name: String,
    pub cases: Vec<Case>,
}

#[derive(Debug)]
pub struct Struct {
    /// The name and type of each field.
    pub fields: Vec<(String, String)>,
}

impl Source {
    pub fn new(text: String) -> Source {
        let tokens = tokens(&text);
        Source { text, tokens }
    }

    /// The token at an index; nothing past the end.
    pub fn word(&self, i: usize) -> &str {
        self.tokens
            .get(i)
            .map_or("", |token| &self.text[token.at..token.end])
    }

    pub fn kind(&self, i: usize) -> Option<Kind> {
        self.tokens.get(i).map(|token| token.kind)
    }

    /// The bytes of the source that some tokens span.
    pub fn span(&self, tokens: &Range<usize>) -> Range<usize> {
        self.tokens[tokens.start].at..self.tokens[tokens.end - 1].end
    }

    pub fn text_of(&self, tokens: &Range<usize>) -> &str {
        if tokens.is_empty() {
            return "";
        }
        &self.text[self.span(tokens)]
    }

    /// The index of the bracket that closes the one at `open`.
    pub fn closing(&self, open: usize) -> usize {
        let mut depth = 0;
        for i in open..self.tokens.len() {
            match self.word(i) {
                "(" | "[" | "{" => depth += 1,
                ")" | "]" | "}" => depth -= 1,
                _ => {}
            }
            if depth == 0 {
                return i;
            }
        }
        self.tokens.len().saturating_sub(1)
    }

    /// The ranges between the commas of a bracketed list.
    pub fn listed(&self, inside: Range<usize>) -> Vec<Range<usize>> {
        let mut parts = Vec::new();
        let mut start = inside.start;
        let mut i = inside.start;
        while i < inside.end {
            match self.word(i) {
                "(" | "[" | "{" => i = self.closing(i),
                "," => {
                    parts.push(start..i);
                    start = i + 1;
                }
                _ => {}
            }
            i += 1;
        }
        if start < inside.end {
            parts.push(start..inside.end);
        }
        parts
    }

    pub fn functions(&self) -> Vec<Function> {
        let mut found = Vec::new();
        let mut owner = (String::new(), 0..0);
        for i in 0..self.tokens.len() {
            match self.word(i) {
                // and not as in `rt: &impl Print`
                "impl" if i == 0 || matches!(self.word(i - 1), "}" | ";" | "]") => {
                    owner = self.owner(i);
                }
                "fn" => found.extend(self.function(i, &owner)),
                _ => {}
            }
        }
        found
    }

    /// What rt calls the owner of an `impl` block, and the block: `T` of `impl T`, `TTrait` of
    /// `impl Trait for T`.
    fn owner(&self, at: usize) -> (String, Range<usize>) {
        let open = (at..self.tokens.len())
            .find(|&i| self.word(i) == "{")
            .unwrap_or(at);
        let first = if self.word(at + 1) == "<" {
            (at..open)
                .find(|&i| self.word(i) == ">")
                .map_or(at + 1, |i| i + 1)
        } else {
            at + 1
        };
        let name = match (first..open).find(|&i| self.word(i) == "for") {
            Some(i) => format!("{}{}", self.word(i + 1), self.word(first)),
            None => self.word(first).to_string(),
        };
        (name, open..self.closing(open))
    }

    /// The function whose `fn` stands at `at`; `owner` is the last `impl` block.
    fn function(&self, at: usize, owner: &(String, Range<usize>)) -> Option<Function> {
        let open = (at..self.tokens.len()).find(|&i| self.word(i) == "(")?;
        let close = self.closing(open);
        let mut contracts = Vec::new();
        let mut i = close + 1;
        loop {
            match self.word(i) {
                "" | ";" => return None,
                "{" => break,
                "(" | "[" => i = self.closing(i) + 1,
                "requires" | "ensures" => {
                    let start = (i..self.tokens.len()).find(|&i| self.word(i) == "{")?;
                    let end = self.closing(start);
                    contracts.push(start + 1..end);
                    i = end + 1;
                }
                _ => i += 1,
            }
        }
        let parameters = self.listed(open + 1..close).into_iter().filter_map(|part| {
            let colon = part.clone().find(|&i| self.word(i) == ":")?;
            Some(self.type_text(colon + 1..part.end))
        });
        let name = self.word(at + 1).to_string();
        let path = if owner.1.contains(&at) {
            format!("{}::{name}", owner.0)
        } else {
            name.clone()
        };
        let before = |n: usize| at.checked_sub(n).map_or("", |i| self.word(i));
        Some(Function {
            name,
            path,
            // as in `pub extern "C" fn`
            public: before(1) == "pub" || (before(4) == "extern" && before(5) == "pub"),
            parameters: parameters.collect(),
            contracts,
            body: i + 1..self.closing(i),
        })
    }

    /// A type as written, but for lifetimes.
    fn type_text(&self, tokens: Range<usize>) -> String {
        tokens
            .map(|i| self.word(i))
            .filter(|word| !word.starts_with('\''))
            .collect::<Vec<_>>()
            .join(" ")
    }

    pub fn constants(&self) -> Vec<Constant> {
        let mut found = Vec::new();
        for i in 0..self.tokens.len() {
            if self.word(i) != "const" || self.word(i + 2) != ":" {
                continue;
            }
            let Some(equals) = (i..self.tokens.len()).find(|&i| self.word(i) == "=") else {
                continue;
            };
            let mut end = equals + 1;
            while end < self.tokens.len() && self.word(end) != ";" {
                if matches!(self.word(end), "(" | "[" | "{") {
                    end = self.closing(end);
                }
                end += 1;
            }
            found.push(Constant {
                name: self.word(i + 1).to_string(),
                value: equals + 1..end,
            });
        }
        found
    }

    /// The parts of each declared `enum` or `struct`, with its name.
    fn declared(&self, keyword: &str) -> Vec<(String, Vec<Range<usize>>)> {
        let starts =
            (0..self.tokens.len()).filter(|&i| self.word(i) == keyword && self.word(i + 2) == "{");
        starts
            .map(|i| {
                (
                    self.word(i + 1).to_string(),
                    self.listed(i + 3..self.closing(i + 2)),
                )
            })
            .collect()
    }

    pub fn enums(&self) -> Vec<Enum> {
        let case = |part: Range<usize>| Case {
            name: self.word(part.start).to_string(),
            holds: self.type_text(part.start + 1..part.end),
        };
        let declared = self.declared("enum").into_iter();
        declared
            .map(|(name, parts)| Enum {
                name,
                cases: parts.into_iter().map(case).collect(),
            })
            .collect()
    }

    pub fn structs(&self) -> Vec<Struct> {
        let field = |part: Range<usize>| {
            let colon = part.clone().find(|&i| self.word(i) == ":")?;
            Some((
                self.word(colon - 1).to_string(),
                self.type_text(colon + 1..part.end),
            ))
        };
        let declared = self.declared("struct").into_iter();
        declared
            .map(|(_, parts)| Struct {
                fields: parts.into_iter().filter_map(field).collect(),
            })
            .collect()
    }
}
