//! Mutants of a crate's code. Each keeps the code's shape: the same operations on other operands.

use crate::change::{Change, Part};
use crate::items::{Enum, Function, Source, Struct};
use crate::lexer::Kind;
use std::collections::BTreeMap;
use std::ops::Range;

/// A constant with more numbers than this is a table, of which only some entries are changed.
const TABLE: usize = 64;
const TABLE_SAMPLES: usize = 16;

/// What the sources of all crates declare.
#[derive(Default, Debug)]
pub struct Declared {
    enums: Vec<Enum>,
    structs: Vec<Struct>,
    /// The parameters' types of each function, by its name; none where two functions of a name differ.
    parameters: BTreeMap<String, Option<Vec<String>>>,
}

impl Declared {
    pub fn add(&mut self, source: &Source) {
        self.enums.extend(source.enums());
        self.structs.extend(source.structs());
        for Function {
            name, parameters, ..
        } in source.functions()
        {
            let other = Some(parameters.clone());
            let known = self.parameters.entry(name).or_insert(other);
            if known.as_ref() != Some(&parameters) {
                *known = None;
            }
        }
    }

    /// Another case of an enum that holds the same: the next one, after the last the first.
    fn other_case(&self, name: &str, case: &str) -> Option<&str> {
        let cases = &self.enums.iter().find(|e| e.name == name)?.cases;
        let at = cases.iter().position(|c| c.name == case)?;
        let round = (1..cases.len()).map(|i| &cases[(at + i) % cases.len()]);
        round
            .into_iter()
            .find(|c| c.holds == cases[at].holds)
            .map(|c| c.name.as_str())
    }

    /// Another field of the same type, in each struct that has the field.
    fn other_fields(&self, field: &str) -> Vec<&str> {
        let mut found = Vec::new();
        for fields in self.structs.iter().map(|s| &s.fields) {
            let Some(at) = fields.iter().position(|f| f.0 == field) else {
                continue;
            };
            let round = (1..fields.len()).map(|i| &fields[(at + i) % fields.len()]);
            let other = round
                .into_iter()
                .find(|f| f.1 == fields[at].1)
                .map(|f| f.0.as_str());
            found.extend(other.filter(|other| !found.contains(other)));
        }
        found
    }
}

/// Every mutant of a source. `file` is its path below the crate's folder.
pub fn mutants(file: &str, source: &Source, declared: &Declared) -> Vec<Change> {
    let mut found = Vec::new();
    for function in source.functions() {
        let mut maker = Maker {
            file,
            source,
            declared,
            within: &function.path,
            found: &mut found,
        };
        maker.range(function.body.clone());
    }
    for constant in source.constants() {
        let mut maker = Maker {
            file,
            source,
            declared,
            within: &constant.name,
            found: &mut found,
        };
        let numbers = constant
            .value
            .clone()
            .filter(|&i| source.kind(i) == Some(Kind::Number));
        let numbers: Vec<usize> = numbers.collect();
        if numbers.len() <= TABLE {
            maker.range(constant.value.clone());
        } else {
            let step = numbers.len() / TABLE_SAMPLES;
            numbers.iter().step_by(step).for_each(|&i| maker.number(i));
        }
    }
    found
}

struct Maker<'a> {
    file: &'a str,
    source: &'a Source,
    declared: &'a Declared,
    within: &'a str,
    found: &'a mut Vec<Change>,
}

impl Maker<'_> {
    fn range(&mut self, tokens: Range<usize>) {
        for i in tokens {
            match self.source.kind(i) {
                Some(Kind::Sign) => self.sign(i),
                Some(Kind::Number) => self.number(i),
                Some(Kind::Word) => self.word(i),
                _ => {}
            }
        }
    }

    fn replace(&mut self, tokens: Range<usize>, new: String) {
        self.found.push(Change {
            part: Part::Code,
            file: self.file.to_string(),
            within: self.within.to_string(),
            at: self.source.span(&tokens),
            new,
            brings: None,
        });
    }

    fn sign(&mut self, i: usize) {
        let sign = self.source.word(i);
        let others: &[&str] = match sign {
            "<" => &["<=", ">="],
            "<=" => &["<", ">"],
            ">" => &[">=", "<="],
            ">=" => &[">", "<"],
            "==" => &["!=", "<="],
            "!=" => &["==", "<"],
            "&&" => &["||"],
            "||" => &["&&"],
            "+=" => &["-="],
            "-=" => &["+="],
            "+" => &["-"],
            "-" if self.is_binary(i) => &["+"],
            "*" if self.is_binary(i) => &["+"],
            "/" => &["%"],
            "%" => &["/"],
            "<<" => &[">>"],
            ">>" => &["<<"],
            "^" => &["|"],
            "&" if self.is_binary(i) => &["|"],
            "!" => &[""],
            _ => &[],
        };
        others
            .iter()
            .for_each(|other| self.replace(i..i + 1, other.to_string()));
    }

    /// Whether the sign at `i` stands between two operands.
    fn is_binary(&self, i: usize) -> bool {
        let before = i.checked_sub(1).map_or("", |i| self.source.word(i));
        let operand = matches!(
            self.source.kind(i.wrapping_sub(1)),
            Some(Kind::Word | Kind::Number)
        );
        (operand && !matches!(before, "return" | "in" | "if" | "match" | "while"))
            || matches!(before, ")" | "]")
    }

    /// A number one up and one down; not the index of a tuple struct's field.
    fn number(&mut self, i: usize) {
        if i > 0 && self.source.word(i - 1) == "." {
            return;
        }
        let Some((value, suffix)) = number(self.source.word(i)) else {
            return;
        };
        self.replace(i..i + 1, format!("{}{suffix}", value + 1));
        if value > 0 {
            self.replace(i..i + 1, format!("{}{suffix}", value - 1));
        }
    }

    fn word(&mut self, i: usize) {
        let (source, declared) = (self.source, self.declared);
        let word = source.word(i);
        match word {
            "true" => self.replace(i..i + 1, "false".to_string()),
            "false" => self.replace(i..i + 1, "true".to_string()),
            _ => {}
        }
        if i > 1 && source.word(i - 1) == "::" {
            let other = declared
                .other_case(source.word(i - 2), word)
                .map(str::to_string);
            other
                .into_iter()
                .for_each(|other| self.replace(i..i + 1, other));
        }
        if i > 0 && source.word(i - 1) == "." && source.word(i + 1) != "(" {
            let others = declared.other_fields(word);
            others
                .into_iter()
                .for_each(|other| self.replace(i..i + 1, other.to_string()));
        }
        if source.word(i + 1) == "(" {
            self.arguments(i);
        }
    }

    /// Two arguments of one type, swapped, in the call whose name stands at `i`.
    fn arguments(&mut self, i: usize) {
        let source = self.source;
        let Some(Some(types)) = self.declared.parameters.get(source.word(i)) else {
            return;
        };
        let arguments = source.listed(i + 2..source.closing(i + 1));
        if arguments.len() != types.len() {
            return;
        }
        for a in 0..types.len() {
            for b in a + 1..types.len() {
                let (first, second) = (&arguments[a], &arguments[b]);
                if types[a] == types[b] && source.text_of(first) != source.text_of(second) {
                    let between = &source.text[source.span(first).end..source.span(second).start];
                    let new = format!(
                        "{}{between}{}",
                        source.text_of(second),
                        source.text_of(first)
                    );
                    self.replace(first.start..second.end, new);
                }
            }
        }
    }
}

/// A literal's value and the type written behind it.
fn number(literal: &str) -> Option<(u128, &str)> {
    let hex = literal.strip_prefix("0x");
    let digits = hex.unwrap_or(literal);
    let radix = if hex.is_some() { 16 } else { 10 };
    let end = digits
        .find(|c: char| !(c.is_digit(radix) || c == '_'))
        .unwrap_or(digits.len());
    let value = u128::from_str_radix(&digits[..end].replace('_', ""), radix).ok()?;
    Some((value, &digits[end..]))
}
