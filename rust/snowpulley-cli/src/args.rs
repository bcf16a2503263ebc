//! Taking options and operands from the words of a command line.

use crate::cli::{failure, Failure};
use std::ffi::{OsStr, OsString};
use std::fmt::Display;
use std::ops::RangeInclusive;

/// The words that were not taken yet.
pub struct Args {
    words: Vec<OsString>,
    /// What stands after `--`: operands, whatever they look like.
    rest: Vec<OsString>,
}

impl Args {
    pub fn new(mut words: Vec<OsString>) -> Args {
        let end = words.iter().position(|word| word == "--");
        let rest = end.map(|at| words.split_off(at));
        let rest = rest.into_iter().flatten().skip(1).collect();
        Args { words, rest }
    }

    /// Whether the flag stands among the words.
    pub fn flag(&mut self, name: &str) -> bool {
        let before = self.words.len();
        self.words.retain(|word| word != name);
        self.words.len() < before
    }

    /// The word after an option's name, or after `NAME=`.
    pub fn option(&mut self, name: &str) -> Result<Option<OsString>, Failure> {
        let Some(at) = self.words.iter().position(|word| names(word, name)) else {
            return Ok(None);
        };
        let value = match value_inside(&self.words.remove(at)) {
            Some(value) => value,
            None if at < self.words.len() => self.words.remove(at),
            None => return Err(failure(format!("{name} needs a value"))),
        };
        match self.words.iter().any(|word| names(word, name)) {
            true => Err(failure(format!("{name} is given twice"))),
            false => Ok(Some(value)),
        }
    }

    /// An option's file that is to be written.
    pub fn output(&mut self, name: &str) -> Result<Option<OsString>, Failure> {
        match self.option(name)? {
            // Elsewhere it stands for standard input.
            Some(path) if path == "-" => Err(failure(format!(
                "{name} needs a file, not -; for a file of this name give ./-"
            ))),
            path => Ok(path),
        }
    }

    /// An option's number, or another one where it is not given.
    pub fn number<T: Number>(
        &mut self,
        name: &str,
        range: RangeInclusive<T>,
        default: T,
    ) -> Result<T, Failure> {
        match self.option(name)? {
            None => Ok(default),
            Some(word) => number(&text(word)?, name, range),
        }
    }

    /// An option's list of ids, as `1,2,3`.
    pub fn ids(&mut self, name: &str) -> Result<Option<Vec<u8>>, Failure> {
        let Some(list) = self.option(name)? else {
            return Ok(None);
        };
        let list = text(list)?;
        let words = list.split(',').filter(|word| !word.is_empty());
        let ids = words.map(|word| number(word, name, 0..=u8::MAX));
        ids.collect::<Result<_, _>>().map(Some)
    }

    /// All that is left; an option that no one took is an error.
    pub fn operands(self) -> Result<Vec<OsString>, Failure> {
        let unknown = self.words.iter().find(|word| looks_like_option(word));
        match unknown {
            Some(word) => Err(failure(format!("no option '{}'", word.to_string_lossy()))),
            None => Ok(self.words.into_iter().chain(self.rest).collect()),
        }
    }

    /// The one operand that is left, if any is.
    pub fn optional_operand(self) -> Result<Option<OsString>, Failure> {
        let mut operands = self.operands()?.into_iter();
        let first = operands.next();
        match operands.next() {
            None => Ok(first),
            Some(word) => Err(too_many(&word)),
        }
    }

    /// The one operand that is left.
    pub fn operand(self, what: &str) -> Result<OsString, Failure> {
        let missing = || failure(format!("{what} is missing"));
        self.optional_operand()?.ok_or_else(missing)
    }

    /// The operands that are left: one for each of these names.
    pub fn operands_named<const N: usize>(
        self,
        names: [&str; N],
    ) -> Result<[OsString; N], Failure> {
        let operands: Vec<OsString> = self.operands()?;
        if let Some(name) = names.get(operands.len()) {
            return Err(failure(format!("{name} is missing")));
        }
        operands
            .try_into()
            .map_err(|operands: Vec<OsString>| too_many(&operands[N]))
    }

    /// Nothing may be left.
    pub fn finish(self) -> Result<(), Failure> {
        self.operands()?
            .first()
            .map_or(Ok(()), |word| Err(too_many(word)))
    }
}

fn too_many(word: &OsStr) -> Failure {
    failure(format!("too many words: '{}'", word.display()))
}

/// A word as text.
pub fn text(word: OsString) -> Result<String, Failure> {
    let no_text = |word: OsString| failure(format!("'{}' is no UTF-8 text", word.display()));
    word.into_string().map_err(no_text)
}

/// A key as text, or in hexadecimal, maybe after `x` or `0x`.
pub fn key(word: OsString, hex: bool) -> Result<Vec<u8>, Failure> {
    let word = text(word)?;
    if !hex {
        return Ok(word.into_bytes());
    }
    let message = || {
        failure(format!(
            "KEY: '{word}' is no even number of hexadecimal digits"
        ))
    };
    // The tool itself writes an x before the digits.
    let digits = word.strip_prefix("0x").or(word.strip_prefix('x'));
    bytes_of(digits.unwrap_or(&word)).ok_or_else(message)
}

/// The bytes of two hexadecimal digits each.
fn bytes_of(digits: &str) -> Option<Vec<u8>> {
    let digits = digits.chars().map(|digit| digit.to_digit(16));
    let digits: Vec<u32> = digits.collect::<Option<_>>()?;
    let (pairs, []) = digits.as_chunks() else {
        return None;
    };
    let byte = |[high, low]: &[u32; 2]| (high * 16 + low) as u8;
    Some(pairs.iter().map(byte).collect())
}

/// A type of whole numbers of at most 64 bits.
pub trait Number: TryFrom<u64> + PartialOrd + Display {}
impl<T: TryFrom<u64> + PartialOrd + Display> Number for T {}

/// A number in decimal, or in hexadecimal after `0x`.
pub fn number<T: Number>(word: &str, what: &str, range: RangeInclusive<T>) -> Result<T, Failure> {
    let parsed = match word.strip_prefix("0x") {
        Some(digits) => u64::from_str_radix(digits, 16).ok(),
        None => word.parse().ok(),
    };
    let number = parsed.and_then(|number| T::try_from(number).ok());
    let (low, high) = (range.start(), range.end());
    let message = || {
        failure(format!(
            "{what}: '{word}' is no number from {low} to {high}"
        ))
    };
    number
        .filter(|number| range.contains(number))
        .ok_or_else(message)
}

/// Whether the word is the option's name, or begins with `NAME=`.
fn names(word: &OsStr, name: &str) -> bool {
    let rest = word.to_str().and_then(|word| word.strip_prefix(name));
    rest.is_some_and(|rest| rest.is_empty() || rest.starts_with('='))
}

fn value_inside(word: &OsStr) -> Option<OsString> {
    let (_, value) = word.to_str()?.split_once('=')?;
    Some(value.into())
}

/// A lone dash stands for standard input.
fn looks_like_option(word: &OsStr) -> bool {
    word.as_encoded_bytes().starts_with(b"-") && word != "-"
}

#[cfg(test)]
mod tests {
    use super::*;

    fn args(words: &[&str]) -> Args {
        Args::new(words.iter().map(OsString::from).collect())
    }

    #[test]
    fn options_are_taken_in_any_order_and_form() {
        let mut args = args(&["a", "--n=3", "--ids", "1,0x10", "--full", "b", "--", "--n"]);
        assert_eq!(args.number("--n", 1..=3, 9), Ok(3));
        assert_eq!(args.number("--m", 1..=3, 9), Ok(9));
        assert_eq!(args.ids("--ids"), Ok(Some(vec![1, 16])));
        assert!(args.flag("--full") && !args.flag("--full"));
        let operands: Vec<OsString> = ["a", "b", "--n"].map(OsString::from).into();
        assert_eq!(args.operands(), Ok(operands));
    }

    #[test]
    fn what_is_wrong_is_said() {
        let message = |result: Result<u8, Failure>| result.unwrap_err().message;
        let number = |words: &[&str]| message(args(words).number("--n", 1..=3, 1));
        assert_eq!(number(&["--n"]), "--n needs a value");
        assert_eq!(number(&["--n", "4"]), "--n: '4' is no number from 1 to 3");
        assert_eq!(number(&["--n=x"]), "--n: 'x' is no number from 1 to 3");
        assert_eq!(number(&["--n", "1", "--n=2"]), "--n is given twice");
        let ids = args(&["--ids", "1,256"]).ids("--ids").unwrap_err();
        assert_eq!(ids.message, "--ids: '256' is no number from 0 to 255");
        let operand = |words: &[&str]| args(words).operand("FILE").unwrap_err().message;
        assert_eq!(operand(&[]), "FILE is missing");
        assert_eq!(operand(&["a", "b"]), "too many words: 'b'");
        assert_eq!(operand(&["--what"]), "no option '--what'");
        assert_eq!(args(&["-"]).operand("FILE"), Ok("-".into()));
        let two = |words: &[&str]| args(words).operands_named(["LIST", "KEY"]);
        assert_eq!(two(&["a"]).unwrap_err().message, "KEY is missing");
        assert_eq!(
            two(&["a", "b", "c"]).unwrap_err().message,
            "too many words: 'c'"
        );
        assert_eq!(two(&["a", "--", "-b"]), Ok(["a".into(), "-b".into()]));
        let output = |words: &[&str]| args(words).output("--out");
        let dash = "--out needs a file, not -; for a file of this name give ./-";
        assert_eq!(output(&["--out=-"]).unwrap_err().message, dash);
        assert_eq!(output(&["--out", "./-"]), Ok(Some("./-".into())));
    }

    #[test]
    fn keys_in_hexadecimal() {
        let of = |word: &str| key(word.into(), true).map_err(|failure| failure.message);
        for same in ["6b31", "x6B31", "0x6b31"] {
            assert_eq!(of(same), Ok(b"k1".to_vec()));
        }
        assert_eq!(of("0x"), Ok(Vec::new()));
        for wrong in ["6", "0x6", "xx6b", "6g", "x0x6b"] {
            let told = format!("KEY: '{wrong}' is no even number of hexadecimal digits");
            assert_eq!(of(wrong), Err(told));
        }
        assert_eq!(key("0x6b".into(), false), Ok(b"0x6b".to_vec()));
    }
}
