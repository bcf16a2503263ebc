//! A change of one file of a crate.

use std::ops::Range;

#[derive(Clone, Copy, PartialEq, Eq, Debug)]
pub enum Part {
    Code,
    Definitions,
}

/// What a mutant changes: some bytes of a file of its crate, in a function, a constant or a definition.
#[derive(Clone, Debug)]
pub struct Change {
    pub part: Part,
    /// Below the crate's folder.
    pub file: String,
    pub within: String,
    pub at: Range<usize>,
    pub new: String,
    /// A `use` line for a name that the file does not have yet.
    pub brings: Option<String>,
}

impl Change {
    pub fn applied(&self, text: &str) -> String {
        let brings = self.brings.as_deref().unwrap_or("");
        format!(
            "{brings}{}{}{}",
            &text[..self.at.start],
            self.new,
            &text[self.at.end..]
        )
    }

    pub fn line(&self, text: &str) -> usize {
        1 + text[..self.at.start].matches('\n').count()
    }

    /// The lines that it touches before and after, each on one line of text.
    pub fn lines(&self, text: &str) -> (String, String) {
        let start = text[..self.at.start].rfind('\n').map_or(0, |i| i + 1);
        let end = text[self.at.end..]
            .find('\n')
            .map_or(text.len(), |i| self.at.end + i);
        let after = format!(
            "{}{}{}",
            &text[start..self.at.start],
            self.new,
            &text[self.at.end..end]
        );
        (on_one_line(&text[start..end]), on_one_line(&after))
    }
}

fn on_one_line(text: &str) -> String {
    text.split_whitespace().collect::<Vec<_>>().join(" ")
}
