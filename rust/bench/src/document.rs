//! The parts of a document that this program writes. Each stands between a
//! comment that names it and a comment that ends it.

const END: &str = "<!-- end -->\n";

/// The text before a part, the part, and the text after it.
fn split<'a>(document: &'a str, part: &str) -> Result<[&'a str; 3], String> {
    let begin = format!("<!-- bench: {part} -->\n");
    let at = document.find(&begin).ok_or(format!("no '{begin}'"))? + begin.len();
    let (before, rest) = document.split_at(at);
    let end = rest.find(END).ok_or(format!("no end of '{part}'"))?;
    let (inside, after) = rest.split_at(end);
    Ok([before, inside, after])
}

pub fn part<'a>(document: &'a str, part: &str) -> Result<&'a str, String> {
    split(document, part).map(|[_, inside, _]| inside)
}

/// The document with another text for a part.
pub fn with(document: &str, part: &str, text: &str) -> Result<String, String> {
    let [before, _, after] = split(document, part)?;
    Ok([before, text, after].concat())
}

#[cfg(test)]
mod tests {
    use super::*;

    const TEXT: &str =
        "a\n<!-- bench: one -->\nold\n<!-- end -->\nb\n<!-- bench: two -->\n<!-- end -->\n";

    #[test]
    fn a_part_is_found_and_replaced() {
        assert_eq!(part(TEXT, "one"), Ok("old\n"));
        assert_eq!(part(TEXT, "two"), Ok(""));
        let new = with(TEXT, "two", "new\n").unwrap();
        assert_eq!(part(&new, "two"), Ok("new\n"));
        assert_eq!(with(&new, "two", ""), Ok(TEXT.to_string()));
        assert!(part(TEXT, "three").is_err());
    }
}
