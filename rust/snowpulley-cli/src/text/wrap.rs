//! Sentences in lines.

/// How wide a line may be.
const WIDTH: usize = 80;

/// The words in lines. The first line begins with the mark, and the others with
/// as many spaces.
pub fn wrapped(mark: &str, text: &str) -> String {
    let (mut lines, mut line) = (String::new(), mark.to_string());
    for word in text.split_whitespace() {
        if line.len() + word.len() > WIDTH {
            lines += line.trim_end();
            lines.push('\n');
            line = " ".repeat(mark.len());
        }
        line += word;
        line.push(' ');
    }
    lines + line.trim_end() + "\n"
}

#[cfg(test)]
mod tests {
    use super::*;

    #[test]
    fn lines_are_filled_and_not_too_wide() {
        assert_eq!(wrapped("", "a\nb  c"), "a b c\n");
        let (half, rest) = ("h".repeat(39), "r".repeat(38));
        assert_eq!(
            wrapped("- ", &format!("{half} {rest} x")),
            format!("- {half} {rest}\n  x\n")
        );
        assert_eq!(
            wrapped("- ", &format!("{half} {rest}r")),
            format!("- {half}\n  {rest}r\n")
        );
    }
}
