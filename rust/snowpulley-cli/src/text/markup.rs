//! Text inside of HTML and SVG elements.

/// The text with its special characters as the two formats write them.
pub fn escaped(text: &str) -> String {
    text.replace('&', "&amp;")
        .replace('<', "&lt;")
        .replace('>', "&gt;")
}

#[cfg(test)]
mod tests {
    use super::*;

    #[test]
    fn special_characters_are_escaped() {
        assert_eq!(escaped("<a & b>"), "&lt;a &amp; b&gt;");
        assert_eq!(escaped("&lt;"), "&amp;lt;");
        assert_eq!(escaped("\"°\""), "\"°\"");
    }
}
