//! Bytes as text where they are text, else in hexadecimal.

/// How much of a key, a value or a frame is shown unless all of it is asked
/// for.
pub const SHORT: usize = 24;

pub fn limit(full: bool) -> usize {
    if full {
        usize::MAX
    } else {
        SHORT
    }
}

/// At most `limit` bytes: printable ASCII in quotes, anything else in
/// hexadecimal. So no control code reaches a terminal, and keys that differ do
/// not look alike.
pub fn shown(bytes: &[u8], limit: usize) -> String {
    if !bytes.iter().all(|&byte| is_printable(byte)) {
        return hex(bytes, limit);
    }
    let text: String = bytes.iter().take(limit).map(|&b| char::from(b)).collect();
    format!("{text:?}{}", length_note(bytes, limit))
}

/// All of the bytes if they fit in so many columns, else as many as do.
pub fn fitting(bytes: &[u8], width: usize) -> String {
    let all = shown(bytes, usize::MAX);
    if all.len() <= width {
        return all;
    }
    let limits = (0..bytes.len().min(width)).rev();
    let mut cut = limits.map(|limit| shown(bytes, limit));
    let found = cut.find(|text| text.len() <= width);
    found.unwrap_or_else(|| shown(bytes, 0))
}

pub fn hex(bytes: &[u8], limit: usize) -> String {
    let shown = bytes.iter().take(limit);
    let digits: String = shown.map(|byte| format!("{byte:02x}")).collect();
    format!("x{digits}{}", length_note(bytes, limit))
}

fn is_printable(byte: u8) -> bool {
    byte == b' ' || byte.is_ascii_graphic()
}

fn length_note(bytes: &[u8], limit: usize) -> String {
    if bytes.len() > limit {
        format!("... ({} bytes)", bytes.len())
    } else {
        String::new()
    }
}

#[cfg(test)]
mod tests {
    use super::*;

    #[test]
    fn text_or_hexadecimal() {
        assert_eq!(shown(b"", 9), "\"\"");
        assert_eq!(shown(b"it's \"x\\y\"", 99), r#""it's \"x\\y\"""#);
        assert_eq!(shown(&[27, b'['], 9), "x1b5b");
        assert_eq!(shown("°".as_bytes(), 9), "xc2b0");
        assert_eq!(shown(&[0xFF], 9), "xff");
    }

    #[test]
    fn long_bytes_are_cut() {
        assert_eq!(shown(b"abc", 3), "\"abc\"");
        assert_eq!(shown(b"abcdef", 3), "\"abc\"... (6 bytes)");
        assert_eq!(shown(&[0; 5], 3), "x000000... (5 bytes)");
    }

    #[test]
    fn as_much_as_fits() {
        assert_eq!(fitting(b"abcdef", 8), "\"abcdef\"");
        assert_eq!(fitting(&[b'a'; 20], 18), "\"aa\"... (20 bytes)");
        assert_eq!(fitting(&[b'"'; 20], 18), "\"\\\"\"... (20 bytes)");
        assert_eq!(fitting(&[0; 20], 18), "x00... (20 bytes)");
        assert_eq!(fitting(&[0; 20], 19), "x0000... (20 bytes)");
        assert_eq!(fitting(&[0; 20], 2), "x... (20 bytes)");
    }
}
