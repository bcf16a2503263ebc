//! Bodies of frames, byte by byte.

/// The body of a REPL, right or not.
pub fn repl_body(key: &[u8], flag: u8, value: &[u8]) -> Vec<u8> {
    let mut body = vec![key.len() as u8];
    body.extend(key);
    body.push(flag);
    body.extend([0, 0, 0, 0, 3, 0xE8, 0, 5, 2]);
    body.extend((value.len() as u16).to_be_bytes());
    body.extend(value);
    body
}
