//! What entries of one key and one stamp may hold.

/// Flags and values, each pair above those before it.
pub fn ascending() -> Vec<(u8, Vec<u8>)> {
    let full = [7; 512];
    let values: [&[u8]; 16] = [
        b"",
        b"\0",
        b"\0\0",
        b"\0\xFF",
        b"\x01",
        &full[..511],
        &full,
        &[&full[..511], &[8]].concat(),
        b"o",
        b"of",
        b"off",
        b"on",
        b"\x7F",
        b"\x80",
        b"\xFF",
        &[255; 512],
    ];
    let mut contents: Vec<(u8, Vec<u8>)> = values.map(|value| (0, value.to_vec())).to_vec();
    contents.push((1, Vec::new()));
    contents
}
