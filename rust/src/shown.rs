//! Bytes as text for people.

/// Bytes of an entry as text: the characters of ISO 8859-1 that can be seen, and the blank; a backslash twice; every other byte as `\x` and its number
/// in hexadecimal.
///
/// ```
/// assert_eq!(entryreader::shown(b"\xC9lise,\t1847\\."), r"Élise,\x091847\\.");
/// ```
pub fn shown(bytes: &[u8]) -> String {
    bytes.iter().fold(String::new(), |text, byte| match byte {
        b'\\' => text + r"\\",
        32..=126 | 161..=172 | 174..=255 => text + char::from(*byte).encode_utf8(&mut [0; 2]),
        _ => text + &format!(r"\x{byte:02X}"),
    })
}
