//! Bytes as a report shows them.

/// A line for a terminal: what can't be shown, and what a terminal would obey, stands as `\r`, `\t` or `\xEF`.
///
/// ```
/// assert_eq!(unloop::visible(b"(in a)\r"), r"(in a)\r");
/// assert_eq!(unloop::visible(b"\xEF\xBB\xBF(in\ta)"), r"\xEF\xBB\xBF(in\ta)");
/// ```
pub fn visible(bytes: &[u8]) -> String {
    let shown = |&byte: &u8| match byte {
        b' '..=b'~' => char::from(byte).to_string(),
        b'\r' => r"\r".to_string(),
        b'\t' => r"\t".to_string(),
        _ => format!(r"\x{byte:02X}"),
    };
    bytes.iter().map(shown).collect()
}
