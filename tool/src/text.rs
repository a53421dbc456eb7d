//! Text of files and arguments as it may be printed.

use std::ffi::OsStr;
use std::os::unix::ffi::OsStrExt;

/// The bytes as text; control characters other than tabs, hidden characters, and bytes that are no text, are escaped, so that a terminal
/// does nothing but show them.
pub fn printable(bytes: &[u8]) -> String {
    let mut text = String::new();
    for chunk in bytes.utf8_chunks() {
        for character in chunk.valid().chars() {
            match character {
                '\t' => text.push(character),
                _ if character.is_control() || hidden(character) => text.extend(character.escape_default()),
                _ => text.push(character),
            }
        }
        text.extend(chunk.invalid().iter().map(|byte| format!("\\x{byte:02x}")));
    }
    text
}

/// Characters that change the order in which a line is shown, and the mark that some editors put at a file's start.
fn hidden(character: char) -> bool {
    matches!(character, '\u{61c}' | '\u{200e}' | '\u{200f}' | '\u{202a}'..='\u{202e}' | '\u{2066}'..='\u{2069}' | '\u{feff}')
}

/// A path or an argument as it may be printed.
pub fn name(path: impl AsRef<OsStr>) -> String {
    printable(path.as_ref().as_bytes())
}

/// Pairs of hexadecimal digits, 32 bytes to a line.
pub fn hex_lines(bytes: &[u8]) -> impl Iterator<Item = String> + '_ {
    bytes.chunks(32).map(|row| format!("  {}", hex(row)))
}

/// Pairs of hexadecimal digits.
pub fn hex(bytes: &[u8]) -> String {
    bytes.iter().map(|byte| format!("{byte:02x}")).collect()
}

/// A number with a noun, in the plural unless it is one.
pub fn count(number: u64, noun: &str) -> String {
    format!("{number} {noun}{}", if number == 1 { "" } else { "s" })
}

#[cfg(test)]
mod tests {
    use super::printable;

    #[test]
    fn control_characters_are_escaped() {
        assert_eq!(printable(b"a\x1b[2J\tb\x07\x7f"), "a\\u{1b}[2J\tb\\u{7}\\u{7f}");
        assert_eq!(printable("Größe \u{85}".as_bytes()), "Größe \\u{85}");
        assert_eq!(printable(b"\xff\x00"), "\\xff\\u{0}");
        assert_eq!(printable("\u{feff}begin \u{202e}0".as_bytes()), "\\u{feff}begin \\u{202e}0");
    }
}
