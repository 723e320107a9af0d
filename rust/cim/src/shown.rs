//! How names and bytes of others are shown: so that nothing in them moves the cursor or hides what stands beside it.

use std::ffi::OsStr;
use std::fmt::Write;

/// A file's name, or another word of a command line: control characters and bytes that are no UTF-8 escaped.
pub fn name_of(word: &OsStr) -> String {
    let mut text = String::new();
    for part in word.as_encoded_bytes().utf8_chunks() {
        for letter in part.valid().chars() {
            if is_plain(letter) {
                text.push(letter);
            } else {
                text.extend(letter.escape_default());
            }
        }
        for byte in part.invalid() {
            // Writing to a string does not fail.
            let _ = write!(text, "\\x{byte:02x}");
        }
    }
    text
}

/// Whether a character shows itself and nothing else: no control, nothing that turns the direction of writing.
pub fn is_plain(letter: char) -> bool {
    let turns = matches!(letter, '\u{200E}' | '\u{200F}' | '\u{202A}'..='\u{202E}' | '\u{2066}'..='\u{2069}');
    !letter.is_control() && !turns && !matches!(letter, '\u{2028}' | '\u{2029}')
}

/// Bytes as text in quotes, if they are text that shows itself, with ends of lines; else in hexadecimal behind `hex`.
pub fn data(bytes: &[u8]) -> String {
    match text_of(bytes) {
        Some(text) => format!("{text:?}"),
        None => format!("hex{}", hex(bytes)),
    }
}

/// The text that bytes are, if it shows itself.
pub fn text_of(bytes: &[u8]) -> Option<&str> {
    let shows = |letter| is_plain(letter) || matches!(letter, '\n' | '\r' | '\t');
    std::str::from_utf8(bytes).ok().filter(|text| text.chars().all(shows))
}

/// Bytes in hexadecimal, each behind a space.
pub fn hex(bytes: &[u8]) -> String {
    let mut text = String::with_capacity(3 * bytes.len());
    for byte in bytes {
        // Writing to a string does not fail.
        let _ = write!(text, " {byte:02X}");
    }
    text
}

/// Up to eight bytes on either side of a place, the one that stands there in brackets; and where the first of them stands.
pub fn around(input: &[u8], place: usize) -> (usize, String) {
    let from = place.saturating_sub(8);
    let to = input.len().min(place + 9);
    let mut line = String::new();
    for (at, byte) in (from..).zip(&input[from..to]) {
        let _ =
            if at == place { write!(line, " [{byte:02X}]") } else { write!(line, " {byte:02X}") };
    }
    if place == input.len() {
        line.push_str(" [end]");
    }
    (from, line.trim_start().to_string())
}

/// A number of bytes for people: to the byte below 1 KiB, then with one digit behind the point, rounded down.
pub fn size(bytes: u64) -> String {
    const UNITS: [&str; 3] = ["KiB", "MiB", "GiB"];
    let Some(unit) = (0..UNITS.len()).rev().find(|unit| bytes >= 1024 << (10 * unit)) else {
        return if bytes == 1 { "1 byte".into() } else { format!("{bytes} bytes") };
    };
    let one = 1024u64 << (10 * unit);
    format!("{}.{} {}", bytes / one, bytes % one * 10 / one, UNITS[unit])
}

#[cfg(test)]
mod tests {
    use super::*;
    use std::os::unix::ffi::OsStrExt;

    #[test]
    fn the_bytes_around_a_place() {
        let input: Vec<u8> = (0..20).collect();
        let expected = "02 03 04 05 06 07 08 09 [0A] 0B 0C 0D 0E 0F 10 11 12";
        assert_eq!(around(&input, 10), (2, expected.into()));
        assert_eq!(around(&input, 1), (0, "00 [01] 02 03 04 05 06 07 08 09".into()));
        assert_eq!(around(&input, 19), (11, "0B 0C 0D 0E 0F 10 11 12 [13]".into()));
        assert_eq!(around(&input, 20), (12, "0C 0D 0E 0F 10 11 12 13 [end]".into()));
        assert_eq!(around(&[], 0), (0, "[end]".into()));
    }

    #[test]
    fn sizes_are_for_people() {
        for (bytes, said) in [
            (0, "0 bytes"),
            (1, "1 byte"),
            (1023, "1023 bytes"),
            (1024, "1.0 KiB"),
            (1535, "1.4 KiB"),
            (1536, "1.5 KiB"),
            ((1 << 20) - 1, "1023.9 KiB"),
            (1 << 20, "1.0 MiB"),
            (1 << 30, "1.0 GiB"),
            (u64::MAX, "17179869183.9 GiB"),
        ] {
            assert_eq!(size(bytes), said);
        }
    }

    #[test]
    fn data_is_text_or_hexadecimal() {
        assert_eq!(data(b"valve 7\n"), "\"valve 7\\n\"");
        assert_eq!(data(b""), "\"\"");
        assert_eq!(data(&[2, 3]), "hex 02 03");
        assert_eq!(data(b"a\xFF"), "hex 61 FF");
    }

    #[test]
    fn names_are_shown_without_their_controls() {
        assert_eq!(name_of(OsStr::new("übersicht 2.aerosnap")), "übersicht 2.aerosnap");
        assert_eq!(name_of(OsStr::new("a\nb\x1b[2J")), "a\\nb\\u{1b}[2J");
        assert_eq!(name_of(OsStr::new("a\u{202E}b")), "a\\u{202e}b");
        assert_eq!(name_of(OsStr::from_bytes(b"a\xFFb")), "a\\xffb");
    }
}
