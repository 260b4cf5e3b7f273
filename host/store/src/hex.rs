//! Bytes as hex digits, two a byte.

pub fn show(bytes: &[u8]) -> String {
    bytes.iter().map(|byte| format!("{byte:02x}")).collect()
}

/// The bytes of a text of hex digits; spaces between bytes are skipped.
pub fn parse(text: &str) -> Option<Vec<u8>> {
    let digits: Vec<u8> = text.bytes().filter(|byte| *byte != b' ').collect();
    if !digits.len().is_multiple_of(2) {
        return None;
    }
    digits.chunks(2).map(|pair| Some(nibble(pair[0])? << 4 | nibble(pair[1])?)).collect()
}

fn nibble(digit: u8) -> Option<u8> {
    char::from(digit).to_digit(16).map(|value| value as u8)
}

#[cfg(test)]
mod tests {
    use super::*;

    #[test]
    fn there_and_back() {
        let all: Vec<u8> = (0..=255).collect();
        assert_eq!(parse(&show(&all)), Some(all));
        assert_eq!(parse("0A fe"), Some(vec![10, 254]));
        assert_eq!(parse(""), Some(vec![]));
    }

    #[test]
    fn no_hex() {
        assert_eq!(parse("0"), None);
        assert_eq!(parse("0g"), None);
        assert_eq!(parse("+1"), None);
        assert_eq!(parse("é"), None);
    }
}
