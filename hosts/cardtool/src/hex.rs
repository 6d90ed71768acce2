//! Bytes as two hexadecimal digits each, apart by spaces.

pub fn to_hex(bytes: &[u8]) -> String {
    bytes.iter().map(|byte| format!("{byte:02X}")).collect::<Vec<_>>().join(" ")
}

/// Reads what `to_hex` writes; `None` when something else stands there.
pub fn from_hex(text: &str) -> Option<Vec<u8>> {
    text.split_whitespace().map(|pair| (pair.len() == 2).then(|| u8::from_str_radix(pair, 16).ok()).flatten()).collect()
}

#[cfg(test)]
mod tests {
    use super::*;

    #[test]
    fn hex_is_read_back() {
        let bytes: Vec<u8> = (0..=255).collect();
        assert_eq!(from_hex(&to_hex(&bytes)), Some(bytes));
        assert_eq!(from_hex(""), Some(vec![]));
        assert_eq!(from_hex("0 0"), None);
        assert_eq!(from_hex("0G"), None);
    }
}
