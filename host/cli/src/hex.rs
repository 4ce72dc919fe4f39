//! Bytes as hex digits.

use std::fmt::Write;

/// Bytes in lower-case hex.
pub fn encode(bytes: &[u8]) -> String {
    bytes.iter().fold(String::new(), |mut text, byte| {
        let _ = write!(text, "{byte:02x}");
        text
    })
}

/// The N bytes of 2N hex digits in either case.
pub fn decode<const N: usize>(text: &str) -> Option<[u8; N]> {
    let digits = text.as_bytes();
    if digits.len() != 2 * N {
        return None;
    }
    let mut bytes = [0; N];
    for (byte, pair) in bytes.iter_mut().zip(digits.chunks_exact(2)) {
        let high = char::from(pair[0]).to_digit(16)?;
        let low = char::from(pair[1]).to_digit(16)?;
        *byte = (16 * high + low) as u8;
    }
    Some(bytes)
}

#[cfg(test)]
mod tests {
    use super::*;

    #[test]
    fn there_and_back() {
        assert_eq!(decode::<3>("00fFa7"), Some([0, 255, 167]));
        assert_eq!(encode(&[0, 255, 167]), "00ffa7");
    }

    #[test]
    fn anything_else_is_refused() {
        for bad in ["", "00", "000000ff", "00ff0g", "+1+1+1", "äöü"] {
            assert_eq!(decode::<3>(bad), None, "{bad}");
        }
    }
}
