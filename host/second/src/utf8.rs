//! Text by RFC 3629: decoded character by character, each number held to its range.

/// The character numbers of a text; none if it isn't well-formed, or has a NUL.
pub fn characters(text: &[u8]) -> Option<Vec<u32>> {
    let mut characters = Vec::new();
    let mut rest = text;
    while let Some((&first, behind)) = rest.split_first() {
        // how many octets follow, the bits of the first, and the least number that needs so many
        let (more, bits, least) = match first.leading_ones() {
            0 => (0, first, 1),
            2 => (1, first & 0b1_1111, 0x80),
            3 => (2, first & 0b1111, 0x800),
            4 => (3, first & 0b111, 0x1_0000),
            _ => return None,
        };
        let mut number = u32::from(bits);
        for &octet in behind.get(..more)? {
            if octet >> 6 != 0b10 {
                return None;
            }
            number = number << 6 | u32::from(octet & 0b11_1111);
        }
        if !(least..=0x10_ffff).contains(&number) || (0xd800..=0xdfff).contains(&number) {
            return None;
        }
        characters.push(number);
        rest = &behind[more..];
    }
    Some(characters)
}

#[cfg(test)]
mod tests {
    use super::characters;

    /// Compares with the standard library, which lets NUL through.
    fn compare(text: &[u8]) {
        let expected: Option<Vec<u32>> = std::str::from_utf8(text)
            .ok()
            .filter(|text| !text.contains('\0'))
            .map(|text| text.chars().map(u32::from).collect());
        assert_eq!(characters(text), expected, "{text:02x?}");
    }

    #[test]
    fn every_character() {
        for number in 1..=0x10_ffff {
            if let Some(character) = char::from_u32(number) {
                compare(character.encode_utf8(&mut [0; 4]).as_bytes());
            }
        }
    }

    #[test]
    fn every_text_of_three_bytes() {
        compare(&[]);
        for first in 0..=255 {
            compare(&[first]);
            for second in 0..=255 {
                compare(&[first, second]);
                for third in 0..=255 {
                    compare(&[first, second, third]);
                }
            }
        }
    }

    #[test]
    fn texts_of_four_and_five_bytes() {
        let borders = [0, 0x7f, 0x80, 0x8f, 0x90, 0x9f, 0xa0, 0xbf, 0xc0, 0xff];
        for first in 0xe0..=255 {
            for second in 0..=255 {
                for third in borders {
                    for fourth in borders {
                        compare(&[first, second, third, fourth]);
                        compare(&[first, second, third, fourth, b'a']);
                        compare(&[b'a', first, second, third, fourth]);
                    }
                }
            }
        }
    }
}
