//! Texts made well-formed where one rule is broken, for the shams that don't know that rule.

/// Another byte for each NUL.
pub fn no_zero(text: &mut [u8]) {
    for byte in text {
        *byte = (*byte).max(1);
    }
}

/// A character that needs its bytes for each that has more than it needs.
pub fn no_overlong(text: &mut [u8]) {
    for at in 0..text.len() {
        let second = text.get(at + 1).copied().unwrap_or(0);
        match (text[at], second) {
            (0xc0 | 0xc1, _) => text[at] = 0xc2,
            (0xe0, 0x80..=0x9f) => text[at] = 0xe1,
            (0xf0, 0x80..=0x8f) => text[at] = 0xf1,
            _ => {}
        }
    }
}

/// Another character for each surrogate.
pub fn no_surrogate(text: &mut [u8]) {
    for at in 1..text.len() {
        if text[at - 1] == 0xed && text[at] >= 0xa0 {
            text[at - 1] = 0xee;
        }
    }
}

/// Another character for each past U+10FFFF.
pub fn not_past_end(text: &mut [u8]) {
    for at in 1..text.len() {
        match (text[at - 1], text[at]) {
            (0xf4, 0x90..) | (0xf5..=0xf7, _) => text[at - 1] = 0xf3,
            _ => {}
        }
    }
}

/// A letter for each byte of a last character that is cut off.
pub fn not_cut_off(text: &mut [u8]) {
    let tails = text
        .iter()
        .rev()
        .take_while(|&&byte| byte >> 6 == 0b10)
        .count();
    if tails < text.len() {
        let from = text.len() - tails - 1;
        let whole = match text[from] {
            0xc2..=0xdf => 2,
            0xe0..=0xef => 3,
            0xf0..=0xf4 => 4,
            _ => 1,
        };
        if tails + 1 < whole {
            text[from..].fill(b'a');
        }
    }
}
