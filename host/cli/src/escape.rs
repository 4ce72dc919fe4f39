//! Names and words as they may be shown: no character in them moves the cursor, turns the text around
//! or hides; and no two names look alike, but for characters that merely look alike.

use std::path::Path;

/// A name of which all can be seen: what is hidden is written as an escape, the backslash is doubled,
/// and a space at either end or after another space is `\u{20}`. Two names are shown as two texts.
pub fn visible(name: &str) -> String {
    visible_bytes(name.as_bytes())
}

/// The same of a path, which need not be UTF-8: a byte that is no part of a character is `\xNN`.
pub fn visible_path(path: &Path) -> String {
    visible_bytes(path.as_os_str().as_encoded_bytes())
}

fn visible_bytes(name: &[u8]) -> String {
    let mut shown = String::with_capacity(name.len());
    let mut at = 0;
    for chunk in name.utf8_chunks() {
        for sign in chunk.valid().chars() {
            let edge = at == 0 || at + 1 == name.len() || name[at - 1] == b' ';
            match sign {
                ' ' if edge => shown.extend(sign.escape_unicode()),
                '\\' => shown.push_str("\\\\"),
                sign => push(&mut shown, sign),
            }
            at += sign.len_utf8();
        }
        for byte in chunk.invalid() {
            shown += &format!("\\x{byte:02x}");
            at += 1;
        }
    }
    shown
}

/// Words on one line, in which names may stand: what is hidden is written as an escape, all else as it is.
pub fn line(words: &str) -> String {
    let mut shown = String::with_capacity(words.len());
    words.chars().for_each(|sign| push(&mut shown, sign));
    shown
}

fn push(shown: &mut String, sign: char) {
    match is_hidden(sign) {
        true => shown.extend(sign.escape_default()),
        false => shown.push(sign),
    }
}

/// Whether a character cannot be seen, or not be told from a space, or changes what stands around it:
/// controls, marks of direction and of format, fillers, selectors, tags, spaces but the usual one, and
/// what is no character at all.
pub fn is_hidden(sign: char) -> bool {
    let code = u32::from(sign);
    let spaces = sign != ' ' && sign.is_whitespace();
    let none = code & 0xfffe == 0xfffe || (0xfdd0..=0xfdef).contains(&code);
    let format = matches!(
        code,
        0xad | 0x34f | 0x61c | 0x115f..=0x1160 | 0x17b4..=0x17b5 | 0x180b..=0x180f
            | 0x200b..=0x200f | 0x2028..=0x202e | 0x2060..=0x206f | 0x2800 | 0x3164
            | 0xfe00..=0xfe0f | 0xfeff | 0xffa0 | 0xfff0..=0xfffb | 0x13430..=0x1343f
            | 0x1bca0..=0x1bca3 | 0x1d173..=0x1d17a | 0xe0000..=0xe0fff
    );
    sign.is_control() || spaces || none || format
}

/// A path as a shell takes it in a command to copy.
pub fn quoted(path: &Path) -> String {
    let name = path.display().to_string();
    // What begins with a hyphen would be an option.
    let name = match name.starts_with('-') {
        true => format!("./{name}"),
        false => name,
    };
    let plain = |sign: char| sign.is_alphanumeric() || "/._-+,:@%=".contains(sign);
    match !name.is_empty() && name.chars().all(plain) {
        true => name,
        false => format!("'{}'", name.replace('\'', "'\\''")),
    }
}

#[cfg(test)]
mod tests {
    use super::*;

    #[test]
    fn only_what_is_not_to_be_seen() {
        assert_eq!(visible("Käse 'x' \"y\" 漢"), "Käse 'x' \"y\" 漢");
        for show in [visible, line] {
            assert_eq!(show("a\nb\r\t\x1b[2J\x7f"), "a\\nb\\r\\t\\u{1b}[2J\\u{7f}");
            assert_eq!(show("\u{202e}cba\u{9b}"), "\\u{202e}cba\\u{9b}");
        }
        assert_eq!(line("a \\n b  "), "a \\n b  ");
        assert_eq!(line(&visible(" \\\t")), visible(" \\\t"));
    }

    #[test]
    fn hidden_characters() {
        let ranges = [
            0..=0x1f,
            0x7f..=0xa0,
            0xad..=0xad,
            0x61c..=0x61c,
            0x180e..=0x180e,
            0x2000..=0x200f,
            0x2028..=0x202f,
            0x205f..=0x206f,
            0x3000..=0x3000,
            0xfeff..=0xfeff,
            0xfff9..=0xfffb,
            0xfffe..=0xffff,
            0xe0001..=0xe0001,
            0xe0020..=0xe007f,
        ];
        for sign in ranges.into_iter().flatten().filter_map(char::from_u32) {
            let shown = visible(&format!("a{sign}b"));
            assert!(is_hidden(sign), "{:x}", u32::from(sign));
            assert!(shown.starts_with("a\\") && shown.ends_with('b'), "{shown}");
            assert!(shown.is_ascii(), "{shown}");
        }
    }

    /// The name that is shown so.
    fn read(shown: &str) -> Vec<u8> {
        let mut name = Vec::new();
        let mut rest = shown.chars();
        while let Some(sign) = rest.next() {
            let mut text = [0; 4];
            if sign != '\\' {
                name.extend(sign.encode_utf8(&mut text).bytes());
                continue;
            }
            match rest.next() {
                Some('n') => name.push(b'\n'),
                Some('r') => name.push(b'\r'),
                Some('t') => name.push(b'\t'),
                Some('\\') => name.push(b'\\'),
                Some('x') => {
                    let digits: String = rest.by_ref().take(2).collect();
                    name.push(u8::from_str_radix(&digits, 16).unwrap());
                }
                Some('u') => {
                    let digits: String = rest.by_ref().skip(1).take_while(|d| *d != '}').collect();
                    let sign = char::from_u32(u32::from_str_radix(&digits, 16).unwrap()).unwrap();
                    name.extend(sign.encode_utf8(&mut text).bytes());
                }
                other => panic!("{shown}: {other:?}"),
            }
        }
        name
    }

    /// What is shown can be read back, so two names never look alike.
    #[test]
    fn no_two_names_are_shown_alike() {
        let signs: [&[u8]; 14] = [
            b"",
            b" ",
            b"\\",
            b"\n",
            b"n",
            b"u{20}",
            b"x",
            b"ff",
            b"\xff",
            b"\xe2\x80",
            "\u{200b}".as_bytes(),
            "\u{a0}".as_bytes(),
            "\u{e0041}".as_bytes(),
            "ä".as_bytes(),
        ];
        for one in signs {
            for two in signs {
                for three in signs {
                    let name = [one, two, three, two].concat();
                    let shown = visible_bytes(&name);
                    assert_eq!(read(&shown), name, "{shown}");
                    assert!(!shown.contains("  ") && shown.trim() == shown, "{shown:?}");
                }
            }
        }
        for (name, shown) in [
            (" a", "\\u{20}a"),
            ("a ", "a\\u{20}"),
            ("a b", "a b"),
            ("a  b", "a \\u{20}b"),
            (" ", "\\u{20}"),
            ("a\\nb", "a\\\\nb"),
        ] {
            assert_eq!(visible(name), shown);
        }
    }

    #[test]
    fn paths_in_commands() {
        let quoted = |name: &str| quoted(Path::new(name));
        for plain in ["log", "/var/lib/cards-2.log", "Käse"] {
            assert_eq!(quoted(plain), plain);
        }
        assert_eq!(quoted("my cards"), "'my cards'");
        assert_eq!(quoted("$(x);'y'"), "'$(x);'\\''y'\\'''");
        assert_eq!(quoted("-s"), "./-s");
        assert_eq!(quoted(""), "''");
    }
}
