//! The text of a card: what it says of an antigen, and where it first goes wrong. Whether it is a card
//! at all, the proved call says.

use std::fmt;

/// The most bytes of a card, and of a name.
pub const MOST: usize = 4096;
pub const MOST_NAME: usize = 8;
/// The words of a query, which name no antigen.
pub const RESERVED: [&str; 3] = ["and", "or", "not"];

/// Where a card goes wrong, both counted from 1, and how.
#[derive(Debug, PartialEq, Eq)]
pub struct Fault {
    line: usize,
    byte: usize,
    words: String,
}

impl fmt::Display for Fault {
    fn fmt(&self, f: &mut fmt::Formatter) -> fmt::Result {
        write!(f, "line {}, byte {}: {}", self.line, self.byte, self.words)
    }
}

/// What a well-formed card says of an antigen: present, absent, or nothing.
pub fn says(card: &[u8], antigen: &str) -> Option<bool> {
    let mut lines = card.split(|byte| *byte == b'\n');
    lines.find_map(|line| match line.strip_prefix(antigen.as_bytes())? {
        b"=present" => Some(true),
        b"=absent" => Some(false),
        _ => None,
    })
}

/// The first place that is wrong. Of a text that is too long only whole lines before that are looked at.
pub fn fault(card: &[u8]) -> Option<Fault> {
    let too_long = card.len() > MOST;
    let end = match too_long {
        true => card[..MOST]
            .iter()
            .rposition(|byte| *byte == b'\n')
            .map_or(0, |end| end + 1),
        false => card.len(),
    };
    let mut before: Option<&[u8]> = None;
    let mut line = 1;
    for text in card[..end].split_inclusive(|byte| *byte == b'\n') {
        match line_fault(text, before) {
            Ok(name) => before = Some(name),
            Err((byte, words)) => return Some(Fault { line, byte, words }),
        }
        line += 1;
    }
    too_long.then(|| Fault {
        line,
        byte: MOST + 1 - end,
        words: "a card has at most 4,096 bytes".to_string(),
    })
}

/// The name that a line is about, or its first byte that is wrong, counted from 1, and how.
fn line_fault<'a>(line: &'a [u8], before: Option<&[u8]>) -> Result<&'a [u8], (usize, String)> {
    let name = name(line)?;
    let shown = String::from_utf8_lossy(name);
    if RESERVED.contains(&&*shown) {
        return Err((
            1,
            format!("`{shown}` is a word of queries and names no antigen"),
        ));
    }
    match before {
        Some(before) if before == name => return Err((1, format!("`{shown}` has a line already"))),
        Some(before) if before > name => {
            let before = String::from_utf8_lossy(before);
            let words = "names rise: digits, then capitals, then small letters";
            return Err((
                1,
                format!("`{shown}` cannot come after `{before}`; {words}"),
            ));
        }
        _ => {}
    }
    let value = &line[name.len() + 1..];
    let at = name.len() + 2;
    let word = [&b"present"[..], b"absent"]
        .into_iter()
        .find(|word| value.starts_with(word));
    let Some(word) = word else {
        return Err((at, "`present` or `absent` must stand here".to_string()));
    };
    match &value[word.len()..] {
        b"\n" => Ok(name),
        rest => Err((
            at + word.len(),
            format!("a line feed must stand here, {}", and_not(rest)),
        )),
    }
}

/// The name at a line's front, with an equals sign behind it.
fn name(line: &[u8]) -> Result<&[u8], (usize, String)> {
    let length = line
        .iter()
        .take_while(|byte| byte.is_ascii_alphanumeric())
        .count();
    match (length, line.get(length)) {
        (0, Some(b'\n')) => Err((1, "an empty line".to_string())),
        (0, _) => {
            let words = format!(
                "a name of letters and digits must stand here, {}",
                and_not(line)
            );
            Err((1, words))
        }
        (1..=MOST_NAME, Some(b'=')) => Ok(&line[..length]),
        (1..=MOST_NAME, _) => {
            let words = format!("`=` must stand here, {}", and_not(&line[length..]));
            Err((length + 1, words))
        }
        _ => Err((
            MOST_NAME + 1,
            "a name has at most 8 letters and digits".to_string(),
        )),
    }
}

/// What stands at a place instead.
fn and_not(rest: &[u8]) -> String {
    match rest.first() {
        None => "and the card ends".to_string(),
        Some(b'\n') => "and the line ends".to_string(),
        Some(b'\r') => "and not a carriage return: lines end with a line feed alone".to_string(),
        Some(b' ') => "and not a space".to_string(),
        Some(byte @ 0x21..=0x7e) => format!("and not `{}`", char::from(*byte)),
        Some(byte) => format!("and not a byte of value {byte}"),
    }
}

#[cfg(test)]
mod tests {
    use super::*;
    use boundary::is_card;

    #[test]
    fn where_a_card_goes_wrong() {
        let cases: [(&[u8], usize, usize, &str); 24] = [
            (b"\n", 1, 1, "an empty line"),
            (b"A=absent\n\n", 2, 1, "an empty line"),
            (
                b" A=absent\n",
                1,
                1,
                "a name of letters and digits must stand here, and not a space",
            ),
            (b"=absent\n", 1, 1, "and not `=`"),
            (b"\xc3\x84=absent\n", 1, 1, "and not a byte of value 195"),
            (b"123456789=absent\n", 1, 9, "at most 8"),
            (b"Vel", 1, 4, "`=` must stand here, and the card ends"),
            (b"Vel\n", 1, 4, "`=` must stand here, and the line ends"),
            (b"Vel =absent\n", 1, 4, "and not a space"),
            (b"Vel-1=absent\n", 1, 4, "and not `-`"),
            (b"Vel=\n", 1, 5, "`present` or `absent`"),
            (b"Vel=maybe\n", 1, 5, "`present` or `absent`"),
            (b"Vel=absen", 1, 5, "`present` or `absent`"),
            (b"Vel=Absent\n", 1, 5, "`present` or `absent`"),
            (
                b"Vel=absent",
                1,
                11,
                "a line feed must stand here, and the card ends",
            ),
            (b"Vel=absent\r\n", 1, 11, "a carriage return"),
            (b"Vel=absent \n", 1, 11, "and not a space"),
            (b"Vel=presently\n", 1, 12, "and not `l`"),
            (b"and=absent\n", 1, 1, "`and` is a word of queries"),
            (b"not=absent\n", 1, 1, "`not` is a word of queries"),
            (
                b"A=absent\nB=absent\nA1=absent\n",
                3,
                1,
                "`A1` cannot come after `B`",
            ),
            (b"a=absent\nB=absent\n", 2, 1, "`B` cannot come after `a`"),
            (b"A1=absent\nA=absent\n", 2, 1, "`A` cannot come after `A1`"),
            (b"A=absent\nA=present\n", 2, 1, "`A` has a line already"),
        ];
        for (card, line, byte, words) in cases {
            let found = fault(card).unwrap();
            assert!(!is_card(card));
            assert_eq!((found.line, found.byte), (line, byte), "{found}");
            assert!(found.words.contains(words), "{found}");
        }
    }

    #[test]
    fn a_card_that_is_too_long() {
        let names = (0..).map(|at| format!("A{at:05}=absent\n"));
        let card: String = names.take(293).collect(); // 14 bytes a line: 4,102
        let found = fault(card.as_bytes()).unwrap();
        assert_eq!((found.line, found.byte), (293, 9));
        assert_eq!(fault(&card.as_bytes()[..4097]), Some(found));
        assert_eq!(fault(&card.as_bytes()[..292 * 14]), None);
    }

    #[test]
    fn what_a_card_says() {
        let card = b"A=present\nA1=absent\nB=absent\n";
        let said = ["A", "A1", "B", "A2", "", "present"].map(|name| says(card, name));
        assert_eq!(
            said,
            [Some(true), Some(false), Some(false), None, None, None]
        );
    }

    /// Any short text over a few bytes: a fault is found exactly where the proved call finds no card.
    #[test]
    fn faults_are_the_proved_ones() {
        let parts = [
            "A", "B", "a1", "=", "present", "absent", "\n", " ", "and", "12345678", "\r",
        ];
        let mut texts = vec![String::new()];
        for _ in 0..5 {
            let longer = |text: &String| parts.map(|part| format!("{text}{part}"));
            texts = texts.iter().flat_map(longer).collect();
            for text in &texts {
                let card = is_card(text.as_bytes());
                assert_eq!(fault(text.as_bytes()).is_none(), card, "{text:?}");
            }
        }
        let line = |name: &str, value: &str| format!("{name}={value}\n");
        for (first, second) in [("A", "A1"), ("A1", "A"), ("A", "A"), ("B", "a"), ("a", "B")] {
            let text = line(first, "absent") + &line(second, "present");
            let card = is_card(text.as_bytes());
            assert_eq!(fault(text.as_bytes()).is_none(), card, "{text:?}");
        }
    }
}
