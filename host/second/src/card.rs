//! Cards: lines that say whether an antigen is present or absent.

/// The most bytes of a card.
pub const MOST_CARD: u64 = 4096;

/// What a card says of an antigen.
#[derive(Clone, Debug, PartialEq, Eq)]
pub struct Line {
    pub name: Vec<u8>,
    pub present: bool,
}

/// Whether these bytes name an antigen: 1 to 8 ASCII letters and digits, and no word of a query.
pub fn is_name(bytes: &[u8]) -> bool {
    (1..=8).contains(&bytes.len())
        && bytes.iter().all(u8::is_ascii_alphanumeric)
        && ![&b"and"[..], b"or", b"not"].contains(&bytes)
}

/// The lines of a card, or 25. Each is ended by a line feed; names rise strictly, byte by byte.
pub fn lines(card: &[u8]) -> Result<Vec<Line>, u8> {
    if card.len() as u64 > MOST_CARD {
        return Err(25);
    }
    let mut lines: Vec<Line> = Vec::new();
    let mut rest = card;
    while !rest.is_empty() {
        let end = rest.iter().position(|&byte| byte == b'\n').ok_or(25)?;
        let line = line(&rest[..end]).ok_or(25)?;
        if lines.last().is_some_and(|last| last.name >= line.name) {
            return Err(25);
        }
        lines.push(line);
        rest = &rest[end + 1..];
    }
    Ok(lines)
}

/// One line, without its line feed.
fn line(text: &[u8]) -> Option<Line> {
    let equals = text.iter().position(|&byte| byte == b'=')?;
    let present = match &text[equals + 1..] {
        b"present" => true,
        b"absent" => false,
        _ => return None,
    };
    let name = text[..equals].to_vec();
    is_name(&name).then_some(Line { name, present })
}
