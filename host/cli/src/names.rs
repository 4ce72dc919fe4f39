//! The names of saved files: one to a line, in the order of their entries.

use std::collections::HashSet;
use std::path::Path;

/// The most bytes of a name.
pub const MOST: usize = 255;

/// What is wrong with a name, if anything.
pub fn fault(name: &str) -> Option<&'static str> {
    match name {
        "" => Some("a name has at least one byte"),
        "." | ".." => Some("`.` and `..` are no names of files"),
        name if name.len() > MOST => Some("a name has at most 255 bytes"),
        name if name.contains('\n') => Some("a name has no line feed in it"),
        name if name.contains(['/', '\0']) => Some("a name has no `/` and no zero byte in it"),
        _ => None,
    }
}

/// The name of a path: its last component.
pub fn of(path: &Path) -> Result<&str, &'static str> {
    let name = path.file_name().ok_or("it ends in no name of a file")?;
    let name = name.to_str().ok_or("its name is not UTF-8 text")?;
    fault(name).map_or(Ok(name), Err)
}

/// The first name that stands twice.
pub fn twice<'a>(names: impl IntoIterator<Item = &'a str>) -> Option<&'a str> {
    let mut seen = HashSet::new();
    names.into_iter().find(|name| !seen.insert(*name))
}

/// The names as a file.
pub fn text<'a>(names: impl IntoIterator<Item = &'a str>) -> String {
    names.into_iter().map(|name| format!("{name}\n")).collect()
}

/// The names in the file's bytes, or in the front of it: a line that is not ended is left out. None
/// where a line is no name, or stands twice.
pub fn parse(bytes: &[u8]) -> Option<Vec<&str>> {
    let end = bytes.iter().rposition(|byte| *byte == b'\n');
    let whole = str::from_utf8(&bytes[..end.map_or(0, |end| end + 1)]).ok()?;
    let names: Vec<_> = whole.split_terminator('\n').collect();
    let good = names.iter().all(|name| fault(name).is_none());
    (good && twice(names.iter().copied()).is_none()).then_some(names)
}

#[cfg(test)]
mod tests {
    use super::*;
    use std::ffi::OsStr;
    use std::os::unix::ffi::OsStrExt;

    #[test]
    fn there_and_back() {
        let names = ["a.card", "ä \"b\"", "...", " ", "a..b", "-"];
        let text = text(names);
        assert_eq!(parse(text.as_bytes()).unwrap(), names);
        assert_eq!(
            parse(&text.as_bytes()[..text.len() - 1]).unwrap(),
            names[..5]
        );
        assert_eq!(parse(b"").unwrap(), [""; 0]);
        assert_eq!(parse(b"cut").unwrap(), [""; 0]);
    }

    #[test]
    fn what_is_no_name() {
        let long = format!("{}\n", "x".repeat(256));
        for bad in [
            "\n", "a\n\n", ".\n", "..\n", "a/b\n", "/\n", "a\0\n", "a\na\n", &long,
        ] {
            assert_eq!(parse(bad.as_bytes()), None, "{bad}");
        }
        assert_eq!(parse(b"\xff\n"), None);
        for bad in ["", "/", "..", "a/..", "a\nb"] {
            assert!(of(Path::new(bad)).is_err(), "{bad}");
        }
        assert!(of(Path::new(OsStr::from_bytes(b"\xff"))).is_err());
        assert_eq!(of(Path::new("../x/y.card")), Ok("y.card"));
        assert_eq!(twice(["a", "b", "a", "b"]), Some("a"));
    }
}
