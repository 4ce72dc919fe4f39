//! The mark beside a log, `LOG.mark`: how many sectors the log has and where its used part ends.
//! With it a log that lost its tail is told from a shorter one.
//!
//! Three lines, `sectors=`, `used=` and `crc=`, each with 8 lower-case hex digits; the last is the
//! CRC-32 of the two before. They stand twice, at the file's front and at byte 4,096, with zeros
//! between: in two sectors, so that what harms one of them leaves the other. Both are on disk before
//! a sync is answered, so any of them that is good has the last one that was; where only the first
//! of two renewals arrived, the later counts, whose sectors are on disk before either is written.
//! The first edition had the lines once.

use std::ffi::OsString;
use std::fs::{self, File, Metadata, OpenOptions, Permissions};
use std::io;
use std::os::unix::fs::{fchown, MetadataExt, PermissionsExt};
use std::path::{Path, PathBuf};
use std::thread;

use boundary::crc32;

use crate::disk;
use crate::format::MOST_SECTORS;
use crate::hex;
use crate::status::{Failure, MISSING, UNFIT};
use crate::unique;

/// The bytes of the lines, and where they stand again.
const LINES: usize = 16 + 1 + 13 + 1 + 12 + 1;
const AGAIN: usize = 4096;
/// The bytes of the file.
pub const LENGTH: usize = AGAIN + LINES;
/// How often a mark is read that looks damaged: a writer may be renewing it.
const LOOKS: usize = 5;

#[derive(Clone, Copy, Debug, PartialEq, Eq)]
pub struct Mark {
    /// Sectors in the file.
    pub sectors: usize,
    /// Sectors of the used part.
    pub used: usize,
}

/// What stands in the mark's place.
pub enum Found {
    Good(Mark),
    Damaged,
    Missing,
}

/// What marks' names end in.
pub const SUFFIX: &str = ".mark";
/// What a mark's name ends in besides, before it is in place.
const NEW: &str = ".new";

/// The mark of a log: beside the file itself where the path is a symbolic link.
pub fn path_of(log: &Path) -> PathBuf {
    with_suffix(&resolved(log), SUFFIX)
}

/// The file that a path leads to, also one that isn't there.
pub fn resolved(path: &Path) -> PathBuf {
    if let Ok(path) = fs::canonicalize(path) {
        return path;
    }
    let path = through_links(path);
    match (fs::canonicalize(folder(&path)), path.file_name()) {
        (Ok(folder), Some(name)) => folder.join(name),
        _ => path,
    }
}

/// Follows symbolic links to their end, as many as the system would.
fn through_links(path: &Path) -> PathBuf {
    let mut path = path.to_path_buf();
    for _ in 0..40 {
        match fs::read_link(&path) {
            Ok(target) => path = folder(&path).join(target),
            Err(_) => break,
        }
    }
    path
}

/// The path with these letters at its end.
pub fn with_suffix(path: &Path, suffix: &str) -> PathBuf {
    let mut name = OsString::from(path);
    name.push(suffix);
    PathBuf::from(name)
}

impl Mark {
    /// Its lines.
    pub fn text(&self) -> String {
        let lines = format!("sectors={:08x}\nused={:08x}\n", self.sectors, self.used);
        let crc = crc32(lines.as_bytes());
        format!("{lines}crc={crc:08x}\n")
    }

    /// Its file.
    pub fn bytes(&self) -> [u8; LENGTH] {
        let mut bytes = [0; LENGTH];
        bytes[..LINES].copy_from_slice(self.text().as_bytes());
        bytes.copy_within(..LINES, AGAIN);
        bytes
    }

    /// The mark of two places: of what is good there, and the later of the two. Marks only grow.
    fn of(front: Option<Mark>, again: Option<Mark>) -> Option<Mark> {
        match (front, again) {
            (Some(one), Some(other)) => Some(Mark {
                sectors: one.sectors.max(other.sectors),
                used: one.used.max(other.used),
            }),
            (one, other) => one.or(other),
        }
    }

    /// The mark that has exactly these lines.
    fn parse(text: &[u8]) -> Option<Mark> {
        let text = std::str::from_utf8(text).ok()?;
        let mut lines = text.lines();
        let mut field = |name| {
            let value = hex::decode(lines.next()?.strip_prefix(name)?)?;
            usize::try_from(u32::from_be_bytes(value)).ok()
        };
        let mark = Mark {
            sectors: field("sectors=")?,
            used: field("used=")?,
        };
        let possible = mark.used <= mark.sectors && mark.sectors <= MOST_SECTORS;
        (possible && mark.text() == text).then_some(mark)
    }

    /// Looks what stands in the mark's place. A place that cannot be read counts as damaged, where the other is
    /// good.
    pub fn find(path: &Path) -> Result<Found, Failure> {
        let failed = |e| Err(Failure::disk("read the mark", path, &e));
        let mut unreadable = None;
        for _ in 0..LOOKS {
            let file = match disk::open_file(path, OpenOptions::new().read(true)) {
                Ok(file) => file,
                Err(e) if e.kind() == io::ErrorKind::NotFound => return Ok(Found::Missing),
                Err(e) => return failed(e),
            };
            let mut place = |at| match lines_at(&file, at) {
                Ok(lines) => Mark::parse(&lines),
                Err(e) => {
                    unreadable = Some(e);
                    None
                }
            };
            match Mark::of(place(0), place(AGAIN)) {
                Some(mark) => return Ok(Found::Good(mark)),
                None => thread::yield_now(),
            }
        }
        unreadable.map_or(Ok(Found::Damaged), failed)
    }

    /// Whether both places of a file have it, and nothing is behind them.
    pub fn fills(&self, file: &File) -> bool {
        let here = |at| lines_at(file, at).is_ok_and(|lines| Mark::parse(&lines) == Some(*self));
        here(0)
            && here(AGAIN)
            && file
                .metadata()
                .is_ok_and(|found| found.len() == LENGTH as u64)
    }

    /// The mark, which has to be there and good.
    pub fn require(log: &Path) -> Result<Mark, Failure> {
        let path = path_of(log);
        match Mark::find(&path)? {
            Found::Good(mark) => Ok(mark),
            Found::Damaged => Err(damaged(&path)),
            Found::Missing => Err(missing(log, &path)),
        }
    }

    /// Puts it in place of the one before, all or nothing, and on disk: with the owner, group and
    /// mode that the one before has, or else the log. Its caller holds the log's lock. Gives the file.
    pub fn write(&self, path: &Path, log: &File) -> Result<File, Failure> {
        let new = with_suffix(path, &format!(".{}{NEW}", unique::name()));
        let replaced = disk::create(&new).and_then(|file| {
            let like = fs::metadata(path).or_else(|_| log.metadata());
            let replaced = like.and_then(|like| self.replace(&file, &like, &new, path));
            if replaced.is_err() {
                let _ = fs::remove_file(&new);
            }
            replaced.map(|()| file)
        });
        let synced = replaced.and_then(|file| sync_folder(path).map(|()| file));
        synced.map_err(|e| failed(path, &e))
    }

    /// Writes it to a new file and gives that the mark's name.
    fn replace(&self, file: &File, like: &Metadata, new: &Path, path: &Path) -> io::Result<()> {
        disk::write(file, &self.bytes(), 0)?;
        keep_access(file, like)?;
        disk::sync(file)?;
        disk::rename(new, path)
    }

    /// Has it on disk in a mark's own file, over the one before.
    pub fn renew(&self, file: &File, path: &Path) -> Result<(), Failure> {
        let written = disk::write(file, &self.bytes(), 0);
        let synced = written.and_then(|()| disk::sync_data(file));
        synced.map_err(|e| failed(path, &e))
    }
}

/// Gives a new file the owner, group and mode of another, as far as this process may.
pub fn keep_access(file: &File, like: &Metadata) -> io::Result<()> {
    let own = file.metadata()?;
    let mut mode = like.mode() & 0o777;
    if (own.uid(), own.gid()) != (like.uid(), like.gid()) {
        // Who is not the superuser cannot give a file away, but can give it to a group of his own.
        let kept = fchown(file, Some(like.uid()), Some(like.gid()))
            .or_else(|_| fchown(file, None, Some(like.gid())));
        if kept.is_err() {
            mode &= 0o707; // what one group may do is not for another
        }
    }
    if own.mode() & 0o777 != mode {
        file.set_permissions(Permissions::from_mode(mode))?;
    }
    Ok(())
}

/// Removes what writers that died left of their new marks. Its caller holds the log's lock, so no
/// living one is at it.
pub fn remove_left_over(path: &Path) {
    let (Some(mark), Ok(entries)) = (path.file_name(), fs::read_dir(folder(path))) else {
        return;
    };
    for entry in entries.flatten() {
        let name = entry.file_name();
        let named = is_left_over(mark.as_encoded_bytes(), name.as_encoded_bytes());
        // A link is not followed.
        let piece = |found: Metadata| found.is_file() && found.len() <= LENGTH as u64;
        if named && entry.metadata().is_ok_and(piece) {
            let _ = fs::remove_file(entry.path());
        }
    }
}

/// Whether a file has the name that a mark has before it is in place, `LOG.mark.DIGITS-DIGITS.new`.
fn is_left_over(mark: &[u8], name: &[u8]) -> bool {
    let middle = name.strip_prefix(mark).and_then(|n| n.strip_prefix(b"."));
    let middle = middle.and_then(|n| n.strip_suffix(NEW.as_bytes()));
    let Some(middle) = middle else {
        return false;
    };
    let parts: Vec<_> = middle.split(|byte| *byte == b'-').collect();
    let digits = |part: &&[u8]| !part.is_empty() && part.iter().all(u8::is_ascii_digit);
    parts.len() == 2 && parts.iter().all(digits)
}

/// As much of a mark's lines as stands at a place of a file.
fn lines_at(file: &File, at: usize) -> io::Result<Vec<u8>> {
    let mut lines = [0; LINES];
    let mut count = 0;
    while count < LINES {
        match disk::read_mark(file, &mut lines[count..], (at + count) as u64) {
            Ok(0) => break,
            Ok(more) => count += more,
            Err(e) if e.kind() == io::ErrorKind::Interrupted => {}
            Err(e) => return Err(e),
        }
    }
    Ok(lines[..count].to_vec())
}

/// Fails where what is given as a log is a mark, by its name or by what is in it.
pub fn not_a_mark(path: &Path) -> Result<(), Failure> {
    let name = path.as_os_str().as_encoded_bytes();
    let log = name.strip_suffix(SUFFIX.as_bytes());
    let holds_one = || matches!(Mark::find(path), Ok(Found::Good(_)));
    if log.is_none() && !holds_one() {
        return Ok(());
    }
    let log = match log {
        Some(log) => format!("give the log itself, {}", String::from_utf8_lossy(log)),
        None => "give the log itself".to_string(),
    };
    let words = format!("{} is the mark of a log, not a log: {log}.", path.display());
    Err(Failure::new(MISSING, words))
}

/// Has the entries of a file's folder on disk.
pub fn sync_folder(file: &Path) -> io::Result<()> {
    disk::sync_folder(folder(file))
}

fn folder(file: &Path) -> &Path {
    match file.parent() {
        Some(folder) if !folder.as_os_str().is_empty() => folder,
        _ => Path::new("."),
    }
}

fn failed(path: &Path, e: &io::Error) -> Failure {
    Failure::disk("write the mark", path, e)
}

fn missing(log: &Path, path: &Path) -> Failure {
    let words = format!(
        "{0} has no mark ({1}), so nobody can tell whether its tail is whole. Restore the mark; \
         or, if the log is whole, give --adopt to take it as it is.",
        log.display(),
        path.display()
    );
    Failure::new(MISSING, words)
}

fn damaged(path: &Path) -> Failure {
    let words = format!(
        "the mark {} is damaged, so nobody can tell whether the log's tail is whole. Restore the \
         mark; or, if the log is whole, give --adopt to take it as it is.",
        path.display()
    );
    Failure::new(UNFIT, words)
}

#[cfg(test)]
mod tests {
    use super::*;

    const MARK: Mark = Mark {
        sectors: MOST_SECTORS,
        used: 0x1_0abc,
    };

    #[test]
    fn text_and_back() {
        let text = MARK.text();
        assert!(text.starts_with("sectors=00100000\nused=00010abc\ncrc="));
        assert_eq!(text.len(), LINES);
        assert_eq!(Mark::parse(text.as_bytes()), Some(MARK));
    }

    #[test]
    fn any_changed_byte_is_damage() {
        let text = MARK.text().into_bytes();
        for at in 0..text.len() {
            for change in [1, 0x20, 0x80, 0xff] {
                let mut bad = text.clone();
                bad[at] ^= change;
                assert_eq!(Mark::parse(&bad), None, "byte {at}");
            }
        }
        for at in 0..text.len() {
            assert_eq!(Mark::parse(&text[..at]), None, "cut to {at}");
        }
        assert_eq!(Mark::parse(&[&text[..], b"\n"].concat()), None);
    }

    /// One of the two is enough, whatever happened to the other; of two that are good the later counts.
    #[test]
    fn either_of_the_two() {
        let later = Mark {
            used: MARK.used + 1,
            ..MARK
        };
        let file = |front: &[u8], again: &[u8]| Mark::of(Mark::parse(front), Mark::parse(again));
        let [one, two] = [MARK.text(), later.text()];
        let (one, two) = (one.as_bytes(), two.as_bytes());
        assert_eq!(file(one, one), Some(MARK));
        assert_eq!(file(one, two), Some(later));
        assert_eq!(file(two, one), Some(later));
        for at in 0..=LINES {
            let torn = [&two[..at], &one[at..]].concat();
            let expected = if torn == two { later } else { MARK };
            assert_eq!(file(&torn, one), Some(expected), "front, {at}");
            assert_eq!(file(one, &torn), Some(expected), "again, {at}");
        }
        assert_eq!(file(one, b"damage"), Some(MARK));
        assert_eq!(file(b"damage", one), Some(MARK));
        assert_eq!(file(b"damage", b"damage"), None);
        // A log that was lengthened, and stopped between the two.
        let longer = Mark {
            sectors: 0x8000,
            used: 7,
        };
        let shorter = Mark {
            sectors: 0x4000,
            used: 7,
        };
        let [longer_text, shorter_text] = [longer.text(), shorter.text()];
        let (l, s) = (longer_text.as_bytes(), shorter_text.as_bytes());
        assert_eq!((file(l, s), file(s, l)), (Some(longer), Some(longer)));
    }

    /// A reader beside a writer that renews the mark finds it good, and never an earlier one after a later.
    #[test]
    fn found_while_it_is_renewed() {
        let path = std::env::temp_dir().join(format!("skywimple-mark-{}", unique::name()));
        fs::write(&path, Mark { used: 0, ..MARK }.bytes()).unwrap();
        let most = 20_000;
        thread::scope(|scope| {
            scope.spawn(|| {
                let file = OpenOptions::new().write(true).open(&path).unwrap();
                for used in 0..=most {
                    disk::write(&file, &Mark { used, ..MARK }.bytes(), 0).unwrap();
                }
            });
            let mut last = 0;
            while last < most {
                let Ok(Found::Good(found)) = Mark::find(&path) else {
                    panic!("no mark");
                };
                assert!(last <= found.used, "{last} and then {}", found.used);
                last = found.used;
            }
        });
        fs::remove_file(path).unwrap();
    }

    #[test]
    fn names_that_are_left_over() {
        let left_over = |name: &str| is_left_over(b"log.mark", name.as_bytes());
        assert!(left_over("log.mark.7-7.new"));
        assert!(left_over(&format!("log.mark.{}.new", unique::name())));
        let others = [
            "log",
            "log.mark",
            "log.mark.new",
            "log.mark..new",
            "log.mark.-.new",
            "log.mark.7.new",
            "log.mark.7-.new",
            "log.mark.7-7-7.new",
            "log.mark.7-x.new",
            "log.mark.7-7.new.old",
            "log.mark7-7.new",
            "xlog.mark.7-7.new",
            "log.mark.7-7",
        ];
        for other in others {
            assert!(!left_over(other), "{other}");
        }
    }

    #[test]
    fn impossible_numbers_are_damage() {
        for (sectors, used) in [(4, 5), (MOST_SECTORS + 1, 0)] {
            let mark = Mark { sectors, used };
            assert_eq!(Mark::parse(mark.text().as_bytes()), None);
        }
    }
}
