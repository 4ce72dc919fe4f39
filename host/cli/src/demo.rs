//! `demo`: the registry's story: four donors, one of them never tested, one card damaged, and who may give.

use std::env;
use std::ffi::{OsStr, OsString};
use std::fs::{self, OpenOptions};
use std::io;
use std::os::unix::fs::FileExt;
use std::path::{Path, PathBuf};

use boundary::Refusal;

use crate::arguments::Arguments;
use crate::format::SECTOR;
use crate::hex;
use crate::status::{Failure, CLAIM_FAILED, DONE, PARTLY, VERDICT_NOT_KNOWN};
use crate::streams::Streams;
use crate::unique;

const LOG: &str = "cards.log";
const BACK: &str = "back";

/// The cards. Nobody tested Eve for Vel, so her card does not name it.
const CARDS: [(&str, &str); 4] = [
    ("ada.card", "K=absent\nVel=absent\n"),
    ("ben.card", "K=absent\nVel=present\n"),
    ("dan.card", "Fya=present\nK=absent\nVel=absent\n"),
    ("eve.card", "K=absent\n"),
];

/// The card that is damaged, and the sector that it is in.
const LOST: usize = 2;

const QUERY: &str = "not Vel and not K";

const TABLE: &str = "\
query: not Vel and not K

answer     name      why
yes        ada.card
yes        dan.card
not known  eve.card  nobody tested: Vel
no         ben.card

4 cards: 2 yes, 1 not known, 0 unreadable, 1 no
";

const TABLE_AFTER_DAMAGE: &str = "\
query: not Vel and not K

answer      name      why
yes         ada.card
not known   eve.card  nobody tested: Vel
unreadable  dan.card  refusal 12: a part of the log is damaged, first doubtful sector 2, byte 1024 of the log
no          ben.card

An unreadable card is no answer: it may be a yes or a no. DO NOT READ IT AS ABSENT.
4 cards: 1 yes, 1 not known, 1 unreadable, 1 no
";

/// Runs a command, tells what fails and gives the status.
type Run = fn(&[OsString], &mut Streams) -> u8;

pub fn run(run: Run, arguments: &Arguments, streams: &mut Streams) -> Result<u8, Failure> {
    arguments.dates()?;
    let folder = Folder::new()?;
    let mut demo = Demo {
        folder: &folder.path,
        streams,
        run,
        date: arguments.value("--date").and_then(OsStr::to_str),
        claims: 0,
    };
    demo.play()?;
    let claims = demo.claims;
    demo.say(&format!(
        "All {claims} claims above were checked. What nobody tested was never \"absent\", a damaged card \
         was never an answer, and saving the cards again healed it."
    ))?;
    Ok(DONE)
}

struct Demo<'a, 'b> {
    folder: &'a Path,
    streams: &'a mut Streams<'b>,
    run: Run,
    /// What is saved gets this date, where one is given.
    date: Option<&'a str>,
    claims: usize,
}

/// What a command answered.
struct Answer {
    status: u8,
    out: String,
    err: String,
}

impl Demo<'_, '_> {
    fn play(&mut self) -> Result<(), Failure> {
        let root = self.save()?;
        self.ask(&root)?;
        self.damage()?;
        self.ask_again(&root)?;
        self.restore(&root)?;
        self.heal(&root)
    }

    /// Saves the cards and gives their root.
    fn save(&mut self) -> Result<String, Failure> {
        self.say("A registry has a log of 16 sectors, and saves the cards of four donors in it.")?;
        let made = self.command(&["init", LOG, "--sectors", "16"])?;
        self.claim("the log is made", made.status == DONE)?;
        for (name, card) in CARDS {
            let path = self.folder.join(name);
            fs::write(&path, card).map_err(|e| Failure::disk("write", &path, &e))?;
        }
        let root = self.save_cards()?;
        self.claim("they have one root", root.len() == 40)?;
        Ok(root)
    }

    /// The root of the cards, or what was answered in its place.
    fn save_cards(&mut self) -> Result<String, Failure> {
        let names = CARDS.map(|(name, _)| name);
        let saved = self.command(&[&["save", LOG], &names[..]].concat())?;
        Ok(saved.out.trim_end().to_string())
    }

    /// Who may give, and a card that nobody stored.
    fn ask(&mut self, root: &str) -> Result<(), Failure> {
        self.say("A patient has antibodies against Vel and K: only blood without both will do. Who may give?")?;
        let found = self.command(&["search", LOG, root, QUERY])?;
        self.claim(
            "Ada and Dan may give and Ben may not; Eve was never tested for Vel, and that is no \"absent\"",
            found.status == DONE && found.out == TABLE,
        )?;
        self.say("A card that nobody stored: the log is sound, so it can say \"not held\".")?;
        let other = self.command(&["get", LOG, &never_stored()])?;
        self.claim(
            "status 11, not held",
            refused(&other, Refusal::NotHeld, "not held"),
        )
    }

    /// Writes over the sector of the lost card.
    fn damage(&mut self) -> Result<(), Failure> {
        self.say(
            "Now a disk accident: the sector with Dan's card is overwritten. The doctor asks again.",
        )?;
        let path = self.folder.join(LOG);
        let damage = || {
            let file = OpenOptions::new().write(true).open(&path)?;
            file.write_all_at(&[0xdb; SECTOR], (LOST * SECTOR) as u64)
        };
        damage().map_err(|e| Failure::disk("write", &path, &e))
    }

    /// The lost card is no answer, and what isn't found is not known; the others answer as before.
    fn ask_again(&mut self, root: &str) -> Result<(), Failure> {
        let found = self.command(&["search", LOG, root, QUERY])?;
        self.claim(
            "status 33; Dan's card is unreadable, neither a yes nor a no, and it says where the damage is",
            found.status == PARTLY && found.out == TABLE_AFTER_DAMAGE,
        )?;
        let other = self.command(&["get", LOG, &never_stored()])?;
        let doubt = Refusal::NotKnown { sector: LOST };
        self.claim(
            "status 12: the card that nobody stored is \"not known\" now, since it could have been there",
            refused(&other, doubt, "not known"),
        )?;
        let report = self.command(&["report", LOG, "--map", "--width", "16"])?;
        let shown = report.out.contains("\n 0 ##?#####........\n");
        self.claim(
            "status 32, one sector is doubtful",
            report.status == VERDICT_NOT_KNOWN && shown,
        )
    }

    /// What can be restored is, byte for byte, and nothing stands in for the rest.
    fn restore(&mut self, root: &str) -> Result<(), Failure> {
        self.say("The cards are written back to a folder, as far as they can be read.")?;
        let restored = self.command(&["restore", LOG, root, BACK])?;
        let folder = self.folder.join(BACK);
        let back = |at: usize| fs::read(folder.join(CARDS[at].0)).ok();
        let same = |at: usize| back(at).is_some_and(|card| card == CARDS[at].1.as_bytes());
        self.claim(
            "status 33; three cards are as they were, and of Dan's there is no file at all",
            restored.status == PARTLY
                && restored.err.contains("dan.card is not restored: ")
                && [0, 1, 3].into_iter().all(same)
                && back(LOST).is_none(),
        )
    }

    /// Saves the cards again.
    fn heal(&mut self, root: &str) -> Result<(), Failure> {
        self.say("The cards are saved again, Dan's from a copy.")?;
        let again = self.save_cards()?;
        self.claim("they have the root that they had", again == root)?;
        let found = self.command(&["search", LOG, root, QUERY])?;
        self.claim(
            "all is answered as before the damage",
            found.status == DONE && found.out == TABLE,
        )
    }

    /// Runs a command in this process; shows it as one would type it, and its answer.
    fn command(&mut self, words: &[&str]) -> Result<Answer, Failure> {
        let mut words = words.to_vec();
        if let (["save", ..], Some(date)) = (&words[..], self.date) {
            words.extend(["--date", date]);
        }
        let is_file =
            |word: &str| word == LOG || word == BACK || CARDS.iter().any(|(name, _)| word == *name);
        let in_folder = |word: &&str| match is_file(word) {
            true => self.folder.join(word).into_os_string(),
            false => OsString::from(word),
        };
        let full: Vec<OsString> = words.iter().map(in_folder).collect();
        let (mut out, mut err) = (Vec::new(), Vec::new());
        let mut streams = Streams {
            input: &mut io::empty(),
            out: &mut out,
            err: &mut err,
            out_terminal: false,
            err_terminal: false,
            progress: false,
        };
        let status = (self.run)(&full, &mut streams);
        let folder = format!("{}/", self.folder.display());
        let text = |bytes: Vec<u8>| String::from_utf8_lossy(&bytes).replace(&folder, "");
        let (out, err) = (text(out), text(err));
        let shown = format!(
            "  $ skywimple {}\n{}",
            typed(&words),
            indented(&(out.clone() + &err))
        );
        self.streams.answer(shown.as_bytes())?;
        Ok(Answer { status, out, err })
    }

    fn say(&mut self, words: &str) -> Result<(), Failure> {
        self.streams.answer(format!("\n{words}\n").as_bytes())
    }

    /// A claim, which was checked; the demonstration ends where it does not hold.
    fn claim(&mut self, words: &str, holds: bool) -> Result<(), Failure> {
        if !holds {
            let words = format!("this should have been so and is not: {words}");
            return Err(Failure::new(CLAIM_FAILED, words));
        }
        self.claims += 1;
        self.streams.answer(format!("  -> {words}\n").as_bytes())
    }
}

/// Whether a command wrote nothing and was refused so and in these words.
fn refused(answer: &Answer, refusal: Refusal, words: &str) -> bool {
    let number = refusal.number();
    let expected = format!("skywimple: {words} ({number})");
    answer.status == number && answer.out.is_empty() && answer.err.starts_with(&expected)
}

/// A command as one types it.
fn typed(words: &[&str]) -> String {
    let quoted = |word: &&str| match word.contains(' ') {
        true => format!("'{word}'"),
        false => word.to_string(),
    };
    let words: Vec<_> = words.iter().map(quoted).collect();
    words.join(" ")
}

fn never_stored() -> String {
    hex::encode(&boundary::sha1(b"K=present\n"))
}

fn indented(text: &str) -> String {
    let line = |line: &str| format!("  {line}").trim_end().to_string() + "\n";
    text.lines().map(line).collect()
}

/// A folder that is removed in the end.
struct Folder {
    path: PathBuf,
}

impl Folder {
    fn new() -> Result<Folder, Failure> {
        let name = format!("skywimple-demo-{}", unique::name());
        let path = env::temp_dir().join(name);
        fs::create_dir(&path).map_err(|e| Failure::disk("make the folder", &path, &e))?;
        Ok(Folder { path })
    }
}

impl Drop for Folder {
    fn drop(&mut self) {
        let _ = fs::remove_dir_all(&self.path);
    }
}
