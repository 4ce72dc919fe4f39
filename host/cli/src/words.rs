//! The refusals in words: what each is called, when it is given, what to do.

use boundary::Refusal;

use crate::format::{kind_name, limit, Score, MOST_SECTORS, SECTOR};
use crate::hex;

struct Words {
    name: &'static str,
    when: &'static str,
    advice: &'static str,
}

const fn words(name: &'static str, when: &'static str, advice: &'static str) -> Words {
    Words { name, when, advice }
}

/// The refusals, in the order of `Refusal::ALL`.
const REFUSALS: [Words; Refusal::ALL.len()] = [
    words(
        "ill-framed message",
        "it has fewer than 4 bytes, or its size isn't the count of bytes after it",
        "Send each message as size[2] type[1] tag[1] body.",
    ),
    words(
        "lent buffer too short",
        "a reply takes 57,348 bytes, a report 128",
        "This is a mistake in the program; please report it.",
    ),
    words(
        "not a log",
        "a log is whole sectors of 512 bytes, 0 to {limit} of them",
        "Give a file that `skywimple init` made, and check the number of its sectors.",
    ),
    words(
        "session closed",
        "a goodbye was accepted before",
        "Start another session.",
    ),
    words(
        "no such request",
        "no request has this message type",
        "Requests are ping 2, hello 4, goodbye 6, read 12, write 14 and sync 16.",
    ),
    words(
        "ill-formed body",
        "the message's body isn't laid out as its type asks (texts UTF-8, pads zero), or isn't used up exactly",
        "Mend the sender.",
    ),
    words(
        "no hello yet",
        "only hello and goodbye may come before an accepted hello",
        "Send a hello first.",
    ),
    words(
        "hello refused",
        "it is a second one, or its version isn't 02",
        "Send one hello, with version 02.",
    ),
    words(
        "no such block type",
        "it is none of the ten",
        "Give --type as root (1), dir (2), ptr1 to ptr7 (3 to 9) or data (13).",
    ),
    words(
        "block too long",
        "a block has at most 57,344 bytes",
        "Cut it into shorter blocks. Nothing was stored.",
    ),
    words(
        "not held",
        "no block of this type and score was ever stored in this log",
        "Check the score and the --type.",
    ),
    words(
        "not known",
        "part of the log is damaged, so this block may have been stored here or not. \
         DO NOT READ THIS AS ABSENT",
        "Ask a copy of the log, or restore those sectors from it while no writer runs; \
         storing the block again (`skywimple put`) heals it.",
    ),
    words(
        "block longer than asked for",
        "it is held, but has more bytes than the count",
        "Ask with a larger --count; 57344 is always enough.",
    ),
    words(
        "log full",
        "too few sectors are left after the used part",
        "Nothing was stored. Lengthen the log with zeros while no writer runs \
         (at most {limit} sectors in all), or begin another one with `skywimple init`.",
    ),
    words(
        "clash",
        "a block of this type and score is held that has other bytes",
        "Nothing was stored. Two blocks with one SHA-1 do not come about by chance: \
         find out who made them.",
    ),
    words(
        "ill-formed entry or root",
        "an entry has 40 bytes, is active, its pad is zero and its fields agree; a root has version 2",
        "Check where these bytes come from.",
    ),
    words(
        "offset past the end",
        "the file ends before it",
        "Ask for an offset below the file's size.",
    ),
    words(
        "ill-formed pointer block",
        "its length isn't a multiple of 20",
        "The tree was written wrongly; store it again from its source.",
    ),
    words(
        "blank page not blank",
        "it is empty or not all zeros",
        "This is a mistake in the program; please report it.",
    ),
    words(
        "directories nested too deep",
        "a walk goes down 16 directories at most",
        "Walk from a root further down.",
    ),
    words(
        "allowance used up",
        "the tree has more blocks than visits were allowed",
        "Ask with a larger --allowance; 1000000 is the most.",
    ),
    words(
        "padding out of bounds",
        "the target is shorter than the block or past the buffer, \
         or a pointer length isn't a multiple of 20",
        "This is a mistake in the program; please report it.",
    ),
    words(
        "allowance too large",
        "a walk is allowed 1,000,000 visits at most",
        "Ask with --allowance 1000000 or less.",
    ),
    words(
        "no date",
        "a date is eight decimal digits",
        "This is a mistake in the program; please report it.",
    ),
    words(
        "not a card",
        "a card is at most 4,096 bytes of lines NAME=present or NAME=absent, each name once, in rising order",
        "Write the card again, one name to a line, and store it.",
    ),
    words(
        "not a query",
        "a query is at most 256 bytes of names, `and`, `or`, `not` and round brackets, one space between",
        "Ask with names of 1 to 8 letters and digits, such as `A and not ( B or C )`.",
    ),
];

/// A refusal in words, on one line.
pub fn refusal(refusal: Refusal) -> String {
    told(refusal, None)
}

/// Why a card, a file or its name cannot be read: the refusal's number and what it is called. Of 12 it
/// is said where the damage begins; "not known", its name for a block, is one of a search's answers.
pub fn brief(refusal: Refusal) -> String {
    let number = refusal.number();
    let name = entry_of(refusal).map_or("refused", |words| words.name);
    match refusal.first_doubtful() {
        Some(first) => {
            let byte = first * SECTOR;
            format!(
                "refusal {number}: a part of the log is damaged, first doubtful sector {first}, \
                 byte {byte} of the log"
            )
        }
        None => format!("refusal {number} ({name})"),
    }
}

/// A refusal of a block that a tree leads to: no option changes its type or its count. What can be
/// done depends on which block it is.
pub fn refusal_in_tree(refusal: Refusal, block: Option<(u8, &Score)>) -> String {
    let fetch = match block {
        Some((kind, score)) => {
            let (kind, score) = (kind_name(kind), hex::encode(score));
            format!(
                "Fetch it from a copy of the log and store it again: \
                 `skywimple get COPY {score} --type {kind} > block && \
                 skywimple put LOG block --type {kind}`."
            )
        }
        None => "Store the tree again from its source.".to_string(),
    };
    let advice = match refusal {
        Refusal::NotHeld => {
            format!("If the score or entry given is right, a block below it is missing. {fetch}")
        }
        Refusal::NotKnown { .. } => fetch,
        Refusal::OverCount => {
            "The tree was written wrongly; store it again from its source.".to_string()
        }
        _ => return told(refusal, None),
    };
    told(refusal, Some(&advice))
}

/// Where a log's doubt begins, and what shows the rest of it.
pub fn doubt(first: usize, log: &str) -> String {
    let byte = first * SECTOR;
    format!("the first doubtful sector is {first}, at byte {byte} of the log; `skywimple list {log}` shows all of them")
}

/// Refusal 14 of a log of so many sectors, with so many used, for a block that needs so many.
pub fn full(log: &str, sectors: usize, used: usize, needed: usize) -> String {
    let lack = format!("the block takes {needed}, and {} are left", sectors - used);
    let advice = if used + needed > MOST_SECTORS {
        format!(
            "Nothing was stored. No log has more than {{limit}} sectors, so this one cannot be \
             lengthened for it ({lack}): begin another one with `skywimple init`."
        )
    } else {
        let more = needed.max(A_MEGABYTE).min(MOST_SECTORS - sectors) * SECTOR;
        format!(
            "Nothing was stored ({lack}). Lengthen the log with zeros while no writer runs \
             (`truncate -s +{more} {log}`; at most {{limit}} sectors in all), or begin another one \
             with `skywimple init`."
        )
    };
    told(Refusal::NoRoom, Some(&advice))
}

/// Refusal 14 of a log of so many sectors, with so many used, that a tree is copied to.
pub fn full_of_copies(log: &str, sectors: usize, used: usize) -> String {
    let lack = format!("the next block takes more than the {} left", sectors - used);
    let more = A_MEGABYTE.min(MOST_SECTORS - sectors) * SECTOR;
    let advice = match more {
        0 => format!(
            "Nothing was stored. No log has more than {{limit}} sectors ({lack}): copy to another one."
        ),
        _ => format!(
            "Nothing was stored ({lack}). Lengthen {log} with zeros while no writer runs \
             (`truncate -s +{more} {log}`; at most {{limit}} sectors in all)."
        ),
    };
    midway(&told(Refusal::NoRoom, Some(&advice)))
}

/// A refusal's words where other blocks of the same file may have been stored before.
pub fn midway(words: &str) -> String {
    words.replace(
        "Nothing was stored",
        "What was stored before it stays; the same command finds it and goes on",
    )
}

/// The sectors of a megabyte.
const A_MEGABYTE: usize = 2048;

fn told(refusal: Refusal, advice: Option<&str>) -> String {
    let number = refusal.number();
    match entry_of(refusal) {
        Some(w) => {
            let advice = advice.unwrap_or(w.advice);
            let mut words = format!("{} ({number}): {}. ", w.name, w.when);
            if let Some(first) = refusal.first_doubtful() {
                words += &format!("Where: {}. ", doubt(first, "LOG"));
            }
            (words + advice).replace("{limit}", &limit())
        }
        None => format!("refused ({number})"),
    }
}

fn entry_of(refusal: Refusal) -> Option<&'static Words> {
    let number = refusal.number();
    let mut all = Refusal::ALL.iter().zip(&REFUSALS);
    let found = all.find(|(which, _)| which.number() == number);
    found.map(|(_, words)| words)
}

#[cfg(test)]
mod tests {
    use super::*;

    #[test]
    fn in_few_words() {
        let why = Refusal::NotKnown { sector: 3 };
        let words = "refusal 12: a part of the log is damaged, first doubtful sector 3, \
                     byte 1536 of the log";
        assert_eq!(brief(why), words);
        assert_eq!(brief(Refusal::Card), "refusal 25 (not a card)");
    }

    #[test]
    fn what_was_stored_before_stays() {
        let clash = midway(&refusal(Refusal::Clash));
        let lack = midway(&full("x.log", 10, 9, 2));
        for words in [clash, lack] {
            assert!(words.contains("stored before it stays"), "{words}");
            assert!(!words.contains("Nothing was stored"), "{words}");
        }
    }

    #[test]
    fn not_held_and_not_known_differ() {
        assert!(refusal(Refusal::NotHeld).starts_with("not held (11): "));
        let not_known = refusal(Refusal::NotKnown { sector: 3 });
        assert!(not_known.starts_with("not known (12): "));
        assert!(!not_known.contains("not held"));
    }

    #[test]
    fn where_the_doubt_is() {
        let why = Refusal::NotKnown { sector: 1_048_575 };
        let place = "Where: the first doubtful sector is 1048575, at byte 536870400 of the log; \
                     `skywimple list LOG` shows all of them. ";
        for words in [refusal(why), refusal_in_tree(why, None)] {
            assert!(words.contains(place), "{words}");
        }
        for why in Refusal::ALL {
            let words = refusal_in_tree(why, Some((13, &[7; 20])));
            assert_eq!(words.contains("Where: "), why.number() == 12, "{words}");
        }
    }

    #[test]
    fn any_refusal_has_words() {
        for why in Refusal::ALL {
            let sign = format!(" ({}): ", why.number());
            assert!(refusal(why).contains(&sign));
            assert!(refusal_in_tree(why, None).contains(&sign));
            assert!(refusal_in_tree(why, Some((13, &[7; 20]))).contains(&sign));
        }
    }

    #[test]
    fn no_advice_on_options_that_are_not_there() {
        let options = [
            (Refusal::NotHeld, "--type"),
            (Refusal::OverCount, "--count"),
        ];
        for (why, option) in options {
            assert!(refusal(why).contains(option));
            assert!(!refusal_in_tree(why, None).contains(option));
        }
    }

    #[test]
    fn a_full_log_near_the_limit() {
        let words = |sectors, used, needed| full("x.log", sectors, used, needed);
        assert!(words(10, 9, 2).contains("`truncate -s +1048576 x.log`"));
        assert!(words(10, 9, 2).contains("takes 2, and 1 are left"));
        let near = MOST_SECTORS - 3;
        assert!(words(near, near, 3).contains("`truncate -s +1536 x.log`"));
        for (sectors, used, needed) in [(near, near, 4), (MOST_SECTORS, MOST_SECTORS, 1)] {
            let words = words(sectors, used, needed);
            assert!(!words.contains("truncate"), "{words}");
            assert!(
                words.contains(&format!("more than {} sectors", limit())),
                "{words}"
            );
        }
        let past = refusal(Refusal::LogLength);
        assert!(
            past.contains(&format!("0 to {} of them", limit())),
            "{past}"
        );
    }

    #[test]
    fn a_block_to_fetch() {
        let why = Refusal::NotKnown { sector: 0 };
        let words = refusal_in_tree(why, Some((3, &[0x0a; 20])));
        let score = "0a".repeat(20);
        assert!(words.contains(&format!("get COPY {score} --type ptr1 > block")));
        assert!(words.contains("DO NOT READ THIS AS ABSENT"));
    }
}
