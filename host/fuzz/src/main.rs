//! Compares an archive with the second program and with the ledger, on random histories, hostile
//! logs, trees and their copies, calls, cards, what changed between two trees, files to be written, and
//! look-ups by index.
//!
//! `fuzz --help` says what it takes. A case is a history with damage, and a hostile log, a tree,
//! some calls, cards, pairs of trees and files besides.

mod archive;
mod broken;
mod calls;
mod cards;
mod changes;
mod collision;
mod compare;
mod crash;
mod damage;
#[cfg(test)]
mod dated;
mod dates;
#[cfg(test)]
mod examples;
mod growing_log;
mod history;
mod hostile;
mod indexes;
mod known;
mod large;
mod messages;
mod plain_log;
mod progress;
mod random;
mod sham_cards;
mod sham_changes;
mod sham_copy;
mod sham_dates;
mod sham_doubt;
mod sham_index;
mod sham_known;
mod sham_ledger;
mod sham_texts;
mod sham_tools;
mod sham_trees;
mod sham_waiting;
mod sham_writer;
mod shams;
mod shape;
#[cfg(test)]
mod texts;
mod tree_pairs;
mod trees;
mod under_test;
#[cfg(test)]
mod waiting;
mod writing;
#[cfg(test)]
mod written;

use std::panic::{catch_unwind, AssertUnwindSafe};
use std::process::ExitCode;
use std::time::{Duration, Instant};

use archive::Archive;
use compare::{Compare, Trace};
use progress::Progress;
use random::Random;
use shams::{Broken, Sham};

const HELP: &str = "\
fuzz [--seed S] [--cases N] [--seconds T] [--case I] [--only PART] [--plain | --sham NAME | --shams]

Compares an archive with the second program and with the ledger: random histories with damage,
hostile logs, trees and their copies, calls, cards, what changed between two trees, files to be written;
with blocks of both editions, and with any bytes lent as an index.
A case that fails is printed step by step, with the words that repeat it, and the status is 1.
  --seed S     the random numbers' seed (default 1)
  --cases N    how many cases (default 20000)
  --seconds T  no case is begun after so many seconds
  --case I     this case alone
  --only PART  this part of each case alone: PARTS
  --plain      the ordinary log of the speed comparison in place of the proved archive
  --sham NAME  an archive with a broken rule in its place
  --shams      shows that each of those is caught
  --help       prints this
";

/// A part of a case.
type Part = fn(&mut dyn Archive, &mut Compare, &mut Random, &mut Trace) -> Result<(), String>;

/// The parts, each with its name and of how many cases the last has one.
const PARTS: [(&str, u64, Part); 10] = [
    ("history", 1, history::run),
    ("hostile", 1, hostile::run),
    ("tree", 2, trees::run),
    ("calls", 1, calls::run),
    ("cards", 2, cards::run),
    ("changes", 2, changes::run),
    ("writer", 3, writing::run),
    ("index", 1, indexes::run),
    ("large", 500, large::run),
    ("limits", 5_000, calls::limits),
];

struct Options {
    seed: u64,
    cases: u64,
    seconds: u64,
    case: Option<u64>,
    only: Option<String>,
    plain: bool,
    sham: Option<Broken>,
    shams: bool,
    help: bool,
}

fn options() -> Result<Options, String> {
    let mut options = Options {
        seed: 1,
        cases: 20_000,
        seconds: u64::MAX,
        case: None,
        only: None,
        plain: false,
        sham: None,
        shams: false,
        help: false,
    };
    let mut words = std::env::args().skip(1);
    while let Some(word) = words.next() {
        let mut value = || words.next().ok_or(format!("{word} needs a value"));
        let number = |text: String| text.parse().map_err(|_| format!("{text} is no number"));
        match word.as_str() {
            "--seed" => options.seed = number(value()?)?,
            "--cases" => options.cases = number(value()?)?,
            "--seconds" => options.seconds = number(value()?)?,
            "--case" => options.case = Some(number(value()?)?),
            "--only" => {
                let name = value()?;
                if PARTS.iter().all(|part| part.0 != name) {
                    return Err(format!("no part is called {name}"));
                }
                options.only = Some(name);
            }
            "--plain" => options.plain = true,
            "--sham" => {
                let name = value()?;
                let named = |broken: &&Broken| format!("{broken:?}") == name;
                let sham = shams::ALL.iter().find(named);
                options.sham = Some(*sham.ok_or(format!("no sham is called {name}"))?);
            }
            "--shams" => options.shams = true,
            "--help" | "-h" => options.help = true,
            _ => return Err(format!("{word} isn't known")),
        }
    }
    Ok(options)
}

/// What went wrong, in which case and part.
struct Failure {
    case: u64,
    part: &'static str,
    steps: Vec<String>,
    message: String,
}

/// Runs one case; a part that fails is run again for its steps.
fn case(
    archive: &mut dyn Archive,
    compare: &mut Compare,
    options: &Options,
    case: u64,
) -> Result<(), Failure> {
    for (index, (name, every, part)) in PARTS.iter().enumerate() {
        let wanted = match &options.only {
            Some(only) => only == name,
            None => (case + 1).is_multiple_of(*every),
        };
        if !wanted {
            continue;
        }
        let mut run = |on| {
            let mut random = Random::new(&[options.seed, case, index as u64]);
            let mut trace = Trace {
                on,
                steps: Vec::new(),
            };
            let part = || part(archive, compare, &mut random, &mut trace);
            let result = catch_unwind(AssertUnwindSafe(part)).unwrap_or_else(|_| {
                compare.restore();
                Err("a panic".to_string())
            });
            (result, trace.steps)
        };
        if let (Err(message), _) = run(false) {
            let (again, steps) = run(true);
            let message = match again {
                Err(same) if same == message => message,
                _ => format!("{message}; not so when the case is run again"),
            };
            return Err(Failure {
                case,
                part: name,
                steps,
                message,
            });
        }
    }
    Ok(())
}

/// Runs cases until one fails, the count is reached or time is up. Gives how many passed.
fn cases(
    archive: &mut dyn Archive,
    compare: &mut Compare,
    options: &Options,
) -> (u64, Option<Failure>) {
    let start = Instant::now();
    let first = options.case.unwrap_or(0);
    let last = options.case.map_or(options.cases, |case| case + 1);
    let mut progress = Progress::new();
    for number in first..last {
        progress.show(number - first, last - first);
        if start.elapsed() >= Duration::from_secs(options.seconds) {
            return (number - first, None);
        }
        if let Err(failure) = case(archive, compare, options, number) {
            return (number - first, Some(failure));
        }
    }
    (last - first, None)
}

fn test(options: &Options) -> bool {
    let mut compare = Compare::new();
    let start = Instant::now();
    let mut archive: Box<dyn Archive> = match options.sham {
        Some(broken) => Box::new(Sham::new(broken)),
        None if options.plain => Box::new(plain_log::PlainLog),
        None => under_test::archive(),
    };
    let (passed, failure) = cases(&mut *archive, &mut compare, options);
    let seconds = start.elapsed().as_secs_f64();
    println!(
        "{passed} cases passed in {seconds:.1} s, {:.0} a second",
        passed as f64 / seconds
    );
    println!("answers to requests: {}", tally(&compare.requests));
    println!("answers to calls:    {}", tally(&compare.calls));
    let Some(failure) = failure else {
        return true;
    };
    println!("FAILED in the part {}:", failure.part);
    for (i, step) in failure.steps.iter().enumerate() {
        println!("  {i}. {step}");
    }
    println!("  then {}", failure.message);
    let which = match options.sham {
        Some(broken) => format!(" --sham {broken:?}"),
        None if options.plain => " --plain".to_string(),
        None => String::new(),
    };
    println!(
        "repeat with: fuzz --seed {} --case {} --only {}{which}",
        options.seed, failure.case, failure.part
    );
    false
}

fn tally(counts: &[u64; 27]) -> String {
    let seen = counts.iter().enumerate().filter(|(_, count)| **count > 0);
    let words: Vec<String> = seen.map(|(n, count)| format!("{n}:{count}")).collect();
    words.join(" ")
}

/// Shows after how many cases each sham is caught.
fn shams(options: &Options) -> bool {
    let mut all = true;
    for &broken in shams::ALL {
        let mut sham = Sham::new(broken);
        let (passed, failure) = cases(&mut sham, &mut Compare::new(), options);
        match failure {
            Some(failure) => println!(
                "{:27} caught in case {}, {}: {}",
                format!("{broken:?}"),
                passed + 1,
                failure.part,
                failure.message
            ),
            None => {
                println!("{:27} NOT caught in {passed} cases", format!("{broken:?}"));
                all = false;
            }
        }
    }
    all
}

fn main() -> ExitCode {
    let options = match options() {
        Ok(options) => options,
        Err(message) => {
            eprintln!("fuzz: {message}. `fuzz --help` says what it takes.");
            return ExitCode::from(2);
        }
    };
    if options.help {
        let parts = PARTS.map(|part| part.0).join(", ");
        print!("{}", HELP.replace("PARTS", &parts));
        return ExitCode::SUCCESS;
    }
    let good = if options.shams {
        shams(&options)
    } else {
        test(&options)
    };
    if good {
        ExitCode::SUCCESS
    } else {
        ExitCode::FAILURE
    }
}

#[cfg(test)]
mod tests {
    use super::*;

    fn few(cases: u64) -> Options {
        Options {
            seed: 1,
            cases,
            seconds: u64::MAX,
            case: None,
            only: None,
            plain: false,
            sham: None,
            shams: false,
            help: false,
        }
    }

    #[test]
    fn the_archive_passes() {
        assert!(test(&few(300)));
    }

    #[test]
    fn the_plain_log_passes() {
        let mut options = few(300);
        options.plain = true;
        assert!(test(&options));
    }

    #[test]
    fn the_shams_are_caught() {
        assert!(shams(&few(3000)));
    }
}
