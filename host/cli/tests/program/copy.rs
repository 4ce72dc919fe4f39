//! `copy`: a tree or every sound block in another log; what stops it, and going on.

use std::os::unix::process::ExitStatusExt;

use crate::common::*;

/// A folder with a saved root over two files, one of them with a pointer block.
fn saved() -> (Place, String) {
    let place = Place::with_log(600);
    place.write("short", block(1, 900));
    place.write("long", block(2, 100_000));
    let root = place.run(&["save", "log", "short", "long"]).with(0).text();
    (place, root)
}

/// The type and score of each sound block of a log, in its order.
fn listed(place: &Place, log: &str) -> Vec<(String, String)> {
    let listed = place.run(&["list", log]).text();
    let words = listed.lines().map(|line| line.split_whitespace());
    let words: Vec<Vec<_>> = words.map(Iterator::collect).collect();
    words
        .iter()
        .filter(|words| words[1] != "doubtful")
        .map(|words| (words[1].to_string(), words[4].to_string()))
        .collect()
}

/// Fails unless the second log answers for each block as the first.
#[track_caller]
fn same_blocks(place: &Place, blocks: &[(String, String)]) {
    for (kind, score) in blocks {
        let get = |log: &str| place.run(&["get", log, score, "--type", kind]).with(0).out;
        assert_eq!(get("log"), get("log2"), "{kind} {score}");
    }
}

#[test]
fn a_copy_is_equal_and_again_adds_nothing() {
    let (place, root) = saved();
    let before = (place.file("log"), place.file("log.mark"));
    let copy = ["copy", "log", &root, "log2"];
    let walked = place.run(&["walk", "log", &root]).with(0).text();
    let visits = walked.lines().next().unwrap();
    let answer = place.run(&copy).with(0);
    let appended = used(&place.file("log2"));
    assert_eq!(answer.err, "");
    assert_eq!(answer.text(), format!("{visits}\nsectors={appended}\ndone"));
    assert_eq!((place.file("log"), place.file("log.mark")), before);
    assert_eq!(place.file("log2").len(), before.0.len());
    assert_eq!(place.file("log2.mark"), mark(600, appended).into_bytes());

    assert_eq!(place.run(&["walk", "log2", &root]).with(0).text(), walked);
    let blocks = listed(&place, "log");
    same_blocks(&place, &blocks);
    let copied = listed(&place, "log2");
    assert_eq!(copied.len(), blocks.len());
    assert_eq!(copied.last().unwrap(), &("root".to_string(), root.clone()));
    place.run(&["restore", "log2", &root, "there"]).with(0);
    assert_eq!(place.file("there/long"), block(2, 100_000));

    let second = place.file("log2");
    let again = place.run(&copy).with(0).text();
    assert_eq!(again, format!("{visits}\nsectors=0\ndone"));
    assert_eq!(place.file("log2"), second);
}

/// What LOG2 has already is not stored again, and its index is kept.
#[test]
fn a_log_that_has_some_of_it() {
    let (place, root) = saved();
    place.run(&["init", "log2", "--sectors", "700"]).with(0);
    place.run(&["put", "log2", "short"]).with(0);
    let whole = used(&place.file("log"));
    place.run(&["copy", "log", &root, "log2"]).with(0);
    assert_eq!(used(&place.file("log2")), whole);
    let blocks = listed(&place, "log").len();
    let count = format!("count={blocks:08x}\n").into_bytes();
    for index in ["log.index", "log2.index"] {
        let index = place.file(index);
        assert!(index.windows(count.len()).any(|line| line == count));
    }
}

#[test]
fn damage_in_the_first_log() {
    let (place, root) = saved();
    let blocks = listed(&place, "log");
    let sector = 3 + 10; // the short file has three sectors, then comes the long one
    place.damage(|log| log[sector * SECTOR + 300] ^= 1);
    let answer = place.run(&["copy", "log", &root, "log2"]).with(12);
    let text = answer.text();
    assert!(text.contains("type=data\n"), "{text}");
    assert!(text.ends_with("first_doubtful=3"), "{text}");
    assert!(
        answer.err.contains("copying stopped at visit "),
        "{answer:?}"
    );
    assert!(answer.err.contains("not known (12)"), "{answer:?}");
    // What was copied before stays, and is sound.
    let copied = listed(&place, "log2");
    assert!(!copied.is_empty() && copied.len() < blocks.len());
    same_blocks(&place, &copied);
    place.run(&["report", "log2"]).with(0);
    place.run(&["walk", "log2", &root]).with(11);
    // Once the file is stored again, the copy goes on.
    place.run(&["put-file", "log", "long"]).with(0);
    place.run(&["copy", "log", &root, "log2"]).with(0);
    place.run(&["walk", "log2", &root]).with(0);
    assert_eq!(listed(&place, "log2").len(), blocks.len());
}

#[test]
fn a_full_second_log() {
    let (place, root) = saved();
    place.run(&["init", "log2", "--sectors", "160"]).with(0);
    let copy = ["copy", "log", &root, "log2"];
    let answer = place.run(&copy).with(14);
    assert!(answer.err.contains("log2: log full (14)"), "{answer:?}");
    assert!(answer.err.contains("stored before it stays"), "{answer:?}");
    assert!(
        answer.err.contains("`truncate -s +1048576 log2`"),
        "{answer:?}"
    );
    let copied = listed(&place, "log2");
    assert!(!copied.is_empty());
    same_blocks(&place, &copied);
    let mut longer = place.file("log2");
    longer.resize(longer.len() + 1_048_576, 0);
    place.write("log2", longer);
    place.run(&copy).with(0);
    place.run(&["walk", "log2", &root]).with(0);
}

/// Copies a root to a log that is made so, and is killed at each step of the writing, with any sectors of what
/// was not synced on disk: a root that is there has all below it, and the next run goes on. How many steps.
fn killed_at_each_step(place: &Place, root: &str, make: impl Fn()) -> usize {
    let library = place.preload("stop");
    let copy = ["copy", "log", root, "log2"];
    let stopped = |step: usize, seed: usize| {
        for name in ["log2", "log2.mark", "log2.index"] {
            let _ = std::fs::remove_file(place.path(name));
        }
        make();
        let mut command = place.command(&copy);
        command.env("LD_PRELOAD", &library);
        command.env("STOP_AT", step.to_string());
        command.env("STOP_SEED", seed.to_string());
        let ended = command.output().unwrap().status;
        if !ended.success() {
            assert_eq!(ended.signal(), Some(9));
            let held = place.run(&["get", "log2", root, "--type", "root"]).status;
            let walked = place.run(&["walk", "log2", root]).status;
            assert_eq!(walked, held, "step {step}, seed {seed}");
            place.run(&copy).with(0);
        }
        !ended.success()
    };
    let seeds = |step: usize| (1..4).all(|seed| stopped(step, step * 7 + seed));
    (0..).find(|step| !seeds(*step)).unwrap()
}

/// In a blank log, and in one that is used.
#[test]
fn killed_and_run_again() {
    let (place, root) = saved();
    let blank = || place.run(&["init", "log2", "--sectors", "600"]).with(0);
    let steps = killed_at_each_step(&place, &root, || drop(blank()));
    assert!(steps > 6, "{steps}");
    place.write("other", block(9, 900));
    let steps = killed_at_each_step(&place, &root, || {
        blank();
        place.run(&["put", "log2", "other"]).with(0);
    });
    assert!(steps > 6, "{steps}");
}

/// In a second round, which finds the log used by the first.
#[test]
fn killed_in_a_second_round() {
    let place = Place::with_log(600);
    let root = wide(&place, &block(1, 320), 5000);
    let steps = killed_at_each_step(&place, &root, || {
        place.run(&["init", "log2", "--sectors", "600"]).with(0);
    });
    assert!(steps > 12, "{steps}");
}

/// Every sound block is copied, and the damage stays behind: what was never stored is "not known" in the
/// one, also after all was stored again, and "not held" in the other.
#[test]
fn all_leaves_damage_behind() {
    let (place, root) = saved();
    place.damage(|log| log[SECTOR + 300] ^= 1); // in the short file
    let never = score(b"never stored");
    let lost = place.run(&["copy", "--all", "log", "some"]).with(32);
    assert!(lost.text().ends_with("doubtful=3\ndone"), "{lost:?}");
    assert!(lost.err.contains("left behind: 3."), "{lost:?}");
    place.run(&["walk", "some", &root]).with(11);

    place.run(&["put-file", "log", "short"]).with(0);
    place.run(&["walk", "log", &root]).with(0);
    place.run(&["get", "log", &never]).with(12);
    let answer = place.run(&["copy", "--all", "log", "log2"]).with(32);
    let blocks = listed(&place, "log");
    let (count, appended) = (blocks.len(), used(&place.file("log2")));
    let told = format!("blocks={count}\nsectors={appended}\ndoubtful=3\ndone");
    assert_eq!(answer.text(), told);
    assert_eq!(listed(&place, "log2"), blocks);
    same_blocks(&place, &blocks);
    place.run(&["walk", "log2", &root]).with(0);
    place.run(&["get", "log2", &never]).with(11);
    place.run(&["report", "log2"]).with(0);

    let again = place.run(&["copy", "--all", "log2", "log3"]).with(0);
    assert!(again.text().ends_with("doubtful=0\ndone"), "{again:?}");
    let again = place.run(&["copy", "log2", "log3", "--all"]).with(0);
    assert!(again.text().contains("sectors=0\n"), "{again:?}");
    place.run(&["init", "small", "--sectors", "150"]).with(0); // the first block has 148
    let full = ["copy", "--all", "log2", "small"];
    place.run(&full).fails(14, "small: log full (14)");
    assert!(!listed(&place, "small").is_empty());
}

#[test]
fn allowances_and_words() {
    let (place, root) = saved();
    let copy = |words: &[&str]| place.run(&[&["copy"], words].concat());
    let answer = copy(&["log", &root, "log2", "--allowance", "3"]).with(21);
    assert!(answer.text().starts_with("visits=3\n"), "{answer:?}");
    assert!(answer.err.contains("allowance used up (21)"), "{answer:?}");
    let large = ["log", &root, "log3", "--allowance", "1000001"];
    copy(&large).fails(23, "allowance too large (23)");
    copy(&["log", &root, "log3", "--allowance", "0"]).with(21);
    assert!(!place.path("log3").exists());
    let never = score(b"never stored");
    let answer = copy(&["log", &never, "log3"]).with(11);
    assert!(answer.err.contains("at visit 1, at the root block"));
    assert!(answer.err.contains("not held (11)"), "{answer:?}");
    let odd = place.put_as("root", b"no root");
    let answer = copy(&["log", &odd, "log3"]).with(16);
    assert!(answer.err.contains("ill-formed entry or root (16)"));
    assert!(!place.path("log3").exists());
    let mut below = place.put_as("dir", &[0; 40]);
    for _ in 0..17 {
        let entry = format!("0000000000280028030000000000{:012x}{below}", 40);
        below = place.put_as("dir", &saved::unhex(&entry));
    }
    let mut deep = vec![0; 300];
    deep[1] = 2;
    deep[258..278].copy_from_slice(&saved::unhex(&below));
    let deep = place.put_as("root", &deep);
    let answer = copy(&["log", &deep, "log2"]).with(20);
    assert!(answer.err.contains("nested too deep (20)"), "{answer:?}");
    place.run(&["report", "log2"]).with(0);

    copy(&["log", &root]).fails(64, "LOG2 is missing");
    copy(&["log"]).fails(64, "LOG2 is missing");
    copy(&["--all", "log", &root, "log2"]).fails(64, "and no root");
    copy(&["log", &root, "log"]).fails(64, "the same file");
    copy(&["--all", "log", "log2", "--allowance", "3"]).fails(64, "--all has no --allowance");
    copy(&["none", &root, "log3"]).fails(66, "no such log");
    assert!(!place.path("log3").exists());
    let server = place.greeted(&[]);
    copy(&["log", &root, "log2"]).with(0);
    copy(&["log2", &root, "log"]).fails(75, "another writer holds log");
    drop(server);
}

/// `--adopt` is for the log that is written: the other one is only read, and gets no mark.
#[test]
fn adopt_is_for_the_second_log() {
    let (place, root) = saved();
    let copies = [
        &["log", &root, "log2", "--adopt"][..],
        &["--all", "log", "log2", "--adopt"],
    ];
    for words in copies {
        let copy = || place.run(&[&["copy"], words].concat());
        copy().with(0);
        std::fs::remove_file(place.path("log2.mark")).unwrap();
        let answer = copy().with(0);
        assert!(answer.err.contains("adopted log2 as it is"), "{answer:?}");
        let mark = place.file("log.mark");
        for damage in [None, Some("damaged")] {
            std::fs::remove_file(place.path("log.mark")).unwrap();
            if let Some(damage) = damage {
                place.write("log.mark", damage);
            }
            let status = if damage.is_some() { 65 } else { 66 };
            copy().fails(status, "with `skywimple report log --adopt`");
            assert_eq!(place.path("log.mark").exists(), damage.is_some());
            place.write("log.mark", &mark);
        }
    }
}

/// A root over one file of so many leaves, all of them one block.
fn wide(place: &Place, leaf: &[u8], leaves: usize) -> String {
    let leaf = saved::unhex(&place.put(leaf));
    let low = place.put_as("ptr1", &leaf.repeat(2500));
    let low = saved::unhex(&low).repeat(leaves / 2500);
    let top = place.put_as("ptr2", &low);
    let size = leaves * 320;
    let file = format!("00000000c35001400900000000{size:014x}{top}");
    let directory = place.put_as("dir", &saved::unhex(&file));
    let mut root = vec![0; 300];
    root[1] = 2;
    root[258..278].copy_from_slice(&saved::unhex(&directory));
    place.put_as("root", &root)
}

/// More visits than a round has: the answers are those of one copy.
#[test]
fn several_rounds() {
    let place = Place::with_log(600);
    let root = wide(&place, &block(1, 320), 20_000);
    let visits = 20_000 + 8 + 3;
    let copy = |allowance: usize| {
        let allowance = allowance.to_string();
        place.run(&["copy", "log", &root, "log2", "--allowance", &allowance])
    };
    for allowance in [4095, 4096, 4097, 16_385, visits - 1] {
        let answer = copy(allowance).with(21);
        let told = format!("visits={allowance}\ntype=");
        assert!(answer.text().starts_with(&told), "{answer:?}");
    }
    let answer = copy(visits).with(0);
    let told = format!("visits={visits}\nsectors=");
    assert!(answer.text().starts_with(&told), "{answer:?}");
    assert_eq!(listed(&place, "log2").len(), 5);
}

/// A block of the same score with other bytes in the second log: 15 there, and --all goes on with the rest,
/// but is not done.
#[test]
fn a_clash_in_the_second_log() {
    let [one, other] = collision();
    let place = Place::with_log(600);
    let root = wide(&place, &one, 2500);
    place.run(&["init", "log2", "--sectors", "600"]).with(0);
    place.write("other", &other);
    place.run(&["put", "log2", "other"]).with(0);
    let before = place.file("log2");
    let answer = place.run(&["copy", "log", &root, "log2"]).with(15);
    assert!(answer.err.contains("log2: clash (15)"), "{answer:?}");
    assert_eq!(place.file("log2"), before);
    let all = ["copy", "--all", "log", "log2"];
    let answer = place.run(&all).with(15);
    assert!(answer.err.contains("log2: clash (15)"), "{answer:?}");
    let appended = used(&place.file("log2")) - used(&before);
    let told = format!("blocks=4\nsectors={appended}\ndoubtful=0");
    assert_eq!(answer.text(), told, "not the refused block, and not done");
    assert_eq!(listed(&place, "log2").len(), 5);
    // Doubtful sectors besides: the clash decides the status.
    let end = used(&place.file("log"));
    place.damage(|log| log[(end - 1) * SECTOR + 300] ^= 1); // in the root
    let answer = place.run(&all).with(15);
    assert_eq!(answer.text(), "blocks=3\nsectors=0\ndoubtful=1");
    assert!(answer.err.contains("log2: clash (15)"), "{answer:?}");
    assert!(answer.err.contains("left behind: 1."), "{answer:?}");
    assert_eq!(place.run(&["get", "log2", &score(&one)]).with(0).out, other);
}
