//! Where the doubt is: each command that looks at a damaged log names its first doubtful sector.

use std::process::Command;

use crate::common::*;

/// A log of 60 sectors: one-sector blocks in 0 to 41, a root in 42, a directory in 43 and 44. Gives the
/// scores of the root and of the last one-sector block.
fn log() -> (Place, String, String) {
    let place = Place::with_log(60);
    let mut last = String::new();
    for seed in 0..42 {
        last = place.put(&block(seed, 100));
    }
    let mut file = [0; 40];
    file[5] = 40;
    file[7] = 100;
    file[8] = 1;
    file[19] = 100;
    file[20..].copy_from_slice(&boundary::sha1(&block(41, 100)));
    let directory = file.repeat(12);
    let mut root = vec![0; 300];
    root[1] = 2;
    root[258..278].copy_from_slice(&boundary::sha1(&directory));
    let root = place.put_as("root", &root);
    place.put_as("dir", &directory);
    (place, root, last)
}

const PLACE: &str = "the first doubtful sector is 41, at byte 20992 of the log";

#[test]
fn every_command_names_it() {
    let (place, root, last) = log();
    assert_eq!(
        place.run(&["walk", "log", &root]).with(0).text(),
        "visits=14\ndone"
    );
    place.damage(|log| {
        log[41 * SECTOR + 200] ^= 1;
        log[50 * SECTOR] = 1;
    });
    place.not_known_at(&last, 41);
    place.not_known_at(&score(b"never stored"), 41);
    let advice = "Ask a copy of the log, or restore those sectors from it while no writer runs; \
                  storing the block again (`skywimple put`) heals it.";
    place.get(&last).fails(12, advice);

    let answer = place.run(&["walk", "log", &root]).with(12);
    assert!(answer.text().ends_with("\nfirst_doubtful=41"), "{answer:?}");
    assert!(answer.err.contains(PLACE), "{answer:?}");
    let entry = format!("0000000000280064010000000000{:012x}{last}", 100);
    place.run(&["read", "log", &entry]).fails(12, PLACE);

    let answer = place.run(&["report", "log"]).with(32);
    assert!(
        answer.err.starts_with(&format!("skywimple: {PLACE}")),
        "{answer:?}"
    );
    let json = place.run(&["report", "log", "--json"]).with(32).text();
    assert!(json.ends_with(r#","first_doubtful":41}"#), "{json}");
    let list = place.run(&["list", "log"]).with(32).text();
    let runs: Vec<_> = list
        .lines()
        .filter(|line| line.contains("doubtful"))
        .collect();
    let expected = [
        "      41  doubtful      1  sectors, from byte 20992 on",
        "      45  doubtful      6  sectors, from byte 23040 on",
    ];
    assert_eq!(runs, expected);

    let sent = [HELLO.to_vec(), read_message(9, &block(41, 100))].concat();
    let served = place.feed(&["serve", "log"], &sent).with(0).out;
    assert_eq!(served[HELLO_REPLY.len()..], not_known_reply(9, 41));
    // Also where the log is lent no further than its used part.
    let served = place
        .feed(&["serve", "log", "--read-only"], &sent)
        .with(0)
        .out;
    assert_eq!(served[HELLO_REPLY.len()..], not_known_reply(9, 41));
}

/// The command that `list --help` gives, for each doubtful run.
#[test]
fn doubtful_runs_restored_from_a_copy() {
    let (place, _, last) = log();
    place.write("copy", place.file("log"));
    place.damage(|log| {
        log[41 * SECTOR + 200] ^= 1;
        log[3 * SECTOR..6 * SECTOR].fill(0);
    });
    place.not_known_at(&last, 3);
    let help = place.run(&["list", "--help"]).with(0).text();
    let line = help
        .lines()
        .find(|line| line.contains("dd if=COPY"))
        .unwrap();
    for (sector, count) in [("3", "3"), ("41", "1")] {
        let line = line.replace("SECTOR", sector).replace("COUNT", count);
        let line = line.replace("COPY", "copy").replace("LOG", "log");
        let mut shell = Command::new("sh");
        shell.args(["-eu", "-c", &line]).current_dir(&place.folder);
        let output = shell.output().unwrap();
        assert!(output.status.success(), "{output:?}");
        if sector == "3" {
            place.not_known_at(&last, 41);
        }
    }
    assert_eq!(place.file("log"), place.file("copy"));
    place.reads(&last, &block(41, 100));
    place.run(&["report", "log"]).with(0);
}
