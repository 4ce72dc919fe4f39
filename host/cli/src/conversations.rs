//! `serve` on a disk that fails at any step: what is answered, and what is told.

use std::ffi::OsString;
use std::path::Path;

use boundary::sha1;

use crate::command;
use crate::failing::{blocks, check_blocks, marked, Folder};
use crate::faults::{self, every_fault, on_failing_disk, on_good_disk};
use crate::format::{sectors_of, PAYLOAD};
use crate::streams::Streams;

/// What comes behind each sync.
#[derive(Clone, Copy, PartialEq, Eq)]
enum Behind {
    /// The next write, or the end.
    Nothing,
    Ping,
}

/// Hello, then these blocks, each written and synced: each message with its reply.
fn conversation(blocks: &[Vec<u8>], behind: Behind) -> Vec<[Vec<u8>; 2]> {
    let hello = [0, 11, 4, 0, 0, 2, b'0', b'2', 0, 0, 0, 0, 0];
    let mut pairs = vec![[hello.to_vec(), vec![0, 6, 5, 0, 0, 0, 0, 0]]];
    for (tag, block) in (1..).zip(blocks) {
        let size = (block.len() as u16 + 6).to_be_bytes();
        let write = [&size[..], &[14, tag, 13, 0, 0, 0], block].concat();
        pairs.push([write, [&[0, 22, 15, tag], &sha1(block)[..]].concat()]);
        pairs.push([vec![0, 2, 16, tag], vec![0, 2, SYNCED, tag]]);
        if behind == Behind::Ping {
            pairs.push([vec![0, 2, 2, tag], vec![0, 2, 3, tag]]);
        }
    }
    pairs
}

/// The type of the reply to a sync.
const SYNCED: u8 = 17;

/// What comes of messages that are sent at once.
struct Served {
    status: u8,
    out: Vec<u8>,
    told: String,
}

fn serve(log: &Path, sent: &[u8]) -> Served {
    let words = [OsString::from("serve"), log.as_os_str().to_owned()];
    let (mut out, mut err) = (Vec::new(), Vec::new());
    let mut streams = Streams {
        input: &mut &sent[..],
        out: &mut out,
        err: &mut err,
        out_terminal: false,
        err_terminal: false,
        progress: false,
    };
    let status = command::run(&words, &mut streams);
    let told = String::from_utf8(err).unwrap();
    Served { status, out, told }
}

/// Where a disk fails under `serve` after its first answer, it is told which blocks may be lost.
#[test]
fn what_is_told_of_a_failure() {
    let [sent, _] = joined(&conversation(&[b"x".to_vec()], Behind::Nothing));
    every_fault(|step, how, lost| {
        let folder = Folder::with(0);
        let mut served = None;
        let failed = on_failing_disk(step, how, lost, || {
            served = Some(serve(&folder.log(), &sent));
        });
        let Served { status, out, told } = served.unwrap();
        assert_eq!(status, if failed { 74 } else { 0 }, "{told}");
        assert_eq!(told.contains("the disk failed"), failed, "{told}");
        let advice =
            told.ends_with("Store again what no sync was answered for: it may not be on disk.\n");
        assert_eq!(advice, failed && !out.is_empty(), "{told}");
        failed
    });
}

/// All messages, and all replies.
fn joined(pairs: &[[Vec<u8>; 2]]) -> [Vec<u8>; 2] {
    [0, 1].map(|side| pairs.iter().flat_map(|pair| &pair[side]).copied().collect())
}

/// Each sync is on disk before it is answered, also where several go there together: whatever fails, the replies are
/// a beginning of those that there are, and what an answered sync acknowledged is there, and marked. How often some
/// syncs were answered and not all.
fn answered_when_on_disk(blocks: &[Vec<u8>], behind: Behind) -> usize {
    let pairs = conversation(blocks, behind);
    let [sent, _] = joined(&pairs);
    let in_part = std::cell::Cell::new(0);
    every_fault(|step, how, lost| {
        let folder = Folder::new();
        let log = folder.log();
        on_good_disk(|| assert_eq!(folder.run("init", &["--sectors", "400"]), 0));
        let mut served = None;
        let failed = on_failing_disk(step, how, lost, || served = Some(serve(&log, &sent)));
        let Served { status, out, told } = served.unwrap();
        assert_eq!(status, if failed { 74 } else { 0 }, "{told}");
        let count = (0..=pairs.len()).find(|count| joined(&pairs[..*count])[1] == out);
        let answered = &pairs[..count.expect("other replies")];
        let syncs = answered.iter().filter(|pair| pair[1][2] == SYNCED).count();
        assert_eq!(
            failed,
            answered.len() < pairs.len(),
            "{step} {how:?} {lost:?}"
        );
        let end: usize = blocks[..syncs]
            .iter()
            .map(|block| sectors_of(block.len()))
            .sum();
        assert!(marked(&log) >= end, "{step} {how:?} {lost:?}");
        on_good_disk(|| check_blocks(&log, blocks, &(0..syncs).collect::<Vec<_>>()));
        in_part.set(in_part.get() + usize::from(0 < syncs && syncs < blocks.len()));
        failed
    });
    in_part.get()
}

#[test]
fn short_blocks() {
    assert_eq!(answered_when_on_disk(&blocks(), Behind::Nothing), 0);
    assert!(answered_when_on_disk(&blocks(), Behind::Ping) > 0);
}

/// More of them than may be on their way at once.
#[test]
fn long_blocks() {
    let blocks = [1, 2, 3].map(|seed| vec![seed; 100 * PAYLOAD]);
    assert_eq!(answered_when_on_disk(&blocks, Behind::Nothing), 0);
}

/// How often log and mark are synced for blocks of ten sectors. All of them are there at the end.
fn syncs_for(count: u8, behind: Behind) -> usize {
    let folder = Folder::new();
    let log = folder.log();
    let blocks: Vec<_> = (1..=count).map(|seed| vec![seed; 10 * PAYLOAD]).collect();
    let [sent, replies] = joined(&conversation(&blocks, behind));
    on_good_disk(|| {
        assert_eq!(folder.run("init", &["--sectors", "1000"]), 0);
        let before = faults::syncs();
        let Served { status, out, told } = serve(&log, &sent);
        assert_eq!((status, told.as_str()), (0, ""));
        assert!(out == replies);
        let syncs = faults::syncs() - before;
        assert_eq!(marked(&log), 10 * blocks.len());
        check_blocks(&log, &blocks, &(0..blocks.len()).collect::<Vec<_>>());
        syncs
    })
}

/// As many go to the disk at once as may wait, which are 25 of these blocks; and then one mark for all.
#[test]
fn syncs_without_end() {
    let opening = 2;
    for (blocks, parts) in [(1, 1), (25, 1), (26, 2), (100, 4)] {
        let syncs = syncs_for(blocks, Behind::Nothing);
        assert_eq!(syncs, opening + parts + 1, "{blocks}");
    }
}

/// A request that may take its time, and a message that has come in part, let no sync wait for its answer.
#[test]
fn other_requests_end_it() {
    assert_eq!(syncs_for(3, Behind::Ping), 2 + 2 * 3);
    let folder = Folder::with(0);
    let [sent, replies] = joined(&conversation(&blocks()[1..2], Behind::Nothing));
    let torn = [&sent[..], &[0, 9, 14]].concat();
    let served = on_good_disk(|| serve(&folder.log(), &torn));
    assert_eq!((served.status, served.out), (1, replies));
}
