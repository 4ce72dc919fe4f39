//! `walk`: visits every block below a root.

use std::time::{Duration, Instant};

use boundary::{walk, Refusal};

use crate::arguments::Arguments;
use crate::clock;
use crate::format::{kind_name, Score};
use crate::hex;
use crate::reader;
use crate::session::Client;
use crate::status::{Failure, DONE};
use crate::streams::Streams;
use crate::trail::{self, Stop, Trail};
use crate::words;

/// The most visits a walk may be allowed, and the usual allowance.
pub const ALLOWANCE: u64 = 1_000_000;

pub fn run(arguments: &Arguments, streams: &mut Streams) -> Result<u8, Failure> {
    let score = arguments.score(1)?;
    let allowance = arguments.number("--allowance")?.unwrap_or(ALLOWANCE);
    let mut log = reader::read(arguments.path(0), arguments.flag("--adopt"), streams)?;
    let mut trail = None;
    let walked = if streams.err_terminal {
        clock::with_clock("walking", |told| {
            trail = follow(&log, &score, allowance);
            if let Some(time) = trail.as_ref().and_then(|trail| estimate(&mut log, trail)) {
                told.expect(time);
            }
            walk(&log, &[], &score, allowance)
        })
    } else {
        walk(&log, &[], &score, allowance)
    };
    let visits = walked.visits;
    let Err(refusal) = walked.outcome else {
        streams.answer(format!("visits={visits}\ndone\n").as_bytes())?;
        return Ok(DONE);
    };
    let trail = trail.or_else(|| follow(&log, &score, allowance));
    let stop = trail.filter(|trail| trail.walked == walked);
    let stop = stop.map(|trail| trail.at);
    refused("walking", refusal, visits, stop, streams)
}

/// The trail of a walk. None where more visits are asked for than any walk has: that is refused at
/// once, and the trail might go on for ever.
pub fn follow(log: &[u8], score: &Score, allowance: u64) -> Option<Trail> {
    match allowance {
        0..=ALLOWANCE => trail::follow(log, score, allowance),
        _ => None,
    }
}

/// Names the block that was refused, where it is, and where the doubt begins.
pub fn refused(
    doing: &str,
    refusal: Refusal,
    visits: u64,
    stop: Option<Stop>,
    streams: &mut Streams,
) -> Result<u8, Failure> {
    let mut answer = format!("visits={visits}\n");
    let mut at = format!("{doing} stopped at visit {visits}");
    if let Some(Stop { kind, score, place }) = &stop {
        let (kind, score) = (kind_name(*kind), hex::encode(score));
        answer += &format!("type={kind}\nscore={score}\n");
        at += &format!(", at the {kind} block {score} ({place})");
    }
    if let Some(first) = refusal.first_doubtful() {
        answer += &format!("first_doubtful={first}\n");
    }
    streams.answer(answer.as_bytes())?;
    let block = stop.as_ref().map(|stop| (stop.kind, &stop.score));
    let words = words::refusal_in_tree(refusal, block);
    Err(Failure::new(refusal.number(), format!("{at}: {words}")))
}

/// About how long the walk takes. It is the scans that take the time: each visit looks through all
/// sectors before its block. So the scan for the block that is farthest is measured.
fn estimate(log: &mut [u8], trail: &Trail) -> Option<Duration> {
    let (sector, kind, score): (usize, u8, Score) = trail.farthest?;
    let mut client = Client::greet(log).ok()?;
    let mut look_up = || {
        let start = Instant::now();
        let found = client.read(log, kind, &score, u16::MAX).is_ok();
        found.then(|| start.elapsed())
    };
    let time = look_up()?.min(look_up()?);
    Some(time.mul_f64(trail.passed as f64 / sector.max(1) as f64))
}
