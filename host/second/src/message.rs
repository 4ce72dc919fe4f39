//! Messages: their parts, the tests 1 to 10 with 24 among them, the replies.

use crate::edition::Edition;
use crate::kind::lawful;
use crate::log::{well_lent, MOST_DATA};
use crate::refusal::Refusal;
use crate::utf8::characters;
use crate::Score;

/// The least length of a reply buffer.
pub const LEAST_REPLY: usize = 57_348;
/// The most bytes of a text.
pub const MOST_TEXT: usize = 1024;

/// A session: open without a hello, open after one, or closed.
#[derive(Clone, Copy, Debug, PartialEq, Eq)]
pub enum Session {
    Fresh,
    Ready,
    Closed,
}

/// A request that passed the tests.
#[derive(Clone, Copy, Debug, PartialEq, Eq)]
pub enum Request<'a> {
    Hello,
    Ping,
    Goodbye,
    Sync,
    Read {
        kind: u8,
        score: Score,
        count: usize,
    },
    Write {
        /// In which a new block is written.
        edition: Edition,
        kind: u8,
        data: &'a [u8],
    },
}

/// A request whose body is well-formed.
enum Body<'a> {
    Hello {
        version: &'a [u8],
    },
    Ping,
    Goodbye,
    Sync,
    Read {
        kind: u8,
        score: Score,
        count: usize,
    },
    Write {
        kind: u8,
        data: &'a [u8],
    },
}

/// The lengths of what is lent as sectors.
#[derive(Clone, Copy, Debug, PartialEq, Eq)]
pub struct Lent {
    pub log: usize,
    /// None where no waiting part is lent: a block then goes to the log itself, settled at once.
    pub waiting: Option<usize>,
}

/// Tests 1 to 4, 24 and 5 to 10, in this order. No date lent is a request of the earlier program, which
/// has no test 24. Refusals 1 to 4 and 24 have no reply, all others an error reply.
pub fn accept<'a>(
    session: Session,
    message: &'a [u8],
    date: Option<&[u8]>,
    reply_len: usize,
    lent: Lent,
) -> Result<Request<'a>, u8> {
    if message.len() < 4 || number(&message[..2]) != message.len() - 2 {
        return Err(1);
    }
    if reply_len < LEAST_REPLY {
        return Err(2);
    }
    if !well_lent(lent.log, lent.waiting.unwrap_or(0)) {
        return Err(3);
    }
    if session == Session::Closed {
        return Err(4);
    }
    let edition = Edition::of(date)?;
    if ![2, 4, 6, 12, 14, 16].contains(&message[2]) {
        return Err(5);
    }
    let body = body(message[2], &message[4..]).ok_or(6)?;
    let needs_hello = !matches!(body, Body::Hello { .. } | Body::Goodbye);
    if needs_hello && session != Session::Ready {
        return Err(7);
    }
    match body {
        Body::Hello { version } if session == Session::Ready || version != b"02" => Err(8),
        Body::Read { kind, .. } | Body::Write { kind, .. } if !lawful(kind) => Err(9),
        Body::Write { data, .. } if data.len() > MOST_DATA => Err(10),
        Body::Hello { .. } => Ok(Request::Hello),
        Body::Ping => Ok(Request::Ping),
        Body::Goodbye => Ok(Request::Goodbye),
        Body::Sync => Ok(Request::Sync),
        Body::Read { kind, score, count } => Ok(Request::Read { kind, score, count }),
        Body::Write { kind, data } => Ok(Request::Write {
            edition,
            kind,
            data,
        }),
    }
}

/// The parts of a body, if it is well-formed.
fn body(request: u8, bytes: &[u8]) -> Option<Body<'_>> {
    match request {
        2 => bytes.is_empty().then_some(Body::Ping),
        4 => hello(bytes),
        6 => bytes.is_empty().then_some(Body::Goodbye),
        12 if bytes.len() == 24 && bytes[21] == 0 => {
            let mut score = [0; 20];
            score.copy_from_slice(&bytes[..20]);
            Some(Body::Read {
                kind: bytes[20],
                score,
                count: number(&bytes[22..24]),
            })
        }
        14 if bytes.len() >= 4 && bytes[1..4] == [0; 3] => Some(Body::Write {
            kind: bytes[0],
            data: &bytes[4..],
        }),
        16 => bytes.is_empty().then_some(Body::Sync),
        _ => None,
    }
}

/// version[s] uid[s] strength[1] crypto[n] codec[n]
fn hello(bytes: &[u8]) -> Option<Body<'_>> {
    let mut rest = bytes;
    let version = text(&mut rest)?;
    text(&mut rest)?;
    take(&mut rest, 1)?;
    for _ in 0..2 {
        let count = take(&mut rest, 1)?[0];
        take(&mut rest, usize::from(count))?;
    }
    rest.is_empty().then_some(Body::Hello { version })
}

/// A two-byte count and so many bytes, at most 1,024: characters, none of them NUL.
fn text<'a>(rest: &mut &'a [u8]) -> Option<&'a [u8]> {
    let count = number(take(rest, 2)?);
    let text = take(rest, count)?;
    (count <= MOST_TEXT && characters(text).is_some()).then_some(text)
}

fn take<'a>(rest: &mut &'a [u8], count: usize) -> Option<&'a [u8]> {
    if rest.len() < count {
        return None;
    }
    let (front, back) = rest.split_at(count);
    *rest = back;
    Some(front)
}

/// A big-endian number.
pub fn number(bytes: &[u8]) -> usize {
    bytes
        .iter()
        .fold(0, |number, &byte| number * 256 + usize::from(byte))
}

/// A whole message: size, type, tag, body.
pub fn whole(kind: u8, tag: u8, body: &[u8]) -> Vec<u8> {
    let size = body.len() as u16 + 2;
    let mut message = size.to_be_bytes().to_vec();
    message.push(kind);
    message.push(tag);
    message.extend(body);
    message
}

/// Whether a refused message gets no reply, and all that was lent stays as it was.
pub fn silent(number: u8) -> bool {
    number <= 4 || number == 24
}

/// The error reply of a refusal; none for 1 to 4 and 24.
pub fn refusal(refused: &Refusal, tag: u8) -> Vec<u8> {
    if silent(refused.number) {
        return Vec::new();
    }
    let text = refused.text();
    let mut body = (text.len() as u16).to_be_bytes().to_vec();
    body.extend(text.bytes());
    whole(1, tag, &body)
}

/// The reply to an accepted hello: an empty sid and two zero bytes.
pub fn hello_reply(tag: u8) -> Vec<u8> {
    whole(5, tag, &[0, 0, 0, 0])
}

pub fn ping_reply(tag: u8) -> Vec<u8> {
    whole(3, tag, &[])
}

pub fn sync_reply(tag: u8) -> Vec<u8> {
    whole(17, tag, &[])
}

pub fn read_reply(tag: u8, data: &[u8]) -> Vec<u8> {
    whole(13, tag, data)
}

pub fn write_reply(tag: u8, score: &Score) -> Vec<u8> {
    whole(15, tag, score)
}
