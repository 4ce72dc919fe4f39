//! The opening line, `venti-VERSIONS-COMMENT`, which server and client send each other before any
//! message. It is asked for by `serve --handshake` alone.

use std::io::{self, Read};
use std::path::Path;
use std::process;
use std::sync::mpsc::{self, Receiver, RecvTimeoutError};
use std::thread;
use std::time::Duration;

use crate::same;
use crate::status::{Failure, PROTOCOL};
use crate::streams::Streams;

const OURS: &[u8] = b"venti-02-skywimple\n";
const VERSION: &[u8] = b"02";
/// The most bytes that the client's line may have, with its end, and the time that it may take.
const LONGEST: usize = 1024;
const LIMIT: Duration = Duration::from_secs(5);

/// Sends our line, waits for the client's, and fails unless it names our version.
pub fn exchange(streams: &mut Streams) -> Result<(), Failure> {
    streams.answer(OURS)?;
    let (done, ended) = mpsc::channel();
    let line = thread::scope(|scope| {
        let watch = thread::Builder::new().spawn_scoped(scope, || watch(ended));
        let line = watch.and_then(|_| line(streams.input));
        drop(done);
        line
    });
    let line = line.map_err(|e| Failure::disk("read", Path::new("standard input"), &e))?;
    accept(&line)
}

/// Ends the program where the line takes too long. Nothing is opened or locked yet.
fn watch(ended: Receiver<()>) {
    if ended.recv_timeout(LIMIT) == Err(RecvTimeoutError::Timeout) {
        let seconds = LIMIT.as_secs();
        if !same::socket() {
            eprintln!("skywimple: the client's opening line did not come within {seconds} s");
        }
        process::exit(i32::from(PROTOCOL));
    }
}

/// Bytes up to a line's end, or as many as a line may have.
fn line(input: &mut dyn Read) -> io::Result<Vec<u8>> {
    let mut line = Vec::new();
    while line.len() < LONGEST && line.last() != Some(&b'\n') {
        if input.take(1).read_to_end(&mut line)? == 0 {
            break;
        }
    }
    Ok(line)
}

fn accept(line: &[u8]) -> Result<(), Failure> {
    let refused = |words: String| Err(Failure::new(PROTOCOL, words));
    let Some(text) = line.strip_suffix(b"\n") else {
        return refused(match line.len() {
            LONGEST => format!("the client's opening line has more than {LONGEST} bytes"),
            _ => "the input ended inside the client's opening line".to_string(),
        });
    };
    let mut fields = text.splitn(3, |byte| *byte == b'-');
    let (Some(b"venti"), Some(versions), Some(_)) = (fields.next(), fields.next(), fields.next())
    else {
        return refused(format!(
            "the client's opening line is not venti-VERSIONS-COMMENT: {}",
            String::from_utf8_lossy(text)
        ));
    };
    if versions.split(|byte| *byte == b':').any(|v| v == VERSION) {
        return Ok(());
    }
    refused(format!(
        "the client speaks no version 02, but {}",
        String::from_utf8_lossy(versions)
    ))
}

#[cfg(test)]
mod tests {
    use super::*;

    #[test]
    fn lines_that_name_our_version() {
        for good in ["venti-02-x\n", "venti-02-\n", "venti-04:02-a-b\n"] {
            assert!(accept(good.as_bytes()).is_ok(), "{good}");
        }
        let bad = [
            "",
            "\n",
            "venti-02-x",
            "venti-02\n",
            "venti--\n",
            "venti-04-x\n",
            "venti-0202-x\n",
            "venti-2-02\n",
            "Venti-02-x\n",
            "xventi-02-x\n",
            "venti:02:x\n",
        ];
        for bad in bad {
            assert_eq!(
                accept(bad.as_bytes()).unwrap_err().status,
                PROTOCOL,
                "{bad}"
            );
        }
    }

    #[test]
    fn no_more_is_read_than_the_line() {
        let mut input = &b"venti-02-x\nrest"[..];
        assert_eq!(line(&mut input).unwrap(), b"venti-02-x\n");
        assert_eq!(input, b"rest");
        let endless = vec![b'x'; 5000];
        let mut input = &endless[..];
        assert_eq!(line(&mut input).unwrap().len(), LONGEST);
        assert_eq!(input.len(), 5000 - LONGEST);
    }
}
