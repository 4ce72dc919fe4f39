//! Framed messages, read ahead: as many as have come, so that it can be told what follows one.

use std::io::{self, ErrorKind, Read};

/// Room for a full waiting part's blocks some times over, and for any message.
const ROOM: usize = 1 << 20;

pub struct ReadAhead {
    buffer: Vec<u8>,
    /// What was read and not taken: up to `end`.
    start: usize,
    end: usize,
}

pub enum Input<'a> {
    Message {
        bytes: &'a [u8],
        /// The one behind it, where all of it has come.
        next: Option<&'a [u8]>,
    },
    End,
    /// The end, inside a message.
    Torn,
}

impl ReadAhead {
    pub fn new() -> ReadAhead {
        ReadAhead {
            buffer: vec![0; ROOM],
            start: 0,
            end: 0,
        }
    }

    /// The next message, of as many bytes as its size says. Waits only where not all of it has come.
    pub fn next(&mut self, input: &mut dyn Read) -> io::Result<Input<'_>> {
        let length = loop {
            if let Some(message) = self.at_hand() {
                break message.len();
            }
            if self.read(input)? == 0 {
                let torn = self.start < self.end;
                return Ok(if torn { Input::Torn } else { Input::End });
            }
        };
        self.start += length;
        Ok(Input::Message {
            bytes: &self.buffer[self.start - length..self.start],
            next: self.at_hand(),
        })
    }

    /// The message that was not taken yet, where all of it has come.
    fn at_hand(&self) -> Option<&[u8]> {
        let come = &self.buffer[self.start..self.end];
        let (size, _) = come.split_first_chunk()?;
        come.get(..2 + usize::from(u16::from_be_bytes(*size)))
    }

    /// Reads what has come, behind what is left of a message; how many bytes.
    fn read(&mut self, input: &mut dyn Read) -> io::Result<usize> {
        self.buffer.copy_within(self.start..self.end, 0);
        (self.start, self.end) = (0, self.end - self.start);
        loop {
            match input.read(&mut self.buffer[self.end..]) {
                Ok(count) => {
                    self.end += count;
                    return Ok(count);
                }
                Err(e) if e.kind() == ErrorKind::Interrupted => {}
                Err(e) => return Err(e),
            }
        }
    }
}

#[cfg(test)]
mod tests {
    use super::*;

    /// Gives so many bytes at a time.
    struct Slow<'a>(&'a [u8], usize);

    impl Read for Slow<'_> {
        fn read(&mut self, buffer: &mut [u8]) -> io::Result<usize> {
            let count = self.1.min(self.0.len()).min(buffer.len());
            let (now, later) = self.0.split_at(count);
            buffer[..count].copy_from_slice(now);
            self.0 = later;
            Ok(count)
        }
    }

    fn message(length: usize) -> Vec<u8> {
        let size = (length as u16).to_be_bytes();
        [&size[..], &vec![length as u8; length]].concat()
    }

    /// However the bytes come, the messages are the same; what follows one is told only if all of it came.
    #[test]
    fn messages_as_they_come() {
        // More than there is room for.
        let lengths = [2, 0, 1, 65_535, 9, 65_535, 65_535, 65_535, 300, 7].repeat(5);
        let sent: Vec<u8> = lengths.iter().flat_map(|length| message(*length)).collect();
        assert!(sent.len() > ROOM);
        for (rest, torn) in [(&b""[..], false), (b"\0", true), (b"\0\x02x", true)] {
            for step in [1, 2, 3, 1000, 65_537, usize::MAX] {
                let all = [&sent[..], rest].concat();
                let (mut input, mut ahead) = (Slow(&all, step), ReadAhead::new());
                let mut taken = 0;
                for (at, length) in lengths.iter().enumerate() {
                    let Input::Message { bytes, next } = ahead.next(&mut input).unwrap() else {
                        panic!("{at} of step {step}");
                    };
                    assert!(bytes == message(*length), "{at} of step {step}");
                    taken += bytes.len();
                    let come = all.len() - input.0.len() - taken;
                    let behind = lengths.get(at + 1).map(|length| message(*length));
                    let behind = behind.filter(|behind| behind.len() <= come);
                    assert!(next == behind.as_deref(), "{at} of step {step}");
                }
                match ahead.next(&mut input).unwrap() {
                    Input::End => assert!(!torn),
                    Input::Torn => assert!(torn),
                    Input::Message { .. } => panic!("one too many"),
                }
            }
        }
    }
}
