//! What a command reads from and writes to, and whether a person is looking.

use std::io::{Read, Write};

use crate::escape;
use crate::status::Failure;

pub struct Streams<'a> {
    pub input: &'a mut dyn Read,
    pub out: &'a mut dyn Write,
    pub err: &'a mut dyn Write,
    pub out_terminal: bool,
    pub err_terminal: bool,
    /// Whether a line of progress stands on the terminal, to be taken away before anything is told.
    pub progress: bool,
}

impl Streams<'_> {
    /// Writes part of the answer, at once.
    pub fn answer(&mut self, bytes: &[u8]) -> Result<(), Failure> {
        let written = self.out.write_all(bytes).and_then(|()| self.out.flush());
        written.map_err(Failure::output)
    }

    /// Tells something on standard error, in one line whatever names are in it. Where nobody can be
    /// told, the work goes on.
    pub fn tell(&mut self, words: &str) {
        self.tell_plain(&format!("skywimple: {}\n", escape::line(words)));
    }

    /// The same, without the name in front.
    pub fn tell_plain(&mut self, text: &str) {
        self.clear_progress();
        let _ = self.err.write_all(text.as_bytes());
        let _ = self.err.flush();
    }

    /// Shows how far the work has come, in place of what was shown before.
    pub fn show_progress(&mut self, line: &str) {
        let _ = write!(self.err, "\r\x1b[K{}", escape::line(line));
        let _ = self.err.flush();
        self.progress = true;
    }

    /// Shows a person what is being done.
    pub fn working(&mut self, line: &str) {
        if self.err_terminal {
            self.show_progress(line);
        }
    }

    pub fn clear_progress(&mut self) {
        if self.progress {
            let _ = write!(self.err, "\r\x1b[K");
            let _ = self.err.flush();
            self.progress = false;
        }
    }
}

#[cfg(test)]
mod tests {
    use super::*;
    use std::io;

    #[test]
    fn progress_is_one_visible_line() {
        let mut err = Vec::new();
        let mut streams = Streams {
            input: &mut io::empty(),
            out: &mut io::sink(),
            err: &mut err,
            out_terminal: false,
            err_terminal: true,
            progress: false,
        };
        streams.show_progress("reading a\x1b[2J\nb");
        assert_eq!(err, b"\r\x1b[Kreading a\\u{1b}[2J\\nb");
    }
}
