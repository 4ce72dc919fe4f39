//! A log beside what its mark says of it.

use std::path::Path;

use crate::format::SECTOR;
use crate::mark::Mark;
use crate::status::{Failure, UNFIT};

pub struct Loss {
    mark: Mark,
    /// The file's bytes, none where there is no file.
    length: Option<u64>,
    /// The used part of its whole sectors.
    used: usize,
}

impl Loss {
    pub fn new(mark: Mark, length: Option<u64>, used: usize) -> Loss {
        Loss { mark, length, used }
    }

    /// Whether the file is shorter than marked.
    pub fn cut(&self) -> bool {
        self.length
            .is_none_or(|length| length < (self.mark.sectors * SECTOR) as u64)
    }

    /// How many sectors at the end of the used part are lost.
    pub fn sectors(&self) -> usize {
        self.mark.used.saturating_sub(self.used)
    }

    pub fn any(&self) -> bool {
        self.cut() || self.sectors() > 0
    }

    /// What is lost.
    pub fn words(&self) -> String {
        match self.sectors() {
            0 => "no stored sector is lost".to_string(),
            1 => "the last used sector is lost".to_string(),
            lost => format!("the last {lost} used sectors are lost"),
        }
    }

    /// The refusal to serve such a log: what is lost, and what to do.
    pub fn failure(&self, path: &Path) -> Failure {
        let Mark { sectors, used } = self.mark;
        let log = path.display();
        let found = match self.length {
            None => "there is no such file".to_string(),
            Some(length) => format!(
                "the file has {length} bytes, {} whole sectors, {} of them used",
                length / SECTOR as u64,
                self.used
            ),
        };
        let advice = match self.sectors() {
            0 => format!(
                "The log is not served until it has its length again: run `skywimple doubt {log}`, \
                 or restore the log from a copy and leave the mark as it is."
            ),
            _ => format!(
                "The log is not served, because lost blocks would be called not held. Restore the \
                 log from a copy and leave the mark as it is: an older mark cannot tell what is \
                 lost. Or run `skywimple doubt {log}`: then what is lost is \"not known\", and \
                 the rest can be read."
            ),
        };
        let words = format!(
            "{log} does not fit its mark, which says {sectors} sectors, {used} of them used; \
             {found}: {}. {advice}",
            self.words()
        );
        Failure::new(UNFIT, words)
    }
}
