//! The map of a log: which sectors are sound, doubtful and blank.

use std::fmt::Write;

use boundary::Refusal;

use crate::blocks;
use crate::format::SECTOR;

/// The most rows that a map is drawn in.
const MOST_ROWS: usize = 16;

/// What a sector, or a group of them, is. A group is the worst of its sectors.
#[derive(Clone, Copy, Debug, PartialEq, Eq, PartialOrd, Ord)]
pub enum Cell {
    /// After the used part.
    Blank,
    /// In a sound block.
    Sound,
    /// In the used part and in no sound block.
    Doubtful,
}

pub struct Map {
    sectors: Vec<Cell>,
}

/// A map scaled to a width.
pub struct Scaled {
    pub cells: Vec<Cell>,
    /// Sectors in a cell; the last may have fewer.
    pub group: usize,
}

impl Map {
    /// The map of a log.
    pub fn of(log: &[u8]) -> Result<Map, Refusal> {
        let mut sectors = vec![Cell::Blank; log.len() / SECTOR];
        for piece in blocks::pieces(log)? {
            let cell = match piece.block {
                Some(_) => Cell::Sound,
                None => Cell::Doubtful,
            };
            sectors[piece.sector..piece.sector + piece.count].fill(cell);
        }
        Ok(Map { sectors })
    }

    pub fn count(&self, cell: Cell) -> usize {
        self.sectors.iter().filter(|found| **found == cell).count()
    }

    /// One cell for each sector while 16 rows are enough, then groups.
    pub fn scaled(&self, width: usize) -> Scaled {
        let room = width.saturating_mul(MOST_ROWS).max(1);
        let group = self.sectors.len().div_ceil(room).max(1);
        let groups = self.sectors.chunks(group);
        Scaled {
            cells: groups.filter_map(|g| g.iter().max().copied()).collect(),
            group,
        }
    }

    /// What the signs mean, and how many sectors are of each kind.
    pub fn legend(&self, group: usize) -> String {
        format!(
            "# sound {}, ? doubtful {}, . blank {}; {group} {} a cell",
            self.count(Cell::Sound),
            self.count(Cell::Doubtful),
            self.count(Cell::Blank),
            if group == 1 { "sector" } else { "sectors" }
        )
    }

    /// The columns of the number before a row.
    pub fn label(&self) -> usize {
        self.sectors.len().to_string().len()
    }

    /// The map as text: the heading, rows after the number of their first sector, and the legend.
    pub fn draw(&self, heading: &str, width: usize, colour: bool) -> String {
        let Scaled { cells, group } = self.scaled(width);
        let label = self.label();
        let mut text = format!("{heading}\n");
        for (at, row) in cells.chunks(width).enumerate() {
            let _ = write!(text, "{:>label$} ", at * width * group);
            for run in row.chunk_by(|a, b| a == b) {
                let (sign, paint) = sign(run[0]);
                let signs = sign.repeat(run.len());
                let _ = match colour {
                    true => write!(text, "\x1b[{paint}m{signs}\x1b[0m"),
                    false => write!(text, "{signs}"),
                };
            }
            text.push('\n');
        }
        text + &self.legend(group) + "\n"
    }
}

/// A cell's sign, and its colour on a terminal.
fn sign(cell: Cell) -> (&'static str, &'static str) {
    match cell {
        Cell::Blank => (".", "2"),
        Cell::Sound => ("#", "32"),
        Cell::Doubtful => ("?", "1;31"),
    }
}

#[cfg(test)]
mod tests {
    use super::*;

    fn map(signs: &str) -> Map {
        let cell = |sign| match sign {
            '#' => Cell::Sound,
            '?' => Cell::Doubtful,
            _ => Cell::Blank,
        };
        Map {
            sectors: signs.chars().map(cell).collect(),
        }
    }

    #[test]
    fn one_sector_a_cell() {
        let drawn = map("##?#..").draw("name", 4, false);
        let legend = "# sound 3, ? doubtful 1, . blank 2; 1 sector a cell";
        assert_eq!(drawn, format!("name\n0 ##?#\n4 ..\n{legend}\n"));
    }

    #[test]
    fn a_group_is_the_worst_of_its_sectors() {
        let map = map(&("#".repeat(9) + "?" + "#" + &".".repeat(30)));
        let drawn = map.draw("", 1, false);
        assert_eq!(
            drawn.lines().count(),
            1 + 14 + 1,
            "3 sectors in each of 14 rows"
        );
        assert!(drawn.starts_with("\n 0 #\n 3 #\n 6 #\n 9 ?\n12 .\n"));
        assert!(drawn.ends_with("3 sectors a cell\n"));
    }

    #[test]
    fn any_width_and_any_size() {
        for sectors in [0, 1, 2, 15, 16, 17, 1000] {
            for width in [1, 2, 80, usize::MAX] {
                let scaled = map(&"#".repeat(sectors)).scaled(width);
                assert_eq!(scaled.cells.len(), sectors.div_ceil(scaled.group));
                assert!(scaled.cells.len().div_ceil(width) <= MOST_ROWS);
            }
        }
    }

    #[test]
    fn colour_only_when_asked_for() {
        assert!(!map("#?.").draw("", 3, false).contains('\x1b'));
        let drawn = map("#?.").draw("", 3, true);
        assert!(drawn.contains("\x1b[1;31m?\x1b[0m"));
    }
}
