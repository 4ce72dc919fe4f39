//! What changed: pairs of directory blocks, and pairs of trees in one log.

use second::changes::{Compared, Part, Side};

use crate::archive::Archive;
use crate::compare::{hex, number, Compare, Parts, Trace};
use crate::random::Random;
use crate::tree_pairs::{Pair, TreePairs};

/// The most units a comparison may take here, since some archives look through the log for each block.
const FEW_UNITS: u64 = 100;

pub fn run(
    archive: &mut dyn Archive,
    compare: &mut Compare,
    random: &mut Random,
    trace: &mut Trace,
) -> Result<(), String> {
    let mut trees = TreePairs::new(random);
    let mut tops = match random.percent(10) {
        true => vec![trees.chain(random)],
        false => Vec::new(),
    };
    for _ in 0..2 {
        tops.push(trees.top(random));
        let blocks = blocks(random, &mut trees);
        difference(archive, compare, &blocks, trace)?;
    }
    trees.log.damage(random, trace);
    let lent = trees.log.lent(random, trace);
    for (mut first, second) in tops {
        differences(archive, compare, random, trace, &lent, &(&first, &second))?;
        differences(archive, compare, random, trace, &lent, &(&second, &first))?;
        if random.percent(4) {
            first.truncate(39);
            differences(archive, compare, random, trace, &lent, &(&first, &second))?;
        }
    }
    Ok(())
}

/// Two directory blocks, now and then of an unlawful length or about the longest that is lawful.
fn blocks(random: &mut Random, trees: &mut TreePairs) -> Pair<Vec<u8>> {
    let mut pair = trees.directories(random, 4);
    for block in [&mut pair.0, &mut pair.1] {
        match random.below(40) {
            0 => block.clear(),
            1 => block.resize(random.pick(&[57_320, 57_344, 57_360]), 0),
            2..=4 => {}
            _ => block.truncate(block.len() / 40 * 40),
        }
        if random.percent(10) {
            // The last entry is active, or no longer so.
            let flags = block.len().checked_sub(32);
            flags.into_iter().for_each(|at| block[at] ^= 1);
        }
    }
    pair
}

fn difference(
    archive: &mut dyn Archive,
    compare: &mut Compare,
    (first, second): &Pair<Vec<u8>>,
    trace: &mut Trace,
) -> Result<(), String> {
    trace.note(|| format!("the first difference of {} and {}", hex(first), hex(second)));
    let right = second::changes::difference(first, second);
    let right = right.map(|part| part.map(|part| (part, bytes_of(first, second, part))));
    let answer = archive.difference(first, second);
    compare.call("difference", number(&right), answer, right)
}

/// The entry that a part is.
pub fn bytes_of<'a>(first: &'a [u8], second: &'a [u8], part: Part) -> &'a [u8] {
    let block = match part.side {
        Side::First => first,
        Side::Second => second,
    };
    &block[part.start..part.start + 40]
}

fn differences(
    archive: &mut dyn Archive,
    compare: &mut Compare,
    random: &mut Random,
    trace: &mut Trace,
    Parts { log, waiting }: &Parts,
    (first, second): &Pair<&[u8]>,
) -> Result<(), String> {
    let right = |units| second::changes::differences(log, waiting, first, second, units);
    let allowance = allowance(random, right);
    trace.note(|| {
        let (first, second) = (hex(first), hex(second));
        format!("compare {first} with {second}, allowance {allowance}")
    });
    let right = right(allowance);
    let answer = archive.differences(log, waiting, first, second, allowance);
    compare.call("differences", number(&right.ended), answer, right)
}

/// Any allowance, but none with which it would take long.
fn allowance(random: &mut Random, compare: impl Fn(u64) -> Compared) -> u64 {
    let allowance = match random.below(12) {
        0 => 0,
        1 => 1_000_001,
        2 => random.number(),
        3..=4 => random.below(10) as u64,
        _ => 1_000_000,
    };
    let bounded = compare(allowance.min(FEW_UNITS));
    if random.percent(25) {
        // Just what the comparison needs, or one unit less.
        return bounded.units.saturating_sub(random.below(2) as u64);
    }
    match number(&bounded.ended) == 21 && allowance <= 1_000_000 {
        true => allowance.min(FEW_UNITS),
        false => allowance,
    }
}
