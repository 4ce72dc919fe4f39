//! Shams that break a rule of the copy.

use second::copy::copy as right_copy;
use second::log::{joined, used, write, Contents, Lookup};
use second::sector::SECTOR;
use second::sha1::ZERO_SCORE;
use second::store::store;
use second::{Edition, Refusal, Score};

use crate::shams::Broken;

/// Room for all that a tree here has.
const ROOM: usize = 200;

pub fn copy(
    broken: Broken,
    (log, waiting): (&[u8], &[u8]),
    second: &mut [u8],
    date: &[u8],
    (score, allowance): (&Score, u64),
) -> (Result<(), Refusal>, u64) {
    let before = second.to_vec();
    let answer = right_copy(log, waiting, second, date, score, allowance);
    let tested = matches!(
        answer.0,
        Err(Refusal {
            number: 3 | 23 | 24,
            ..
        })
    );
    if tested {
        return answer;
    }
    // what is copied, in order
    let mut blank = vec![0; ROOM * SECTOR];
    let whole = right_copy(log, waiting, &mut blank, date, score, allowance);
    let copied = Contents::of(&blank).blocks;
    let edition = Edition::of(Some(date)).unwrap_or(Edition::First);
    let mut put = |kind, data: &[u8]| store(second, None, edition, kind, data).map(|_| ());
    match broken {
        Broken::ParentsFirst | Broken::DirectoryLeftOut if whole.0.is_ok() && answer.0.is_ok() => {
            let mut order: Vec<_> = copied.iter().collect();
            match broken {
                Broken::ParentsFirst => order.reverse(),
                _ if order.len() > 1 => drop(order.remove(order.len() - 2)),
                _ => {}
            }
            second.copy_from_slice(&before);
            for block in order {
                let data = block.data(&blank);
                if store(second, None, edition, block.kind, &data).is_err() {
                    break;
                }
            }
        }
        Broken::CopyAppendsDuplicates if answer.0.is_ok() => {
            for block in &copied {
                let held = Contents::of(&before).lookup(block.kind, &block.score);
                let (first, data) = (used(second), block.data(&blank));
                let room = second.len() / SECTOR - first >= edition.sectors_for(data.len());
                if matches!(held, Lookup::Found(_)) && room {
                    write(second, first, edition, block.kind, &data);
                }
            }
        }
        Broken::CopyUndone if answer.0.is_err() => second.copy_from_slice(&before),
        Broken::CopyKeepsDates => {
            let both = joined(log, waiting);
            let contents = Contents::of(&both);
            let from = used(&before);
            let new = Contents::of(second).blocks;
            for block in new.iter().filter(|block| block.first >= from) {
                let Lookup::Found(source) = contents.lookup(block.kind, &block.score) else {
                    continue;
                };
                if source.sectors() == block.sectors() {
                    let data = block.data(second);
                    write(second, block.first, source.edition, block.kind, &data);
                }
            }
        }
        Broken::CopyTellsTheSecondsDoubt => {
            if let (Err(Refusal { number: 12, .. }), visits) = answer {
                let doubt = Contents::of(second).first_doubtful;
                return (
                    Err(Refusal {
                        number: 12,
                        at: doubt,
                    }),
                    visits,
                );
            }
        }
        Broken::CopySkipsZeroVisits if answer.0.is_ok() => {
            let both = joined(log, waiting);
            let zeros = copied.iter().filter(|block| (3..=9).contains(&block.kind));
            let zeros: usize = zeros
                .map(|block| {
                    let data = block.data(&both);
                    data.chunks(20)
                        .filter(|score| **score == ZERO_SCORE)
                        .count()
                })
                .sum();
            return (answer.0, answer.1 - (zeros as u64).min(answer.1));
        }
        Broken::CopyPadsTheRoot if answer.0.is_ok() => {
            let root = copied.iter().find(|block| block.kind == 1);
            if let Some(root) = root.filter(|root| root.size < 300) {
                let mut data = root.data(&blank);
                data.resize(300, 0);
                let _ = put(1, &data);
            }
        }
        _ => {}
    }
    answer
}
