//! Rules of the ledger that can be broken.

use std::collections::BTreeSet;

use second::ledger::{Ledger, Origin};
use second::message::{whole, Lent, LEAST_REPLY};
use second::{Edition, Session};

use crate::crash::Left;
use crate::shams::Broken;

/// Before a stop: a ledger that keeps the waiting rows settles them first.
pub fn before_stop(broken: Option<Broken>, ledger: &mut Ledger) {
    if broken != Some(Broken::StopKeepsWaitingRows) {
        return;
    }
    let mut sessions = ledger.sessions().iter();
    if let Some(ready) = sessions.position(|&session| session == Session::Ready) {
        let lent = Lent {
            log: 0,
            waiting: Some(0),
        };
        let sync = whole(16, 0, &[]);
        ledger.request(Origin::After(ready), &sync, None, LEAST_REPLY, lent);
    }
}

/// The date that a request is told with: a ledger that keeps none is never told a lawful one.
pub fn date(broken: Option<Broken>, date: Option<&[u8]>) -> Option<&[u8]> {
    let forgets = broken == Some(Broken::LedgerForgetsDates);
    date.filter(|date| !forgets || Edition::of(Some(date)).is_err())
}

/// After damage was told: a ledger that adds the sectors to those told before.
pub fn after_damage(broken: Option<Broken>, ledger: &mut Ledger, before: BTreeSet<usize>) {
    if broken == Some(Broken::ToldSectorsAdded) {
        let all = ledger.changed().union(&before).copied().collect();
        ledger.damage(all);
    }
}

/// Before a stop inside a write is told: a ledger that takes no row over, one that takes over what is
/// torn, and one that is not told of what is torn.
pub fn before_crash(broken: Option<Broken>, left: &mut Left) {
    match broken {
        Some(Broken::WholeRowsLost) => left.torn.append(&mut left.whole),
        Some(Broken::TornRowsKept) => left.whole.append(&mut left.torn),
        Some(Broken::TornSectorsNotTold) => left.torn.clear(),
        _ => {}
    }
}
