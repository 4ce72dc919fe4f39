//! The card search through the proved call: a card that waits, the same once it is settled, and each
//! refusal, in its order.

use boundary::{is_card, search, serve, sha1, Refusal, Session, Value};

const SECTOR: usize = 512;
const CARD: &[u8] = b"A=present\nB=absent\n";

fn ask(log: &mut [u8], waiting: &mut [u8], kind: u8, body: &[u8]) {
    let size = (body.len() + 2) as u16;
    let message = [&size.to_be_bytes()[..], &[kind, 9], body].concat();
    let mut reply = vec![0; 57_348];
    let served = serve(
        Session::Greeted,
        &message,
        b"20261116",
        log,
        waiting,
        &mut [],
        &mut reply,
    );
    assert_eq!(served.outcome, Ok(()));
}

/// A data entry of depth 0 with one leaf.
fn entry(score: &[u8; 20], size: usize) -> Vec<u8> {
    let mut entry = vec![0; 40];
    entry[5] = 40;
    entry[6..8].copy_from_slice(&5000_u16.to_be_bytes());
    entry[8] = 1;
    entry[18..20].copy_from_slice(&(size as u16).to_be_bytes());
    entry[20..].copy_from_slice(score);
    entry
}

/// A log and its waiting part, in which these bytes wait, and the entry that leads to them.
fn waiting_card(bytes: &[u8]) -> (Vec<u8>, Vec<u8>, Vec<u8>) {
    let (mut log, mut waiting) = (vec![0; 20 * SECTOR], vec![0; 20 * SECTOR]);
    let body = [&[13, 0, 0, 0], bytes].concat();
    ask(&mut log, &mut waiting, 14, &body);
    (log, waiting, entry(&sha1(bytes), bytes.len()))
}

#[test]
fn a_card_that_waits_and_is_settled() {
    let (mut log, mut waiting, entry) = waiting_card(CARD);
    let asked = [
        (&b"A"[..], Value::Yes),
        (b"B", Value::No),
        (b"C", Value::NotKnown),
        (b"not C", Value::NotKnown),
        (b"A and not B", Value::Yes),
        (b"C and B or ( C and A )", Value::NotKnown),
    ];
    for (query, value) in asked {
        assert_eq!(search(&log, &waiting, &[0], &entry, query), Ok(value));
        let alone = search(&log, &[], &[0], &entry, query);
        assert_eq!(alone, Err(Refusal::NotHeld));
    }
    ask(&mut log, &mut waiting, 16, b"");
    for (query, value) in asked {
        assert_eq!(search(&log, &[], &[0], &entry, query), Ok(value));
    }
}

#[test]
fn refusals_in_their_order() {
    let (log, mut waiting, card) = waiting_card(CARD);
    let ask = |log: &[u8], waiting: &[u8], page: &[u8], entry: &[u8], query: &[u8]| {
        search(log, waiting, page, entry, query).unwrap_err()
    };
    let log_length = ask(&log[1..], &waiting, &[], &[], b"");
    assert_eq!(log_length, Refusal::LogLength);
    assert_eq!(ask(&log, &waiting, &[], &[], b""), Refusal::Page);
    assert_eq!(ask(&log, &waiting, &[0], &[], b""), Refusal::Entry);
    let long = entry(&[7; 20], 4097);
    assert_eq!(ask(&log, &waiting, &[0], &long, b""), Refusal::Card);
    let missing = entry(&[7; 20], 4096);
    assert_eq!(ask(&log, &waiting, &[0], &missing, b""), Refusal::NotHeld);
    assert_eq!(ask(&log, &waiting, &[0], &card, b""), Refusal::Query);
    let (other, waits, ill) = waiting_card(b"B=absent\nA=present\n");
    assert_eq!(ask(&other, &waits, &[0], &ill, b""), Refusal::Card);
    waiting[200] ^= 1;
    let doubt = Refusal::NotKnown { sector: 0 };
    assert_eq!(ask(&log, &waiting, &[0], &card, b"A"), doubt);
}

/// A card of no bytes is not read, and has no lines.
#[test]
fn the_empty_card() {
    let empty = entry(&[7; 20], 0);
    let answer = search(&[], &[], &[0], &empty, b"A or not A");
    assert_eq!(answer, Ok(Value::NotKnown));
}

#[test]
fn what_is_a_card() {
    for card in [
        CARD,
        b"",
        b"A1=present\n",
        b"AND=absent\nB=absent\na=absent\n",
    ] {
        assert!(is_card(card), "{}", card.escape_ascii());
    }
    for other in [
        &CARD[..CARD.len() - 1],
        b"\n",
        b"and=absent\n",
        b"B=absent\nA=absent\n",
        b"A=absent\nA=absent\n",
        b"A=maybe\n",
        b"123456789=absent\n",
    ] {
        assert!(!is_card(other), "{}", other.escape_ascii());
    }
}

#[test]
fn a_card_has_at_most_4096_bytes() {
    let card: String = (0..257).map(|i| format!("K{i:07}=absent\n")).collect();
    assert!(is_card(&card.as_bytes()[..4096]));
    assert!(!is_card(card.as_bytes()));
    assert!(!is_card(
        &[&card.as_bytes()[..4096], b"L=absent\n"].concat()
    ));
}
