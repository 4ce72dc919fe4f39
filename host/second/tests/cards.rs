//! Cards, queries and the search.

use second::card::lines;
use second::log::write;
use second::query::{read, Value};
use second::search::search;
use second::sector::SECTOR;
use second::sha1::{sha1, ZERO_SCORE};
use second::{Edition, Refusal, Score};

use Value::{No, NotKnown, Yes};

/// What a card's text answers to a query.
fn ask(card: &str, query: &str) -> Value {
    let card = lines(card.as_bytes()).unwrap();
    read(query.as_bytes()).unwrap().value(&card)
}

#[test]
fn cards() {
    for good in [
        "",
        "A=present\n",
        "A=absent\n",
        "A=present\nA1=absent\nB=present\na=absent\n",
        "0=present\n9=present\nAnd=absent\nNOT=absent\npresent=present\n",
        "12345678=present\n",
    ] {
        assert!(lines(good.as_bytes()).is_ok(), "{good:?}");
    }
    for bad in [
        "\n",
        "A=present",
        "A=present\n\n",
        "A=present\r\n",
        "A =present\n",
        "A=Present\n",
        "A=\n",
        "A\n",
        "=present\n",
        "A==present\n",
        "123456789=present\n",
        "A-B=present\n",
        "Å=present\n",
        "and=present\n",
        "or=absent\n",
        "not=absent\n",
        "A=present\nA=present\n",
        "A1=present\nA=absent\n",
        "a=present\nB=absent\n",
        "A=present\0\n",
    ] {
        assert_eq!(lines(bad.as_bytes()), Err(25), "{bad:?}");
    }
}

#[test]
fn tables() {
    let all = [No, NotKnown, Yes];
    let and = [[No, No, No], [No, NotKnown, NotKnown], [No, NotKnown, Yes]];
    let or = [
        [No, NotKnown, Yes],
        [NotKnown, NotKnown, Yes],
        [Yes, Yes, Yes],
    ];
    for (a, (and, or)) in all.into_iter().zip(and.into_iter().zip(or)) {
        assert_eq!(all.map(|b| a.and(b)), and);
        assert_eq!(all.map(|b| a.or(b)), or);
    }
    assert_eq!(all.map(Value::negated), [Yes, NotKnown, No]);
}

#[test]
fn queries() {
    let deep = |count: usize| format!("{}a{}", "( ".repeat(count), " )".repeat(count));
    let long = |bytes: usize| {
        let head = "not ".repeat((bytes - 1) / 4);
        format!("{head}{}", "a".repeat(bytes - head.len()))
    };
    assert_eq!((long(256).len(), long(257).len()), (256, 257));
    for good in [
        "a",
        "not not a",
        "( a )",
        "( ( a ) )",
        "a and not ( b or c ) or d",
        "And or NOT",
        "present and absent",
        "12345678",
        "not ( a )",
        &deep(16),
        &format!("{} and {}", deep(16), deep(16)),
        &long(256),
    ] {
        let reading = read(good.as_bytes()).unwrap_or_else(|_| panic!("{good:?}"));
        assert_eq!(reading.text(), *good);
    }
    for bad in [
        "",
        " ",
        " a",
        "a ",
        "a  and b",
        "a b",
        "a and",
        "or a",
        "not",
        "and",
        "a not b",
        "( a",
        "a )",
        "( )",
        "()",
        "(a)",
        "a\n",
        "a\tand b",
        "123456789",
        "a-b",
        "( a ) b",
        "( a or )",
        &deep(17),
        &long(257),
    ] {
        assert_eq!(read(bad.as_bytes()), Err(26), "{bad:?}");
    }
}

#[test]
fn answers() {
    let card = "K=present\nM=absent\n";
    for (query, value) in [
        ("K", Yes),
        ("M", No),
        ("N", NotKnown),
        ("k", NotKnown),
        ("not M", Yes),
        ("not not M", No),
        ("not N", NotKnown),
        ("N or not N", NotKnown),
        ("N or K", Yes),
        ("N and M", No),
        ("N and K", NotKnown),
        ("K or K and M", Yes),
        ("( K or K ) and M", No),
        ("M and M or K", Yes),
        ("not M or M", Yes),
        ("not ( M or K )", No),
        ("not M and N", NotKnown),
    ] {
        assert_eq!(ask(card, query), value, "{query}");
    }
    assert_eq!(ask("", "K"), NotKnown);
}

/// Every row of up to six tokens: where it has a reading, it is that reading's text.
#[test]
fn every_short_query() {
    let tokens = ["a", "b", "not", "and", "or", "(", ")"];
    let mut texts: Vec<String> = tokens.map(String::from).to_vec();
    let mut read_so_far = 0;
    for _ in 0..6 {
        for text in &texts {
            if let Ok(reading) = read(text.as_bytes()) {
                assert_eq!(reading.text(), *text);
                read_so_far += 1;
            }
        }
        let longer = |text: &String| tokens.map(|token| format!("{text} {token}"));
        texts = texts.iter().flat_map(longer).collect();
    }
    // By the grammar, with two names: 2, 2, 12, 22 and so on, from one token up.
    assert_eq!(read_so_far, counted(6));
}

/// How many queries of at most so many tokens there are, with two names.
fn counted(most: usize) -> usize {
    // Terms, choices and lists of exactly so many tokens.
    let mut counts = vec![[0; 3]; most + 1];
    for n in 1..=most {
        let group = if n > 2 { counts[n - 2][2] } else { 0 };
        let name = if n == 1 { 2 } else { 0 };
        counts[n][0] = name + counts[n - 1][0] + group;
        for (whole, first) in [(1, 0), (2, 1)] {
            let joined: usize = (1..n.saturating_sub(1))
                .map(|k| counts[k][first] * counts[n - 1 - k][whole])
                .sum();
            counts[n][whole] = counts[n][first] + joined;
        }
    }
    counts.iter().map(|count| count[2]).sum()
}

/// Lines added to a card never turn a yes or a no into anything else.
#[test]
fn lines_added() {
    let cards = || (0..27).map(|n| [n % 3, n / 3 % 3, n / 9]);
    let text = |states: [usize; 3]| -> String {
        let lines = ["a", "b", "c"].into_iter().zip(states);
        lines
            .filter(|(_, state)| *state > 0)
            .map(|(name, state)| format!("{name}={}\n", ["", "present", "absent"][state]))
            .collect()
    };
    for query in [
        "a",
        "not a",
        "a and b",
        "a or b",
        "a and not b or c",
        "not ( a or b and c ) or not not b",
        "a or not a",
        "( a and b or c ) and ( not a or b )",
    ] {
        for fewer in cards() {
            let value = ask(&text(fewer), query);
            let more = |card: &[usize; 3]| {
                let mut pairs = fewer.iter().zip(card);
                pairs.all(|(before, after)| *before == 0 || before == after)
            };
            for card in cards().filter(more) {
                let after = ask(&text(card), query);
                assert!(
                    value == NotKnown || value == after,
                    "{query}: {fewer:?} {card:?}"
                );
            }
        }
    }
}

/// An entry of depth 0 and dsize 500.
fn entry(size: u64, score: &Score) -> Vec<u8> {
    let mut bytes = vec![0, 0, 0, 0, 0, 40, 1, 244, 1, 0, 0, 0, 0, 0];
    bytes.extend(&size.to_be_bytes()[2..]);
    bytes.extend(score);
    bytes
}

/// 3, 19, 16, 25 for a long card, reading's refusal, 25, 26.
#[test]
fn order_of_refusals() {
    let card = b"K=present\n";
    let ill = b"K=perhaps\n";
    let mut log = vec![0; 3 * SECTOR];
    write(&mut log, 0, Edition::First, 13, card);
    write(&mut log, 1, Edition::Second(*b"20261116"), 13, ill);
    let good = entry(10, &sha1(card));
    let no = |number: u8| Err(Refusal::from(number));
    let asked = |bytes: &[u8], query: &[u8]| search(&log, &[], &[0; 5], bytes, query);
    assert_eq!(asked(&good, b"K"), Ok(Yes));
    assert_eq!(asked(&good, b"K and"), no(26));
    assert_eq!(asked(&good, &[b'K'; 257]), no(26));
    assert_eq!(asked(&entry(10, &sha1(ill)), b""), no(25));
    assert_eq!(asked(&entry(9, &sha1(card)), b""), no(25));
    assert_eq!(asked(&entry(11, &sha1(card)), b""), no(25));
    assert_eq!(asked(&entry(10, &[1; 20]), b""), no(11));
    assert_eq!(asked(&entry(0, &[1; 20]), b"K"), Ok(NotKnown));
    assert_eq!(asked(&entry(0, &ZERO_SCORE), b""), no(26));

    let mut long = entry(4097, &[1; 20]);
    long[6..8].copy_from_slice(&[0x10, 1]);
    assert_eq!(asked(&long, b""), no(25));
    long[18..20].copy_from_slice(&[0x10, 0]);
    assert_eq!(asked(&long, b""), no(11));
    assert_eq!(asked(&entry(501, &sha1(card)), b""), no(16));
    assert_eq!(search(&log, &[], &[], &good[1..], b""), no(19));
    assert_eq!(search(&log[1..], &[], &[], &good, b""), no(3));
    assert_eq!(search(&log, &[0], &[], &good, b""), no(3));

    log[100] ^= 1;
    let hurt = search(&log, &[], &[0], &good, b"");
    assert_eq!(hurt, Err(Refusal::not_known(0)));
}

/// A card among the waiting sectors, and one that is read in several runs.
#[test]
fn where_a_card_lies() {
    let card: String = (0..40).map(|n| format!("N{n:02}=present\n")).collect();
    let mut waiting = vec![0; 2 * SECTOR];
    let edition = Edition::Second(*b"20261116");
    write(&mut waiting, 0, edition, 13, card.as_bytes());
    assert!(card.len() > edition.payload());
    let entry = entry(card.len() as u64, &sha1(card.as_bytes()));
    let mut log = vec![0; SECTOR];
    for query in ["N00 and N39", "not N40 or N39"] {
        let answer = search(&log, &waiting, &[0], &entry, query.as_bytes());
        assert_eq!(answer, Ok(Yes));
    }
    log.copy_from_slice(&waiting[..SECTOR]);
    let answer = search(&log, &waiting[SECTOR..], &[0], &entry, b"N40");
    assert_eq!(answer, Ok(NotKnown));
}
