//! Refusal 15: two blocks of one SHA-1, by the public collision of 2017 (the first 320 bytes of its two files).

use boundary::{serve, sha1, Refusal, Session};

/// Hex digits, with blanks between.
fn bytes(hex: &str) -> Vec<u8> {
    let digits: Vec<u8> = hex.bytes().filter(|b| !b.is_ascii_whitespace()).collect();
    let value = |b: &[u8]| u8::from_str_radix(std::str::from_utf8(b).unwrap(), 16).unwrap();
    digits.chunks(2).map(value).collect()
}

const FRONT: &str = "
    255044462d312e330a25e2e3cfd30a0a0a312030206f626a0a3c3c2f57696474682032203020522f4865696768742033
    203020522f547970652034203020522f537562747970652035203020522f46696c7465722036203020522f436f6c6f72
    53706163652037203020522f4c656e6774682038203020522f42697473506572436f6d706f6e656e7420383e3e0a7374
    7265616d0affd8fffe00245348412d3120697320646561642121212121852fec092339759c39b1a1c63c4c97e1fffe01";

const FIRST: &str = "
    7f46dc93a6b67e013b029aaa1db2560b45ca67d688c7f84b8c4c791fe02b3df614f86db1690901c56b45c1530afedfb7
    6038e972722fe7ad728f0e4904e046c230570fe9d41398abe12ef5bc942be33542a4802d98b5d70f2a332ec37fac3514
    e74ddc0f2cc1a874cd0c78305a21566461309789606bd0bf3f98cda8044629a1";

const SECOND: &str = "
    7346dc9166b67e118f029ab621b2560ff9ca67cca8c7f85ba84c79030c2b3de218f86db3a90901d5df45c14f26fedfb3
    dc38e96ac22fe7bd728f0e45bce046d23c570feb141398bb552ef5a0a82be331fea48037b8b5d71f0e332edf93ac3500
    eb4ddc0decc1a864790c782c76215660dd309791d06bd0af3f98cda4bc4629b1";

#[test]
fn a_block_of_the_same_score_with_other_bytes_is_refused() {
    let [first, second] = [FIRST, SECOND].map(|end| [bytes(FRONT), bytes(end)].concat());
    assert_eq!(sha1(&first), sha1(&second));
    assert_ne!(first, second);

    let mut log = vec![0; 512 * 4];
    let mut waiting = vec![0; 512 * 4];
    let mut reply = vec![0; 57_348];
    let mut write = |kind: u8, data: &[u8]| {
        let size = (data.len() + 6) as u16;
        let message = [&size.to_be_bytes()[..], &[14, 7, kind, 0, 0, 0], data].concat();
        let served = serve(
            Session::Greeted,
            &message,
            b"20261116",
            &mut log,
            &mut waiting,
            &mut [],
            &mut reply,
        );
        assert_eq!(served.session, Session::Greeted);
        (served.outcome, [&log[..], &waiting].concat())
    };
    let (outcome, stored) = write(13, &first);
    assert_eq!(outcome, Ok(()));
    let clash = (Err(Refusal::Clash), stored.clone());
    assert_eq!(write(13, &second), clash, "nothing changed");
    assert_eq!(write(13, &first), (Ok(()), stored), "a duplicate");
    assert_eq!(write(2, &second).0, Ok(()), "another type");
}
