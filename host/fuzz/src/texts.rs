//! Texts at every border of RFC 3629's grammar, each on the proved archive and on the second
//! program: the table of `crates/utf8/specs/Examples.antt`, and all that stand near it.

use second::message::whole;
use second::Session;

use crate::archive::{Archive, Second};
use crate::examples::DATE;
use crate::under_test;

/// Texts, and whether each is well-formed.
const TABLE: [(bool, &[u8]); 47] = [
    (true, &[]),
    (true, &[0x01, 0x7f]),
    (false, &[0x00]),
    (false, &[0x61, 0x00, 0x62]),
    (false, &[0x80]),
    (false, &[0xbf]),
    (false, &[0xc0, 0x80]),
    (false, &[0xc1, 0xbf]),
    (false, &[0xf5, 0x80, 0x80, 0x80]),
    (false, &[0xfe]),
    (false, &[0xff]),
    (true, &[0xc2, 0x80]),
    (true, &[0xdf, 0xbf]),
    (false, &[0xc2, 0x7f]),
    (false, &[0xc2, 0xc0]),
    (false, &[0xe0, 0x80, 0x80]),
    (false, &[0xe0, 0x9f, 0xbf]),
    (true, &[0xe0, 0xa0, 0x80]),
    (true, &[0xe0, 0xbf, 0xbf]),
    (true, &[0xe1, 0x80, 0x80]),
    (true, &[0xec, 0xbf, 0xbf]),
    (false, &[0xe1, 0x80, 0x7f]),
    (false, &[0xe1, 0x80, 0xc0]),
    (true, &[0xed, 0x9f, 0xbf]),
    (false, &[0xed, 0xa0, 0x80]),
    (false, &[0xed, 0xbf, 0xbf]),
    (true, &[0xee, 0x80, 0x80]),
    (true, &[0xef, 0xbf, 0xbe]),
    (true, &[0xef, 0xbf, 0xbf]),
    (true, &[0xef, 0xbb, 0xbf]),
    (false, &[0xf0, 0x8f, 0xbf, 0xbf]),
    (true, &[0xf0, 0x90, 0x80, 0x80]),
    (true, &[0xf1, 0x80, 0x80, 0x80]),
    (true, &[0xf3, 0xbf, 0xbf, 0xbf]),
    (true, &[0xf4, 0x8f, 0xbf, 0xbf]),
    (false, &[0xf4, 0x90, 0x80, 0x80]),
    (false, &[0xf1, 0x80, 0x80, 0x7f]),
    (false, &[0xf1, 0x80, 0x80, 0xc0]),
    (false, &[0xc2]),
    (false, &[0x61, 0xe1, 0x80]),
    (false, &[0xf1, 0x80, 0x80]),
    (false, &[0xe1, 0x80, 0x61]),
    (false, &[0xc2, 0x80, 0x80]),
    (true, &[0x41, 0xe2, 0x89, 0xa2, 0xce, 0x91, 0x2e]),
    (
        true,
        &[0xed, 0x95, 0x9c, 0xea, 0xb5, 0xad, 0xec, 0x96, 0xb4],
    ),
    (
        true,
        &[0xe6, 0x97, 0xa5, 0xe6, 0x9c, 0xac, 0xe8, 0xaa, 0x9e],
    ),
    (true, &[0xef, 0xbb, 0xbf, 0xf0, 0xa3, 0x8e, 0xb4]),
];

/// A hello with these texts.
fn hello(version: &[u8], uid: &[u8]) -> Vec<u8> {
    let mut body = Vec::new();
    for text in [version, uid] {
        body.extend((text.len() as u16).to_be_bytes());
        body.extend(text);
    }
    body.extend([0, 0, 0]);
    whole(4, 9, &body)
}

/// The number that a hello with these texts gets.
fn greet(archive: &mut dyn Archive, session: Session, version: &[u8], uid: &[u8]) -> u8 {
    let mut reply = [0xaa; 57_348];
    let message = hello(version, uid);
    let (number, after) = archive.serve(session, &message, DATE, &mut [], &mut [], &mut reply);
    if number != 0 {
        assert_eq!(after, session);
        assert_eq!(
            reply[..12],
            [
                0,
                10,
                1,
                9,
                0,
                6,
                b'w',
                b'h',
                b'y',
                b'=',
                b'0',
                b'0' + number
            ]
        );
    }
    number
}

/// Holds both programs to what a text is: as a uid, as a version, and before the tests 7 and 8.
fn hold(text: &[u8], good: bool) {
    let programs: [&mut dyn Archive; 2] = [&mut *under_test::archive(), &mut Second];
    for archive in programs {
        let uid = greet(archive, Session::Fresh, b"02", text);
        assert_eq!(uid, if good { 0 } else { 6 }, "uid {text:02x?}");
        let version = greet(archive, Session::Fresh, text, b"");
        let expected = match text {
            b"02" => 0,
            _ if good => 8,
            _ => 6,
        };
        assert_eq!(version, expected, "version {text:02x?}");
        let again = greet(archive, Session::Ready, b"02", text);
        assert_eq!(again, if good { 8 } else { 6 }, "again {text:02x?}");
    }
}

/// What the standard library says of a text; NUL is none of ours.
fn standard(text: &[u8]) -> bool {
    std::str::from_utf8(text).is_ok() && !text.contains(&0)
}

#[test]
fn table() {
    for (good, text) in TABLE {
        assert_eq!(standard(text), good);
        hold(text, good);
    }
}

#[test]
fn every_text_of_two_bytes() {
    for first in 0..=255 {
        hold(&[first], standard(&[first]));
        for second in 0..=255 {
            hold(&[first, second], standard(&[first, second]));
        }
    }
}

#[test]
fn longer_texts_at_the_borders() {
    let borders = [0x7f, 0x80, 0x8f, 0x90, 0x9f, 0xa0, 0xbf, 0xc0];
    for first in 0xe0..=0xf8 {
        for second in borders {
            for third in borders {
                let text = [first, second, third];
                hold(&text, standard(&text));
                for fourth in borders {
                    let text = [first, second, third, fourth];
                    hold(&text, standard(&text));
                }
            }
        }
    }
}

#[test]
fn bytes_are_counted_not_characters() {
    for (character, good, bad) in [
        ("\u{80}", 512, 513),
        ("\u{800}", 341, 342),
        ("\u{10000}", 256, 257),
    ] {
        hold(character.repeat(good).as_bytes(), true);
        hold(character.repeat(bad).as_bytes(), false);
    }
    // the limit cuts a character off
    hold(&"\u{800}".repeat(342).as_bytes()[..1024], false);
}

#[test]
fn crypto_and_codec_are_any_bytes() {
    let programs: [&mut dyn Archive; 2] = [&mut *under_test::archive(), &mut Second];
    for archive in programs {
        let mut reply = [0; 57_348];
        let body = [0, 2, b'0', b'2', 0, 0, 0, 2, 0xc0, 0, 1, 0xff];
        let (number, _) = archive.serve(
            Session::Fresh,
            &whole(4, 9, &body),
            DATE,
            &mut [],
            &mut [],
            &mut reply,
        );
        assert_eq!(number, 0);
    }
}
