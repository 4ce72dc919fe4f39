//! SHA-1 and CRC-32 through the wrapper: published vectors, short buffers, and ordinary Rust.

use boundary::{crc32, sha1, sha1_into, Refusal};
use plain::random::Random;

fn hex(bytes: &[u8]) -> String {
    bytes.iter().map(|b| format!("{b:02x}")).collect()
}

#[test]
fn sha1_of_published_vectors() {
    let million = vec![b'a'; 1_000_000];
    let vectors: [(&[u8], &str); 4] = [
        (b"", "da39a3ee5e6b4b0d3255bfef95601890afd80709"),
        (b"abc", "a9993e364706816aba3e25717850c26c9cd0d89d"),
        (
            b"abcdbcdecdefdefgefghfghighijhijkijkljklmklmnlmnomnopnopq",
            "84983e441c3bd26ebaae4aa1f95129e5e54670f1",
        ),
        (&million, "34aa973cd4c4daa4f61eeb2bdbad27316534016f"),
    ];
    for (message, digest) in vectors {
        assert_eq!(hex(&sha1(message)), digest);
    }
}

#[test]
fn crc32_of_published_vectors() {
    assert_eq!(crc32(b""), 0);
    assert_eq!(crc32(b"123456789"), 0xcbf4_3926);
    assert_eq!(
        crc32(b"The quick brown fox jumps over the lazy dog"),
        0x414f_a339
    );
}

#[test]
fn a_short_buffer_is_left_alone() {
    for length in 0..20 {
        let mut out = vec![0x5a; length];
        assert_eq!(sha1_into(b"abc", &mut out), Err(Refusal::Buffer));
        assert_eq!(out, vec![0x5a; length]);
    }
}

#[test]
fn a_long_buffer_keeps_its_rest() {
    for length in 20..64 {
        let mut out = vec![0x5a; length];
        assert_eq!(sha1_into(b"abc", &mut out), Ok(()));
        assert_eq!(out[..20], sha1(b"abc"));
        assert_eq!(out[20..], vec![0x5a; length - 20]);
    }
}

#[test]
fn as_ordinary_rust() {
    let mut random = Random::new(2);
    for length in (0..300).chain([499, 512, 8192, 57_344]) {
        let message = random.bytes(length);
        assert_eq!(
            sha1(&message),
            plain::sha1::sha1(&message),
            "{message:02x?}"
        );
        assert_eq!(
            crc32(&message),
            plain::crc32::crc32(&message),
            "{message:02x?}"
        );
    }
}
