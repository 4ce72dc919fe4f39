//! SHA-1 of FIPS 180-4 as ordinary programs have it: the schedule in a ring of sixteen words, all eighty
//! rounds written out.

type Hash = [u32; 5];

const START: Hash = [
    0x6745_2301,
    0xefcd_ab89,
    0x98ba_dcfe,
    0x1032_5476,
    0xc3d2_e1f0,
];

pub fn sha1(message: &[u8]) -> [u8; 20] {
    let mut hash = START;
    let (blocks, rest) = message.as_chunks::<64>();
    for block in blocks {
        compress(&mut hash, block);
    }

    let mut end = [0; 128];
    end[..rest.len()].copy_from_slice(rest);
    end[rest.len()] = 0x80;
    let size = if rest.len() < 56 { 64 } else { 128 };
    let bits = message.len() as u64 * 8;
    end[size - 8..size].copy_from_slice(&bits.to_be_bytes());
    for block in end[..size].as_chunks::<64>().0 {
        compress(&mut hash, block);
    }

    let mut digest = [0; 20];
    for (bytes, word) in digest.chunks_exact_mut(4).zip(hash) {
        bytes.copy_from_slice(&word.to_be_bytes());
    }
    digest
}

fn choose(b: u32, c: u32, d: u32) -> u32 {
    d ^ (b & (c ^ d))
}

fn parity(b: u32, c: u32, d: u32) -> u32 {
    b ^ c ^ d
}

fn majority(b: u32, c: u32, d: u32) -> u32 {
    (b & c) | (d & (b | c))
}

/// The word of a round, which from round 16 on takes the place of the one sixteen before it.
#[inline(always)]
fn word(ring: &mut [u32; 16], t: usize) -> u32 {
    if t >= 16 {
        let far = ring[(t + 13) % 16] ^ ring[(t + 8) % 16] ^ ring[(t + 2) % 16];
        ring[t % 16] = (far ^ ring[t % 16]).rotate_left(1);
    }
    ring[t % 16]
}

fn compress(hash: &mut Hash, block: &[u8; 64]) {
    let bytes = block.as_chunks::<4>().0;
    let mut ring: [u32; 16] = std::array::from_fn(|t| u32::from_be_bytes(bytes[t]));
    let [mut a, mut b, mut c, mut d, mut e] = *hash;
    macro_rules! round {
        ($f:ident, $k:literal, $t:expr, $a:ident, $b:ident, $c:ident, $d:ident, $e:ident) => {
            $e = $e
                .wrapping_add($a.rotate_left(5))
                .wrapping_add($f($b, $c, $d))
                .wrapping_add($k)
                .wrapping_add(word(&mut ring, $t));
            $b = $b.rotate_left(30);
        };
    }
    // After five rounds each variable has its own letter again.
    macro_rules! rounds {
        ($f:ident, $k:literal, $($t:literal)*) => {$(
            round!($f, $k, $t, a, b, c, d, e);
            round!($f, $k, $t + 1, e, a, b, c, d);
            round!($f, $k, $t + 2, d, e, a, b, c);
            round!($f, $k, $t + 3, c, d, e, a, b);
            round!($f, $k, $t + 4, b, c, d, e, a);
        )*};
    }
    rounds!(choose, 0x5a82_7999, 0 5 10 15);
    rounds!(parity, 0x6ed9_eba1, 20 25 30 35);
    rounds!(majority, 0x8f1b_bcdc, 40 45 50 55);
    rounds!(parity, 0xca62_c1d6, 60 65 70 75);
    for (h, x) in hash.iter_mut().zip([a, b, c, d, e]) {
        *h = h.wrapping_add(x);
    }
}

#[cfg(test)]
mod tests {
    use super::{sha1, START};
    use crate::random::Random;

    fn hex(digest: [u8; 20]) -> String {
        digest.iter().map(|byte| format!("{byte:02x}")).collect()
    }

    #[test]
    fn the_standards_vectors() {
        let vectors: [(&[u8], &str); 4] = [
            (b"", "da39a3ee5e6b4b0d3255bfef95601890afd80709"),
            (b"abc", "a9993e364706816aba3e25717850c26c9cd0d89d"),
            (
                b"abcdbcdecdefdefgefghfghighijhijkijkljklmklmnlmnomnopnopq",
                "84983e441c3bd26ebaae4aa1f95129e5e54670f1",
            ),
            (
                &[b'a'; 1_000_000],
                "34aa973cd4c4daa4f61eeb2bdbad27316534016f",
            ),
        ];
        for (message, digest) in vectors {
            assert_eq!(hex(sha1(message)), digest, "{} bytes", message.len());
        }
    }

    /// The digest by the standard's own words: the message padded whole, a schedule of 80 words, and the
    /// function and constant looked up in each round.
    fn by_the_book(message: &[u8]) -> [u8; 20] {
        let mut padded = message.to_vec();
        padded.push(0x80);
        padded.resize(padded.len().next_multiple_of(64), 0);
        if message.len() % 64 >= 56 {
            padded.resize(padded.len() + 64, 0);
        }
        let end = padded.len() - 8;
        padded[end..].copy_from_slice(&(message.len() as u64 * 8).to_be_bytes());

        let mut hash = START;
        for block in padded.chunks_exact(64) {
            let mut w = [0; 80];
            for (word, bytes) in w.iter_mut().zip(block.as_chunks::<4>().0) {
                *word = u32::from_be_bytes(*bytes);
            }
            for t in 16..80 {
                w[t] = (w[t - 3] ^ w[t - 8] ^ w[t - 14] ^ w[t - 16]).rotate_left(1);
            }
            let [mut a, mut b, mut c, mut d, mut e] = hash;
            for (t, word) in w.into_iter().enumerate() {
                let (f, k) = match t / 20 {
                    0 => ((b & c) ^ (!b & d), 0x5a82_7999),
                    1 => (b ^ c ^ d, 0x6ed9_eba1),
                    2 => ((b & c) ^ (b & d) ^ (c & d), 0x8f1b_bcdc),
                    _ => (b ^ c ^ d, 0xca62_c1d6_u32),
                };
                let sum = [f, e, k, word].into_iter().fold(0, u32::wrapping_add);
                (a, b, c, d, e) = (
                    sum.wrapping_add(a.rotate_left(5)),
                    a,
                    b.rotate_left(30),
                    c,
                    d,
                );
            }
            for (h, x) in hash.iter_mut().zip([a, b, c, d, e]) {
                *h = h.wrapping_add(x);
            }
        }
        let mut digest = [0; 20];
        for (bytes, word) in digest.chunks_exact_mut(4).zip(hash) {
            bytes.copy_from_slice(&word.to_be_bytes());
        }
        digest
    }

    #[test]
    fn every_length_as_by_the_book() {
        let input = Random::new(5).bytes(8192);
        for length in (0..=300).chain([8191, 8192]) {
            let message = &input[..length];
            assert_eq!(sha1(message), by_the_book(message), "{length} bytes");
        }
    }
}
