//! SHA-1 of FIPS 180-4, step by step as the standard has it.

/// The SHA-1 of a block's data.
pub type Score = [u8; 20];

/// The SHA-1 of no bytes.
pub const ZERO_SCORE: Score = [
    0xda, 0x39, 0xa3, 0xee, 0x5e, 0x6b, 0x4b, 0x0d, 0x32, 0x55, 0xbf, 0xef, 0x95, 0x60, 0x18, 0x90,
    0xaf, 0xd8, 0x07, 0x09,
];

pub fn sha1(message: &[u8]) -> Score {
    let mut hash = [
        0x6745_2301,
        0xefcd_ab89,
        0x98ba_dcfe,
        0x1032_5476,
        0xc3d2_e1f0,
    ];
    for block in padded(message).chunks(64) {
        hash = next(hash, &schedule(block));
    }
    let mut score = [0; 20];
    for i in 0..5 {
        score[4 * i..4 * i + 4].copy_from_slice(&u32::to_be_bytes(hash[i]));
    }
    score
}

/// The message, a one bit, zero bits and the message's count of bits (section 5.1.1).
fn padded(message: &[u8]) -> Vec<u8> {
    let mut bytes = message.to_vec();
    bytes.push(0x80);
    while bytes.len() % 64 != 56 {
        bytes.push(0);
    }
    bytes.extend((8 * message.len() as u64).to_be_bytes());
    bytes
}

/// The message schedule of one block (section 6.1.2, step 1).
fn schedule(block: &[u8]) -> [u32; 80] {
    let mut w = [0; 80];
    for t in 0..16 {
        let bytes = [
            block[4 * t],
            block[4 * t + 1],
            block[4 * t + 2],
            block[4 * t + 3],
        ];
        w[t] = u32::from_be_bytes(bytes);
    }
    for t in 16..80 {
        w[t] = (w[t - 3] ^ w[t - 8] ^ w[t - 14] ^ w[t - 16]).rotate_left(1);
    }
    w
}

/// The hash after one more block (section 6.1.2, steps 2 to 4).
fn next(hash: [u32; 5], w: &[u32; 80]) -> [u32; 5] {
    let [mut a, mut b, mut c, mut d, mut e] = hash;
    for (t, word) in w.iter().enumerate() {
        let (f, k) = match t {
            0..=19 => ((b & c) ^ (!b & d), 0x5a82_7999),
            20..=39 => (b ^ c ^ d, 0x6ed9_eba1),
            40..=59 => ((b & c) ^ (b & d) ^ (c & d), 0x8f1b_bcdc),
            _ => (b ^ c ^ d, 0xca62_c1d6),
        };
        let sum = a
            .rotate_left(5)
            .wrapping_add(f)
            .wrapping_add(e)
            .wrapping_add(k)
            .wrapping_add(*word);
        e = d;
        d = c;
        c = b.rotate_left(30);
        b = a;
        a = sum;
    }
    [
        hash[0].wrapping_add(a),
        hash[1].wrapping_add(b),
        hash[2].wrapping_add(c),
        hash[3].wrapping_add(d),
        hash[4].wrapping_add(e),
    ]
}
