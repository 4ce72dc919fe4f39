//! Two runs of bytes with one SHA-1: the pair that Stevens, Bursztein, Karpman, Albertini and
//! Markov published in 2017, without what follows their difference.

/// The 192 bytes that both start with.
const START: &str = "\
    255044462d312e330a25e2e3cfd30a0a0a312030206f626a0a3c3c2f57696474682032203020522f48656967\
    68742033203020522f547970652034203020522f537562747970652035203020522f46696c74657220362030\
    20522f436f6c6f7253706163652037203020522f4c656e6774682038203020522f42697473506572436f6d70\
    6f6e656e7420383e3e0a73747265616d0affd8fffe00245348412d3120697320646561642121212121852fec\
    092339759c39b1a1c63c4c97e1fffe01";

/// The 128 bytes of the one.
const ONE: &str = "\
    7f46dc93a6b67e013b029aaa1db2560b45ca67d688c7f84b8c4c791fe02b3df614f86db1690901c56b45c153\
    0afedfb76038e972722fe7ad728f0e4904e046c230570fe9d41398abe12ef5bc942be33542a4802d98b5d70f\
    2a332ec37fac3514e74ddc0f2cc1a874cd0c78305a21566461309789606bd0bf3f98cda8044629a1";

/// The 128 bytes of the other.
const OTHER: &str = "\
    7346dc9166b67e118f029ab621b2560ff9ca67cca8c7f85ba84c79030c2b3de218f86db3a90901d5df45c14f\
    26fedfb3dc38e96ac22fe7bd728f0e45bce046d23c570feb141398bb552ef5a0a82be331fea48037b8b5d71f\
    0e332edf93ac3500eb4ddc0decc1a864790c782c76215660dd309791d06bd0af3f98cda4bc4629b1";

/// Both, of 320 bytes each.
pub fn pair() -> (Vec<u8>, Vec<u8>) {
    (bytes(&[START, ONE]), bytes(&[START, OTHER]))
}

fn bytes(parts: &[&str]) -> Vec<u8> {
    let text = parts.concat();
    let digits: Vec<u32> = text.chars().filter_map(|c| c.to_digit(16)).collect();
    digits.chunks(2).map(|d| (16 * d[0] + d[1]) as u8).collect()
}

#[cfg(test)]
mod tests {
    use super::pair;
    use second::sha1::sha1;

    #[test]
    fn collide() {
        let (one, other) = pair();
        assert_eq!((one.len(), other.len()), (320, 320));
        assert_ne!(one, other);
        assert_eq!(sha1(&one), sha1(&other));
    }
}
