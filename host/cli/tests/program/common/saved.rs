//! What `put-file` and `save` make of bytes, made here.

use super::{hex, Place};

/// The bytes of a leaf.
pub const LEAF: usize = 57_344;

/// The bytes of hex digits.
pub fn unhex(text: &str) -> Vec<u8> {
    let digits = |at| u8::from_str_radix(&text[at..at + 2], 16).unwrap();
    (0..text.len()).step_by(2).map(digits).collect()
}

/// The front of a block without the zeros at its end, of units of so many bytes.
fn cut<'a>(block: &'a [u8], zero: &[u8]) -> &'a [u8] {
    let mut end = block.len();
    while block[..end].ends_with(zero) {
        end -= zero.len();
    }
    &block[..end]
}

/// The entry of these bytes: leaves of 57,344 bytes, pointer blocks of 2,867 scores, each cut.
pub fn entry_of(bytes: &[u8]) -> String {
    let zero = boundary::sha1(b"");
    let mut scores: Vec<_> = bytes
        .chunks(LEAF)
        .map(|leaf| boundary::sha1(cut(leaf, &[0])))
        .collect();
    let mut depth = 0;
    while scores.len() > 1 {
        depth += 1;
        let blocks = scores.chunks(LEAF / 20).map(<[_]>::concat);
        scores = blocks
            .map(|block| boundary::sha1(cut(&block, &zero)))
            .collect();
    }
    let top = hex(scores.first().unwrap_or(&zero));
    let (flags, size) = (1 + 4 * depth, bytes.len());
    format!("00000000e000e000{flags:02x}0000000000{size:012x}{top}")
}

/// Stores a root over files with these names and entries, as `save` does, whatever they are.
pub fn root_over(place: &Place, names: &str, entries: &str) -> String {
    place.put(names.as_bytes());
    let listed = entry_of(names.as_bytes()) + entries;
    let size = listed.len() / 2;
    let listed = place.put_as("dir", &unhex(&listed));
    let directory = format!("00000000e000dfe8030000000000{size:012x}{listed}");
    let block = place.put_as("dir", &unhex(&directory));
    let mut root = vec![0; 300];
    root[1] = 2;
    root[130..144].copy_from_slice(b"skywimple save");
    root[258..278].copy_from_slice(&unhex(&block));
    place.put_as("root", &root)
}
