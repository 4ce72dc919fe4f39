//! CRC-32 of IEEE 802.3 as ordinary programs have it: eight bytes at once with eight tables, one for
//! each byte ("slicing by 8"), and what is left byte by byte.

/// Entry `[j][k]` is the register after the byte k and j zero bytes, from 0.
static TABLES: [[u32; 256]; 8] = tables();

const fn tables() -> [[u32; 256]; 8] {
    let mut tables = [[0; 256]; 8];
    let mut byte = 0;
    while byte < 256 {
        let mut zeros = 0;
        while zeros < 8 {
            tables[zeros][byte] = bits(8 + 8 * zeros, byte as u32);
            zeros += 1;
        }
        byte += 1;
    }
    tables
}

/// The register after so many bits.
const fn bits(count: usize, mut register: u32) -> u32 {
    let mut bit = 0;
    while bit < count {
        register = if register & 1 == 1 {
            register >> 1 ^ 0xedb8_8320
        } else {
            register >> 1
        };
        bit += 1;
    }
    register
}

pub fn crc32(s: &[u8]) -> u32 {
    let (eights, rest) = s.as_chunks::<8>();
    let register = eights.iter().fold(!0, |c: u32, b| {
        let first = (u32::from_le_bytes([b[0], b[1], b[2], b[3]]) ^ c).to_le_bytes();
        TABLES[7][first[0] as usize]
            ^ TABLES[6][first[1] as usize]
            ^ TABLES[5][first[2] as usize]
            ^ TABLES[4][first[3] as usize]
            ^ TABLES[3][b[4] as usize]
            ^ TABLES[2][b[5] as usize]
            ^ TABLES[1][b[6] as usize]
            ^ TABLES[0][b[7] as usize]
    });
    !rest
        .iter()
        .fold(register, |c, &b| c >> 8 ^ TABLES[0][(c as u8 ^ b) as usize])
}

#[cfg(test)]
mod tests {
    use super::{bits, crc32};
    use crate::random::Random;

    #[test]
    fn the_standards_check_value() {
        assert_eq!(crc32(b"123456789"), 0xcbf4_3926);
    }

    #[test]
    fn every_length_up_to_a_sector_as_bit_by_bit() {
        let input = Random::new(3).bytes(512);
        let mut register = !0;
        for (length, b) in input.iter().enumerate() {
            assert_eq!(crc32(&input[..length]), !register, "{length} bytes");
            register = bits(8, register ^ u32::from(*b));
        }
    }
}
