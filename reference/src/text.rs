//! Text of bytes, and the checksum of a store.

use std::io::{self, Write};

const DIGITS: [u8; 16] = *b"0123456789ABCDEF";

/// Writes bytes as upper-case hex digits.
pub fn write_hex(output: &mut impl Write, bytes: &[u8]) -> io::Result<()> {
    let mut line = [0; 512];
    for part in bytes.chunks(line.len() / 2) {
        for (pair, byte) in line.chunks_exact_mut(2).zip(part) {
            pair[0] = DIGITS[usize::from(byte >> 4)];
            pair[1] = DIGITS[usize::from(byte & 0x0F)];
        }
        output.write_all(&line[..2 * part.len()])?;
    }
    Ok(())
}

/// The Adler-32 checksum.
pub fn adler32(bytes: &[u8]) -> u32 {
    const MODULUS: u32 = 65_521;
    // In parts of at most 5,552 bytes, neither sum passes 32 bits.
    const PART: usize = 5_552;
    let (mut low, mut high) = (1u32, 0u32);
    for part in bytes.chunks(PART) {
        for &byte in part {
            low += u32::from(byte);
            high += low;
        }
        low %= MODULUS;
        high %= MODULUS;
    }
    high << 16 | low
}

#[cfg(test)]
mod tests {
    use super::*;

    #[test]
    fn adler_of_known_text() {
        assert_eq!(adler32(b""), 1);
        assert_eq!(adler32(b"Wikipedia"), 0x11E6_0398);
    }

    #[test]
    fn adler_of_many_high_bytes() {
        let bytes = vec![0xFF; 20_000];
        let (mut low, mut high) = (1u64, 0u64);
        for _ in 0..bytes.len() {
            low = (low + 255) % 65_521;
            high = (high + low) % 65_521;
        }
        assert_eq!(u64::from(adler32(&bytes)), high << 16 | low);
    }

    #[test]
    fn hex_of_all_bytes() {
        let bytes: Vec<u8> = (0..=255).cycle().take(700).collect();
        let mut text = Vec::new();
        write_hex(&mut text, &bytes).unwrap();
        let expected: String = bytes.iter().map(|byte| format!("{byte:02X}")).collect();
        assert_eq!(String::from_utf8(text).unwrap(), expected);
    }
}
