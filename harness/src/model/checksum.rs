//! The checksum (the paper's check).

const MODULUS: u32 = 65_535;

/// Two running sums: the first of the bytes, the second of the first.
pub fn checksum(bytes: &[u8]) -> u32 {
    let mut a: u32 = 1;
    let mut b: u32 = 0;
    for &byte in bytes {
        a = (a + u32::from(byte)) % MODULUS;
        b = (b + a) % MODULUS;
    }
    b * 65_536 + a
}
