//! The check word.

/// The check word by a register of 16 stages, a bit at a time.
pub fn check_word(bytes: &[u8]) -> u16 {
    let mut register = 0xFFFF_u16;
    for i in 0..8 * bytes.len() {
        let bit = u16::from(bytes[i / 8] >> (7 - i % 8) & 1);
        let feedback = register >> 15 ^ bit;
        register = (register << 1) ^ (feedback * 0x1021);
    }
    !register
}

/// Bytes with their check word after them.
pub fn checked(mut bytes: Vec<u8>) -> Vec<u8> {
    let check = check_word(&bytes);
    bytes.extend(check.to_be_bytes());
    bytes
}
