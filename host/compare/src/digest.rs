//! The digest that the proved programs write of what they replay.

pub fn digest(bytes: impl IntoIterator<Item = u8>) -> u32 {
    bytes.into_iter().fold(0, |digest: u32, byte| {
        digest
            .wrapping_mul(0x0100_0193)
            .wrapping_add(u32::from(byte) + 1)
    })
}
