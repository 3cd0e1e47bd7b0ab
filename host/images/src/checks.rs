//! The three checks, so that a generated or damaged image can be given a right one.

/// The FBOSS check: polynomial 1021h, start 1D0Fh (01, FBOSS v5).
pub fn check16(bytes: &[u8]) -> u16 {
    bytes.iter().fold(0x1D0F, |check, &byte| {
        (0..8).fold(check ^ u16::from(byte) << 8, |check, _| {
            (check << 1) ^ ((check >> 15) * 0x1021)
        })
    })
}

/// The Tiny check: polynomial 07h, start 0 (01, Tiny version 2).
pub fn check8(bytes: &[u8]) -> u8 {
    bytes.iter().fold(0, |check, &byte| {
        (0..8).fold(check ^ byte, |check, _| {
            (check << 1) ^ ((check >> 7) * 0x07)
        })
    })
}

/// The ONIE check, the CRC-32 of IEEE 802.3: polynomial 04C11DB7h, start FFFFFFFFh, the bits of each
/// byte and of the result the other way round, and every bit changed at the end (02, ONIE images).
pub fn check32(bytes: &[u8]) -> u32 {
    let check = bytes.iter().fold(u32::MAX, |check, &byte| {
        let mixed = check ^ u32::from(byte.reverse_bits()) << 24;
        (0..8).fold(mixed, |check, _| {
            (check << 1) ^ ((check >> 31) * 0x04C1_1DB7)
        })
    });
    !check.reverse_bits()
}
