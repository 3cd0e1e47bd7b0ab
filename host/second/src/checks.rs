//! The checks: that of FBOSS is 16 bits wide, that of Tiny 8 bits, and that of ONIE 32 bits.
//!
//! All are computed one bit at a time, straight from their descriptions. Those of FBOSS and Tiny go
//! high bit first, with nothing reflected and no final change. That of ONIE is reflected: it goes
//! low bit first, with the polynomial's bits the other way round.

/// The FBOSS check: polynomial 1021h, start 1D0Fh.
pub(crate) fn check16(bytes: &[u8]) -> u16 {
    bytes.iter().fold(0x1D0F, |check, &byte| {
        let mixed = check ^ (u16::from(byte) << 8);
        (0..8).fold(mixed, |check, _| match check & 0x8000 {
            0 => check << 1,
            _ => (check << 1) ^ 0x1021,
        })
    })
}

/// The Tiny check: polynomial 07h, start 0.
pub(crate) fn check8(bytes: &[u8]) -> u8 {
    bytes.iter().fold(0, |check, &byte| {
        (0..8).fold(check ^ byte, |check, _| match check & 0x80 {
            0 => check << 1,
            _ => (check << 1) ^ 0x07,
        })
    })
}

/// The ONIE check, the CRC-32 of IEEE 802.3: polynomial 04C11DB7h, start FFFFFFFFh, and at the end
/// every bit changed.
pub(crate) fn check32(bytes: &[u8]) -> u32 {
    const REFLECTED: u32 = 0x04C1_1DB7_u32.reverse_bits();
    let check = bytes.iter().fold(0xFFFF_FFFF, |check, &byte| {
        let mixed = check ^ u32::from(byte);
        (0..8).fold(mixed, |check, _| match check & 1 {
            0 => check >> 1,
            _ => (check >> 1) ^ REFLECTED,
        })
    });
    check ^ 0xFFFF_FFFF
}

#[cfg(test)]
mod tests {
    use super::*;

    #[test]
    fn the_reference_values_of_the_16_bit_check() {
        assert_eq!(check16(b""), 0x1D0F);
        assert_eq!(check16(b"A"), 0x9479);
        assert_eq!(check16(b"123456789"), 0xE5CC);
        assert_eq!(check16(&[b'A'; 256]), 0xE938);
    }

    #[test]
    fn the_8_bit_check() {
        assert_eq!(check8(b""), 0);
        assert_eq!(check8(&[0x56, 0x02, 0x04]), 0x6F);
        // The usual reference value of this polynomial with start 0.
        assert_eq!(check8(b"123456789"), 0xF4);
    }

    #[test]
    fn the_reference_values_of_the_32_bit_check() {
        assert_eq!(check32(b""), 0);
        assert_eq!(check32(b"123456789"), 0xCBF4_3926);
        assert_eq!(check32(&[0x00; 32]), 0x190A_55AD);
        assert_eq!(check32(&[0xFF; 32]), 0xFF6C_AB0B);
        // An ONIE image without entries, up to its end's length (02, ONIE images).
        let image = b"TlvInfo\0\x01\x00\x06\xFE\x04";
        assert_eq!(check32(image), 0xD443_1C18);
        // The payload of a vendor extension (003, Examples).
        let payload = b"\x08DQ000MPW\x00\x09\x00\x00\x00\x00\x00\x00\x00\x00\x00";
        assert_eq!(check32(payload), 0x0260_514B);
    }

    #[test]
    fn the_32_bit_check_stored_low_byte_first_leaves_what_it_always_leaves() {
        let bytes: Vec<u8> = (0..=255).collect();
        for length in 0..=256 {
            let mut with32 = bytes[..length].to_vec();
            with32.extend(check32(&with32).to_le_bytes());
            assert_eq!(check32(&with32), 0x2144_DF1C);
        }
    }

    #[test]
    fn a_sequence_followed_by_its_check_leaves_nothing() {
        let bytes: Vec<u8> = (0..=255).collect();
        let mut with16 = bytes.clone();
        with16.extend(check16(&bytes).to_be_bytes());
        assert_eq!(check16(&with16), 0);
        let mut with8 = bytes.clone();
        with8.push(check8(&bytes));
        assert_eq!(check8(&with8), 0);
    }
}
