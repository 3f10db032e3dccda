//! CRC-32 as zlib and PNG have it: every change of a single bit, and of up to 32 bits side by side, gives another value.

/// The check value of bytes.
pub fn crc32(bytes: &[u8]) -> u32 {
    /// The polynomial, its lowest power first.
    const POLYNOMIAL: u32 = 0xedb8_8320;
    let step = |value: u32| if value & 1 == 1 { value >> 1 ^ POLYNOMIAL } else { value >> 1 };
    !bytes.iter().fold(!0, |value, &byte| (0..8).fold(value ^ u32::from(byte), |value, _| step(value)))
}

#[test]
fn the_value_is_that_of_the_known_examples() {
    for (bytes, value) in [(&b""[..], 0), (b"123456789", 0xcbf4_3926), (b"IEND", 0xae42_6082)] {
        assert_eq!(crc32(bytes), value);
    }
}
