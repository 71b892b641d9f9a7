//! Numbers in the bytes of an image, the lowest byte first.

/// The number in all the bytes.
pub fn number(bytes: &[u8]) -> u64 {
    let bytes = bytes.iter().rev();
    bytes.fold(0, |number, &byte| number << 8 | u64::from(byte))
}

/// Writes the number into all the bytes; what they cannot hold is a mistake of
/// the caller's.
pub fn put(bytes: &mut [u8], number: u64) {
    let (low, high) = (number.to_le_bytes(), bytes.len());
    assert!(
        low[high..].iter().all(|&byte| byte == 0),
        "{number} is too large"
    );
    bytes.copy_from_slice(&low[..high]);
}

/// Whether an unused place holds zeros.
pub fn unused(bytes: &[u8]) -> bool {
    bytes.iter().all(|&byte| byte == 0)
}
