//! Passwords: 32 bytes are sent and kept, but only those before the first zero
//! count.

use super::PASSWORD;

/// A password is the bytes before the first zero, or all 32.
pub fn of(bytes: &[u8]) -> &[u8] {
    let zero = bytes.iter().position(|&byte| byte == 0);
    &bytes[..zero.unwrap_or(bytes.len())]
}

/// Enter and change compare these only, each side up to its own zero.
pub fn same(one: &[u8], other: &[u8]) -> bool {
    of(one) == of(other)
}

/// Start and change store it with zeros from its first zero on.
pub fn stored(bytes: &[u8]) -> [u8; PASSWORD] {
    let password = of(bytes);
    let mut stored = [0; PASSWORD];
    stored[..password.len()].copy_from_slice(password);
    stored
}
