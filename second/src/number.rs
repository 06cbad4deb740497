//! Decimal integers of any length, as document 01 writes them.

/// Far above every limit: a longer number is kept as this one, so comparing stays exact
/// and no sum of a whole text of such numbers can wrap.
pub const CAP: u128 = 1 << 80;

/// Digits without a leading zero; `0` alone is fine.
fn is_plain(digits: &[u8]) -> bool {
    let leading_zero = digits.len() > 1 && digits[0] == b'0';
    !digits.is_empty() && !leading_zero && digits.iter().all(u8::is_ascii_digit)
}

fn capped(digits: &[u8]) -> u128 {
    let step = |value: u128, digit: &u8| (value * 10 + u128::from(digit - b'0')).min(CAP);
    digits.iter().fold(0, step)
}

/// The value of an integer token not below zero, cut to CAP.
pub fn natural(token: &[u8]) -> Option<u128> {
    is_plain(token).then(|| capped(token))
}

/// The value of an integer token, cut to CAP on either side of zero.
pub fn integer(token: &[u8]) -> Option<i128> {
    match token.strip_prefix(b"-") {
        Some(b"0") => None,
        Some(digits) => natural(digits).map(|size| -(size as i128)),
        None => natural(token).map(|size| size as i128),
    }
}

pub fn natural_32(field: &[u8]) -> Option<u32> {
    natural(field).and_then(|value| u32::try_from(value).ok())
}

pub fn signed_32(field: &[u8]) -> Option<i32> {
    integer(field).and_then(|value| i32::try_from(value).ok())
}
