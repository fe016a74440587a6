//! Writes of numbers in LEB128, which the crate doesn't have: a loop in gimli's form (one group at a time; after the
//! shift it tests whether more follow), and one that tests before it shifts. Both check for room at each byte.

pub struct Full;

/// Writes the shortest encoding of an unsigned number to the prefix of `target`, and returns its length.
#[inline(always)]
pub fn put_uleb(target: &mut [u8], mut number: u64) -> Result<usize, Full> {
    let mut len = 0;
    loop {
        let mut byte = (number & 0x7f) as u8;
        number >>= 7;
        if number != 0 {
            byte |= 0x80;
        }
        *target.get_mut(len).ok_or(Full)? = byte;
        len += 1;
        if number == 0 {
            return Ok(len);
        }
    }
}

/// The same, with the test before the shift.
#[inline(always)]
pub fn put_uleb_tested(target: &mut [u8], mut number: u64) -> Result<usize, Full> {
    let mut len = 0;
    while number >= 0x80 {
        *target.get_mut(len).ok_or(Full)? = number as u8 | 0x80;
        number >>= 7;
        len += 1;
    }
    *target.get_mut(len).ok_or(Full)? = number as u8;
    Ok(len + 1)
}

/// Writes the shortest encoding of a signed number to the prefix of `target`, and returns its length.
#[inline(always)]
pub fn put_sleb(target: &mut [u8], mut number: i64) -> Result<usize, Full> {
    let mut len = 0;
    loop {
        let mut byte = number as u8;
        // Keeps the sign bit of the group, to be compared with the rest.
        number >>= 6;
        let done = number == 0 || number == -1;
        if done {
            byte &= 0x7f;
        } else {
            number >>= 1;
            byte |= 0x80;
        }
        *target.get_mut(len).ok_or(Full)? = byte;
        len += 1;
        if done {
            return Ok(len);
        }
    }
}

/// The same, with the test before the shift.
#[inline(always)]
pub fn put_sleb_tested(target: &mut [u8], mut number: i64) -> Result<usize, Full> {
    let mut len = 0;
    while !(-64..64).contains(&number) {
        *target.get_mut(len).ok_or(Full)? = number as u8 | 0x80;
        number >>= 7;
        len += 1;
    }
    *target.get_mut(len).ok_or(Full)? = number as u8 & 0x7f;
    Ok(len + 1)
}
