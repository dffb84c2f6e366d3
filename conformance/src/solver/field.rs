//! Fields of five bytes.

/// The number of a field, none for a blank or a bad one.
#[inline]
pub fn number(field: &[u8]) -> Option<u32> {
    read(field, None)
}

/// A position's mark, none for a bad one. Blank means 0.
#[inline]
pub fn mark(field: &[u8]) -> Option<u32> {
    read(field, Some(0))
}

/// The number of a field, `blank` for five spaces. Plain loops: on fields this short they are quicker than word tricks.
#[inline]
fn read(field: &[u8], blank: Option<u32>) -> Option<u32> {
    let field: &[u8; 5] = field.try_into().ok()?;
    let mut place = 0;
    while field[place] == b' ' {
        place += 1;
        if place == 5 {
            return blank;
        }
    }
    if field[place] == b'0' && place < 4 {
        return None;
    }
    let mut number = 0;
    for &byte in &field[place..] {
        let digit = byte.wrapping_sub(b'0');
        if digit > 9 {
            return None;
        }
        number = 10 * number + u32::from(digit);
    }
    Some(number)
}

/// A number of at most five digits, right-justified.
pub fn put(field: &mut [u8], number: u16) {
    field.copy_from_slice(b"    0");
    let mut rest = number;
    let mut place = 5;
    while rest > 0 {
        place -= 1;
        field[place] = b'0' + (rest % 10) as u8;
        rest /= 10;
    }
}
