//! Decimal numbers in fixed columns.

/// Writes a number right-justified into the whole of `column`.
///
/// Panics if it does not fit; every number the format holds fits its column.
pub fn write_column(column: &mut [u8], number: u64) {
    column.fill(b' ');
    let mut rest = number;
    let mut at = column.len();
    loop {
        at -= 1;
        column[at] = b'0' + (rest % 10) as u8;
        rest /= 10;
        if rest == 0 {
            return;
        }
    }
}

/// Reads a column strictly: spaces, then digits to the end, no leading zero.
///
/// Columns are at most 11 wide, so the number fits easily.
pub fn read_column(column: &[u8]) -> Option<u64> {
    let mut start = 0;
    while start < column.len() && column[start] == b' ' {
        start += 1;
    }
    let digits = &column[start..];
    if digits.is_empty() {
        return None;
    }
    if digits[0] == b'0' && digits.len() > 1 {
        return None;
    }
    let mut number: u64 = 0;
    for &digit in digits {
        if !digit.is_ascii_digit() {
            return None;
        }
        number = number * 10 + u64::from(digit - b'0');
    }
    Some(number)
}

/// Reads a column that holds an epoch, 1 to the largest 32-bit number.
pub fn read_epoch(column: &[u8]) -> Option<u32> {
    let number = read_column(column)?;
    if number == 0 || number > u64::from(u32::MAX) {
        return None;
    }
    Some(number as u32)
}
