//! Little-endian words, and the widening of signed loads.

/// The `width` bytes at `at` as a number. Width is 1, 2 or 4.
#[inline]
pub fn read(bytes: &[u8], at: usize, width: u32) -> u32 {
    match width {
        1 => bytes[at] as u32,
        2 => u16::from_le_bytes(bytes[at..at + 2].try_into().unwrap()) as u32,
        _ => u32::from_le_bytes(bytes[at..at + 4].try_into().unwrap()),
    }
}

/// Writes `value` as `width` bytes at `at`. Width is 1, 2 or 4.
#[inline]
pub fn write(bytes: &mut [u8], at: usize, width: u32, value: u32) {
    match width {
        1 => bytes[at] = value as u8,
        2 => bytes[at..at + 2].copy_from_slice(&(value as u16).to_le_bytes()),
        _ => bytes[at..at + 4].copy_from_slice(&value.to_le_bytes()),
    }
}

/// The signed number that `width` bytes with this unsigned value mean.
#[inline]
pub fn signed(value: u32, width: u32) -> i32 {
    match width {
        1 => value as u8 as i8 as i32,
        2 => value as u16 as i16 as i32,
        _ => value as i32,
    }
}
