//! Lines of numbers that are read from a file piece by piece, and numbers that are printed.
use std::fs::File;
use std::io::Read;

/// Hands each whole line of a file to `take`, without its newline, until `take` says to stop.
pub fn each_line(mut file: File, mut take: impl FnMut(&[u8]) -> bool) -> std::io::Result<()> {
    let (mut buffer, mut held) = (vec![0u8; 1 << 18], 0);
    loop {
        let count = file.read(&mut buffer[held..])?;
        if count == 0 {
            return Ok(());
        }
        held += count;
        let mut from = 0;
        while let Some(len) = newline(&buffer[from..held]) {
            if !take(&buffer[from..from + len]) {
                return Ok(());
            }
            from += len + 1;
        }
        buffer.copy_within(from..held, 0);
        held -= from;
    }
}

/// The place of the first newline, looked for in eight bytes at a time.
#[inline]
fn newline(bytes: &[u8]) -> Option<usize> {
    const ONES: u64 = 0x0101_0101_0101_0101;
    let mut at = 0;
    while let Some(eight) = bytes.get(at..).and_then(|rest| rest.first_chunk::<8>()) {
        let other = u64::from_le_bytes(*eight) ^ (ONES * u64::from(b'\n'));
        let found = other.wrapping_sub(ONES) & !other & (ONES << 7);
        if found != 0 {
            return Some(at + found.trailing_zeros() as usize / 8);
        }
        at += 8;
    }
    bytes[at..].iter().position(|byte| *byte == b'\n').map(|place| at + place)
}

/// The numbers of a line behind its word, as many as there are places; nothing where one is out of form.
#[inline]
pub fn numbers<const N: usize>(bytes: &[u8]) -> Option<[u64; N]> {
    let (mut found, mut at) = ([0u64; N], 0);
    for (place, value) in found.iter_mut().enumerate() {
        if place > 0 {
            bytes.get(at).filter(|byte| **byte == b' ')?;
            at += 1;
        }
        let from = at;
        while let Some(digit) = bytes.get(at).map(|byte| byte.wrapping_sub(b'0')).filter(|digit| *digit <= 9) {
            *value = value.wrapping_mul(10).wrapping_add(digit.into());
            at += 1;
        }
        let is_plain = at == from + 1 || at > from && bytes[from] != b'0';
        if !is_plain || at - from > 19 || *value > 1 << 60 {
            return None;
        }
    }
    (at == bytes.len()).then_some(found)
}

/// By how much an uncertainty grows while a counter advances: in 64 bits where they are enough.
#[inline]
pub fn growth(ppm: u64, counter: u64) -> u64 {
    match ppm.checked_mul(counter) {
        Some(product) => product.div_ceil(1_000_000),
        None => (u128::from(ppm) * u128::from(counter)).div_ceil(1_000_000) as u64,
    }
}

/// Puts a number in decimal digits.
pub fn put_number(bytes: &mut Vec<u8>, mut number: u64) {
    let mut digits = [0u8; 20];
    let mut at = digits.len();
    loop {
        at -= 1;
        digits[at] = b'0' + (number % 10) as u8;
        number /= 10;
        if number == 0 {
            break;
        }
    }
    bytes.extend_from_slice(&digits[at..]);
}
