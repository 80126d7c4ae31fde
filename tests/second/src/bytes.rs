//! Marks, versions and numbers wider than a byte.

use crate::refusal::Refusal;

pub const VERSION: usize = 1;

/// The 16-bit number at this offset, high byte first.
pub fn wide(bytes: &[u8], offset: usize) -> usize {
    usize::from(bytes[offset]) * 256 + usize::from(bytes[offset + 1])
}

/// Appends a number as 16 bits, high byte first.
pub fn put_wide(out: &mut Vec<u8>, number: usize) {
    assert!(number < 65536);
    out.push((number / 256) as u8);
    out.push((number % 256) as u8);
}

/// Numbers 1 and 2, which are the same for all three files but for the mark and the header's length.
pub fn check_mark(bytes: &[u8], mark: &[u8; 3], header: usize, file: u8) -> Result<(), Refusal> {
    if bytes.len() < header || bytes[..3] != mark[..] {
        return Refusal::give(1, file, 0);
    }
    if wide(bytes, 3) != VERSION {
        return Refusal::give(2, file, 0);
    }
    Ok(())
}
