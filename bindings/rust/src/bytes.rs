//! Big-endian numbers and rows of records in the bytes that the library wrote.

use core::{iter::Map, slice::ChunksExact};

/// The `N` bytes from `at`.
pub fn array<const N: usize>(bytes: &[u8], at: usize) -> [u8; N] {
    let mut a = [0; N];
    a.copy_from_slice(&bytes[at..at + N]);
    a
}

pub fn u16_at(bytes: &[u8], at: usize) -> u16 {
    u16::from_be_bytes(array(bytes, at))
}

pub fn u32_at(bytes: &[u8], at: usize) -> u32 {
    u32::from_be_bytes(array(bytes, at))
}

pub fn u64_at(bytes: &[u8], at: usize) -> u64 {
    u64::from_be_bytes(array(bytes, at))
}

/// Records that follow each other, read one by one.
pub type Records<'a, T> = Map<ChunksExact<'a, u8>, fn(&'a [u8]) -> T>;

pub fn records<'a, T>(bytes: &'a [u8], size: usize, read: fn(&'a [u8]) -> T) -> Records<'a, T> {
    bytes.chunks_exact(size).map(read)
}
