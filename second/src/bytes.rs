//! The sizes of the buffers and how numbers stand in them: little-endian,
//! at a byte offset. Everything above speaks of pages and records instead.

/// Bytes of one page.
pub const PAGE_BYTES: usize = 256;
/// Pages of the work pages, and of the store.
pub const PAGE_COUNT: usize = 64;
/// Bytes of all work pages, and of the whole store.
pub const PAGES_BYTES: usize = PAGE_BYTES * PAGE_COUNT;
/// Bytes of the log.
pub const LOG_BYTES: usize = 8192;

/// The two numbers beside the log that each call is lent.
#[derive(Clone, Copy, PartialEq, Eq, Debug, Default)]
pub struct Numbers {
    pub used: u32,
    pub forced: u32,
}

pub fn get16(bytes: &[u8], at: usize) -> u16 {
    u16::from_le_bytes([bytes[at], bytes[at + 1]])
}

pub fn get32(bytes: &[u8], at: usize) -> u32 {
    u32::from_le_bytes([bytes[at], bytes[at + 1], bytes[at + 2], bytes[at + 3]])
}

pub fn put16(bytes: &mut [u8], at: usize, number: u16) {
    bytes[at..at + 2].copy_from_slice(&number.to_le_bytes());
}

pub fn put32(bytes: &mut [u8], at: usize, number: u32) {
    bytes[at..at + 4].copy_from_slice(&number.to_le_bytes());
}

pub fn all_zero(bytes: &[u8]) -> bool {
    bytes.iter().all(|&b| b == 0)
}

/// The bytes of page `page` within work or store pages.
pub fn page_of(pages: &[u8], page: u16) -> &[u8] {
    let at = page as usize * PAGE_BYTES;
    &pages[at..at + PAGE_BYTES]
}

/// The same, to be changed.
pub fn page_of_mut(pages: &mut [u8], page: u16) -> &mut [u8] {
    let at = page as usize * PAGE_BYTES;
    &mut pages[at..at + PAGE_BYTES]
}
