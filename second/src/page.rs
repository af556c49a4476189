//! Page form: a page is its log number and its body, read from and written to
//! 256 bytes. Reading refuses every page that breaks page form, so a `Page`
//! is always one in form.

use crate::bytes::{get16, get32, page_of, put16, put32, PAGE_BYTES, PAGE_COUNT};
use std::ops::RangeInclusive;

/// Base pages, leaf pages; page 0 is the root.
pub const BASES: RangeInclusive<u16> = 1..=7;
pub const LEAVES: RangeInclusive<u16> = 8..=63;

/// Most entries of a root or base page, most records of a leaf page.
pub const MOST_ENTRIES: usize = 30;
pub const MOST_ROWS: usize = 15;

const BODY: usize = 16;
const ENTRY_BYTES: usize = 8;
/// Bytes of a leaf record, in a page, in a log and in build's input.
pub const ROW_BYTES: usize = 16;

/// A root or base entry.
#[derive(Clone, Copy, PartialEq, Eq, Debug)]
pub struct Entry {
    pub key: u32,
    pub page: u16,
}

/// A leaf record.
#[derive(Clone, Copy, PartialEq, Eq, Debug)]
pub struct Row {
    pub key: u32,
    pub value: [u8; 10],
}

impl Row {
    /// The record in these 16 bytes, if they bear its mark.
    pub fn read(bytes: &[u8]) -> Option<Row> {
        let mut value = [0; 10];
        value.copy_from_slice(&bytes[6..ROW_BYTES]);
        let key = get32(bytes, 2);
        (&bytes[..2] == b"rc").then_some(Row { key, value })
    }

    pub fn write(&self, bytes: &mut [u8]) {
        bytes[..2].copy_from_slice(b"rc");
        put32(bytes, 2, self.key);
        bytes[6..ROW_BYTES].copy_from_slice(&self.value);
    }
}

/// Reads `count` records that ascend strictly.
pub fn read_rows(bytes: &[u8], count: usize) -> Option<Vec<Row>> {
    let rows: Option<Vec<Row>> = bytes
        .chunks_exact(ROW_BYTES)
        .take(count)
        .map(Row::read)
        .collect();
    rows.filter(|rows| rows.windows(2).all(|two| two[0].key < two[1].key))
}

/// What a page holds, by its mark.
#[derive(Clone, PartialEq, Eq, Debug)]
pub enum Body {
    Root(Vec<Entry>),
    Base(Vec<Entry>),
    Leaf(Vec<Row>),
    Empty,
}

#[derive(Clone, PartialEq, Eq, Debug)]
pub struct Page {
    /// Log number of the last change, 0 for none yet.
    pub number: u32,
    pub body: Body,
}

impl Page {
    /// The page in these 256 bytes, if they keep page form at `place`.
    pub fn read(place: u16, bytes: &[u8]) -> Option<Page> {
        let count = get16(bytes, 2) as usize;
        let body = match &bytes[..2] {
            b"pr" if place == 0 => Body::Root(read_entries(bytes, count, BASES)?),
            b"pb" if BASES.contains(&place) && count > 0 => {
                Body::Base(read_entries(bytes, count, LEAVES)?)
            }
            b"pl" if LEAVES.contains(&place) && (1..=MOST_ROWS).contains(&count) => {
                Body::Leaf(read_rows(&bytes[BODY..], count)?)
            }
            b"pe" if place != 0 && count == 0 => Body::Empty,
            _ => return None,
        };
        let page = Page {
            number: get32(bytes, 4),
            body,
        };
        // The marks of entries, and the zeros of bytes 8 to 15 and of the unused
        // body, are those of a written page.
        (page.write()[..] == *bytes).then_some(page)
    }

    pub fn write(&self) -> [u8; PAGE_BYTES] {
        let mut bytes = [0; PAGE_BYTES];
        let (mark, count) = match &self.body {
            Body::Root(entries) => (b"pr", entries.len()),
            Body::Base(entries) => (b"pb", entries.len()),
            Body::Leaf(rows) => (b"pl", rows.len()),
            Body::Empty => (b"pe", 0),
        };
        bytes[..2].copy_from_slice(mark);
        put16(&mut bytes, 2, count as u16);
        put32(&mut bytes, 4, self.number);
        match &self.body {
            Body::Root(entries) | Body::Base(entries) => {
                for (entry, at) in entries.iter().zip(bytes[BODY..].chunks_mut(ENTRY_BYTES)) {
                    at[..2].copy_from_slice(b"en");
                    put32(at, 2, entry.key);
                    put16(at, 6, entry.page);
                }
            }
            Body::Leaf(rows) => {
                for (row, at) in rows.iter().zip(bytes[BODY..].chunks_mut(ROW_BYTES)) {
                    row.write(at);
                }
            }
            Body::Empty => {}
        }
        bytes
    }
}

/// Reads `count` entries that ascend strictly and point into `to`; their
/// marks are left to the caller.
fn read_entries(bytes: &[u8], count: usize, to: RangeInclusive<u16>) -> Option<Vec<Entry>> {
    if count > MOST_ENTRIES {
        return None;
    }
    let mut entries: Vec<Entry> = Vec::with_capacity(count);
    for at in bytes[BODY..].chunks_exact(ENTRY_BYTES).take(count) {
        let entry = Entry {
            key: get32(at, 2),
            page: get16(at, 6),
        };
        let ascends = entries.last().is_none_or(|before| before.key < entry.key);
        if !to.contains(&entry.page) || !ascends {
            return None;
        }
        entries.push(entry);
    }
    Some(entries)
}

/// Page `place` of these work or store pages, if it keeps page form.
pub fn read_page(pages: &[u8], place: u16) -> Option<Page> {
    Page::read(place, page_of(pages, place))
}

/// All 64 pages, if every one keeps page form.
pub fn read_pages(pages: &[u8]) -> Option<Vec<Page>> {
    (0..PAGE_COUNT as u16)
        .map(|place| read_page(pages, place))
        .collect()
}
