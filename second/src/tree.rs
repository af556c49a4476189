//! The well-formed tree: its leaves in key order, and the way down to a key.

use crate::page::{read_page, read_pages, Body, Entry, Page, Row};
use crate::reply;

/// A leaf in key order with the base page whose entry points to it.
#[derive(Clone, PartialEq, Eq, Debug)]
pub struct Leaf {
    pub base: u16,
    pub page: u16,
    pub rows: Vec<Row>,
}

/// Keys below an entry: from its own key to below the next one's at its
/// level, across pages; the last has no upper end.
#[derive(Clone, Copy)]
struct Span {
    low: u32,
    below: Option<u32>,
}

impl Span {
    fn holds(&self, key: u32) -> bool {
        self.low <= key && self.below.is_none_or(|below| key < below)
    }
}

/// Each entry of a whole level with its span.
fn spans(level: &[Entry]) -> impl Iterator<Item = (u16, Span)> + '_ {
    level.iter().enumerate().map(|(i, entry)| {
        let below = level.get(i + 1).map(|next| next.key);
        let low = entry.key;
        (entry.page, Span { low, below })
    })
}

/// The leaves in key order, if these pages are a well-formed tree.
pub fn leaves(pages: &[Page]) -> Option<Vec<Leaf>> {
    let Body::Root(root) = &pages[0].body else {
        return None;
    };
    if root.first().is_some_and(|first| first.key != 0) {
        return None;
    }
    let mut pointed = vec![0; pages.len()];
    let mut level: Vec<Entry> = Vec::new();
    let mut base_of: Vec<u16> = Vec::new();
    for (page, span) in spans(root) {
        let Body::Base(entries) = &pages[page as usize].body else {
            return None;
        };
        if entries[0].key != span.low || !entries.iter().all(|entry| span.holds(entry.key)) {
            return None;
        }
        pointed[page as usize] += 1;
        level.extend(entries);
        base_of.resize(level.len(), page);
    }
    let mut leaves = Vec::new();
    for ((page, span), base) in spans(&level).zip(base_of) {
        let Body::Leaf(rows) = &pages[page as usize].body else {
            return None;
        };
        if !rows.iter().all(|row| span.holds(row.key)) {
            return None;
        }
        pointed[page as usize] += 1;
        let rows = rows.clone();
        leaves.push(Leaf { base, page, rows });
    }
    let once = pages
        .iter()
        .zip(pointed)
        .skip(1)
        .all(|(page, times)| times == (page.body != Body::Empty) as u32);
    once.then_some(leaves)
}

/// Tests 3 and 8 over all work pages: the pages, and their leaves.
pub fn read_tree(work: &[u8]) -> Result<(Vec<Page>, Vec<Leaf>), u8> {
    let pages = read_pages(work).ok_or(reply::FORM)?;
    let leaves = leaves(&pages).ok_or(reply::TREE)?;
    Ok((pages, leaves))
}

/// The value under `key`. Reads only the pages on the way down.
pub fn find(work: &[u8], key: u32) -> Result<[u8; 10], u8> {
    let mut place = 0;
    loop {
        match read_page(work, place).ok_or(reply::FORM)?.body {
            Body::Root(entries) | Body::Base(entries) => {
                let entry = entries.iter().rev().find(|entry| entry.key <= key);
                place = entry.ok_or(reply::ABSENT)?.page;
            }
            Body::Leaf(rows) => {
                let row = rows.iter().find(|row| row.key == key);
                return row.map(|row| row.value).ok_or(reply::ABSENT);
            }
            Body::Empty => return Err(reply::FORM),
        }
    }
}
