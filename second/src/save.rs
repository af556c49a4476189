//! Puts and deletes: the pages that one changes, worked out from all pages,
//! which are a well-formed tree. Nothing of it is kept between two steps: an
//! open unit is worked out anew, and what it has logged is compared.

use crate::log::{Begin, Log, Open, Record, Type, BEGIN_BYTES, END_BYTES, IMAGE_BYTES};
use crate::page::{Body, Entry, Page, Row, LEAVES, MOST_ENTRIES, MOST_ROWS, ROW_BYTES};
use crate::reply;
use std::collections::BTreeMap;

/// Of the 16 records of a leaf that splits, so many stay.
const STAY: usize = 8;

/// The base page that a first record takes.
const FIRST_BASE: u16 = 1;

/// The changed pages, in number order, with what they are going to hold.
pub type Changes = BTreeMap<u16, Body>;

/// What the put or delete that this begin record gives makes of the pages;
/// refuses with 18 or 15. Other units have no such record and no changes.
pub fn changes(pages: &[Page], begin: &Begin) -> Result<Changes, u8> {
    match (begin.kind, begin.row) {
        (Type::Put, Some(row)) => put(pages, row),
        (Type::Delete, Some(row)) => delete(pages, row.key),
        _ => Ok(Changes::new()),
    }
}

/// The entries of the root or of a base page.
fn entries(pages: &[Page], place: u16) -> Vec<Entry> {
    match &pages[place as usize].body {
        Body::Root(entries) | Body::Base(entries) => entries.clone(),
        _ => Vec::new(),
    }
}

fn rows(pages: &[Page], place: u16) -> Vec<Row> {
    match &pages[place as usize].body {
        Body::Leaf(rows) => rows.clone(),
        _ => Vec::new(),
    }
}

/// The place of the last entry whose key is not above this one.
fn entry_for(entries: &[Entry], key: u32) -> Option<usize> {
    entries.iter().rposition(|entry| entry.key <= key)
}

fn lowest_empty_leaf(pages: &[Page]) -> Option<u16> {
    LEAVES
        .into_iter()
        .find(|&page| pages[page as usize].body == Body::Empty)
}

/// The way down to a key: the entries of the root and of the base page, the
/// place of the one that is taken in each, and the leaf's records.
struct Way {
    root: Vec<Entry>,
    of_base: usize,
    base: u16,
    level: Vec<Entry>,
    of_leaf: usize,
    leaf: u16,
    rows: Vec<Row>,
}

impl Way {
    /// None where the root has no entries.
    fn down(pages: &[Page], key: u32) -> Option<Way> {
        let root = entries(pages, 0);
        let of_base = entry_for(&root, key)?;
        let base = root[of_base].page;
        let level = entries(pages, base);
        let of_leaf = entry_for(&level, key)?;
        let leaf = level[of_leaf].page;
        Some(Way {
            rows: rows(pages, leaf),
            root,
            of_base,
            base,
            level,
            of_leaf,
            leaf,
        })
    }
}

/// The record in its leaf, replaced or added; a leaf of 16 splits.
fn put(pages: &[Page], row: Row) -> Result<Changes, u8> {
    let Some(mut way) = Way::down(pages, row.key) else {
        return first(pages, row);
    };
    match way.rows.binary_search_by_key(&row.key, |held| held.key) {
        Ok(there) => way.rows[there] = row,
        Err(between) => way.rows.insert(between, row),
    }
    if way.rows.len() <= MOST_ROWS {
        return Ok(Changes::from([(way.leaf, Body::Leaf(way.rows))]));
    }
    let page = lowest_empty_leaf(pages).filter(|_| way.level.len() < MOST_ENTRIES);
    let page = page.ok_or(reply::CROWDED)?;
    let upper = way.rows.split_off(STAY);
    let key = upper[0].key;
    way.level.insert(way.of_leaf + 1, Entry { key, page });
    Ok(Changes::from([
        (way.base, Body::Base(way.level)),
        (way.leaf, Body::Leaf(way.rows)),
        (page, Body::Leaf(upper)),
    ]))
}

/// The first record of a tree that has none.
fn first(pages: &[Page], row: Row) -> Result<Changes, u8> {
    let leaf = lowest_empty_leaf(pages).ok_or(reply::CROWDED)?;
    let to = |page| vec![Entry { key: 0, page }];
    Ok(Changes::from([
        (0, Body::Root(to(FIRST_BASE))),
        (FIRST_BASE, Body::Base(to(leaf))),
        (leaf, Body::Leaf(vec![row])),
    ]))
}

/// The record out of its leaf, which may become empty.
fn delete(pages: &[Page], key: u32) -> Result<Changes, u8> {
    let mut way = Way::down(pages, key).ok_or(reply::ABSENT)?;
    let there = way.rows.iter().position(|row| row.key == key);
    way.rows.remove(there.ok_or(reply::ABSENT)?);
    Ok(match way.rows.is_empty() {
        true => emptied(pages, way),
        false => Changes::from([(way.leaf, Body::Leaf(way.rows))]),
    })
}

/// An emptied leaf's range, and an emptied base page's, is joined to a
/// neighbour's.
fn emptied(pages: &[Page], mut way: Way) -> Changes {
    let mut changes = Changes::from([(way.leaf, Body::Empty)]);
    join(&mut way.level, way.of_leaf);
    if !way.level.is_empty() {
        changes.insert(way.base, Body::Base(way.level));
        return changes;
    }
    changes.insert(way.base, Body::Empty);
    if let Some(right) = join(&mut way.root, way.of_base) {
        let mut level = entries(pages, right.page);
        level[0].key = right.key;
        changes.insert(right.page, Body::Base(level));
    }
    changes.insert(0, Body::Root(way.root));
    changes
}

/// Takes out an entry. Its range joins that of the entry on its left; where
/// there is none, the one on its right gets its key and is returned.
fn join(entries: &mut Vec<Entry>, at: usize) -> Option<Entry> {
    let gone = entries.remove(at);
    let right = entries.first_mut().filter(|_| at == 0)?;
    right.key = gone.key;
    Some(*right)
}

/// The bytes that so many images and the end take.
pub fn room(images: usize) -> usize {
    IMAGE_BYTES * images + END_BYTES
}

/// The bytes and the records of the whole unit.
pub fn whole(changes: &Changes) -> (usize, u64) {
    let bytes = BEGIN_BYTES + ROW_BYTES + room(changes.len());
    (bytes, changes.len() as u64 + 2)
}

/// The number that the unit's end is going to have, perhaps one that cannot
/// be.
pub fn end_number(log: &Log, open: &Open, changes: &Changes) -> u64 {
    log.last() as u64 - open.done as u64 + changes.len() as u64 + 1
}

/// The record that comes next in the open put or delete, if all images that
/// the log holds are those that its changes want. An image under a number that
/// cannot be is never written: test 7 comes later.
pub fn next_record(log: &Log, open: &Open, changes: Changes) -> Option<Record> {
    let end = end_number(log, open, &changes);
    let mut wanted = changes.into_iter().map(|(place, body)| {
        let number = end as u32;
        (place, Page { number, body })
    });
    for (place, image) in log.open_images() {
        let (wanted_place, wanted_image) = wanted.next()?;
        let alike = place == wanted_place && *image == wanted_image;
        if !alike || end > u32::MAX as u64 {
            return None;
        }
    }
    Some(match wanted.next() {
        Some((page, image)) => Record::Image { page, image },
        None => Record::End {
            unit: open.begin.unit,
        },
    })
}
