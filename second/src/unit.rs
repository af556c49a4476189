//! Units: choosing one, its next record, the room it needs, and the page
//! changes that a record makes. A step and a recovery share `advance`; a step
//! and a repeated record share `change`. What a put or a delete changes is
//! worked out in `save`.

use crate::bytes::{get16, get32, page_of, page_of_mut, LOG_BYTES};
use crate::log::{
    Begin, Log, Open, Placed, Record, Step, Type, BEGIN_BYTES, END_BYTES, IN_BYTES, MODIFY_BYTES,
    OUT_BYTES,
};
use crate::page::{read_page, Body, Page, Row, LEAVES, MOST_ROWS, ROW_BYTES};
use crate::tree::{read_tree, Leaf};
use crate::{reply, save};

/// Fill 0 stands for this one.
const USUAL_FILL: u8 = 12;
const MOST_GROUP: usize = 8;

/// The compact unit to begin, if there is a leaf to choose.
pub fn choose_compact(
    leaves: &[Leaf],
    lk: Option<u32>,
    fill: u8,
    unit: u32,
    empty: impl Fn(u16) -> bool,
) -> Option<Begin> {
    let fill = if fill == 0 { USUAL_FILL } else { fill };
    let past_lk = |leaf: &Leaf| lk.is_none_or(|lk| leaf.rows[0].key > lk);
    (0..leaves.len())
        .filter(|&c| past_lk(&leaves[c]))
        .find_map(|c| {
            let group = group(&leaves[c..], fill);
            if group < 2 {
                return None;
            }
            let own = leaves[c].page;
            let before = leaves[..c].iter().map(|leaf| leaf.page).max().unwrap_or(7);
            let listed = &leaves[c..c + group];
            Some(Begin {
                unit,
                kind: Type::Compact,
                fill,
                bases: vec![leaves[c].base],
                leaves: listed.iter().map(|leaf| leaf.page).collect(),
                destination: (before + 1..own).find(|&page| empty(page)).unwrap_or(own),
                row: None,
            })
        })
}

/// How many leaves the group of the first of these has.
fn group(leaves: &[Leaf], fill: u8) -> usize {
    let mut sum = leaves[0].rows.len();
    let mut count = 1;
    for leaf in &leaves[1..] {
        sum += leaf.rows.len();
        if leaf.base != leaves[0].base || sum > fill as usize || count == MOST_GROUP {
            break;
        }
        count += 1;
    }
    count
}

/// The move or swap to begin, if a leaf is misplaced.
pub fn choose_order(leaves: &[Leaf], unit: u32) -> Option<Begin> {
    let (leaf, place) = leaves
        .iter()
        .zip(LEAVES)
        .find(|(leaf, place)| leaf.page != *place)?;
    Some(match leaves.iter().find(|other| other.page == place) {
        None => Begin {
            unit,
            kind: Type::Move,
            fill: 0,
            bases: vec![leaf.base],
            leaves: vec![leaf.page],
            destination: place,
            row: None,
        },
        Some(there) => {
            let mut bases = vec![there.base, leaf.base];
            bases.dedup();
            Begin {
                unit,
                kind: Type::Swap,
                fill: 0,
                bases,
                leaves: vec![place, leaf.page],
                destination: 0,
                row: None,
            }
        }
    })
}

/// The bytes that these steps will take, an out record counted by bytes 2-3
/// of its work page.
fn room(steps: &[Step], work: &[u8]) -> usize {
    let bytes = |step: &Step| match *step {
        Step::Out { org, .. } => OUT_BYTES + ROW_BYTES * get16(page_of(work, org), 2) as usize,
        Step::In { .. } => IN_BYTES,
        Step::Point { .. } | Step::Remove { .. } => MODIFY_BYTES,
        Step::End => END_BYTES,
    };
    steps.iter().map(bytes).sum()
}

/// The bytes and the records of the whole unit that this begin record gives.
pub fn whole(begin: &Begin, work: &[u8]) -> (usize, u64) {
    let steps = begin.steps();
    (BEGIN_BYTES + room(&steps, work), steps.len() as u64 + 1)
}

/// Begin's tests 6 and 7, over a whole unit of so many bytes and records.
pub fn test_begin(log: &Log, (bytes, records): (usize, u64)) -> Result<(), u8> {
    if log.end() + bytes > LOG_BYTES {
        return Err(reply::ROOM);
    }
    let last = log.last() as u64 + records;
    if last > u32::MAX as u64 || log.unit == u32::MAX {
        return Err(reply::NUMBER);
    }
    Ok(())
}

/// The record that the open unit's next step writes over these pages.
fn next_record(log: &Log, open: &Open, work: &[u8]) -> Option<Record> {
    Some(match open.steps[open.done] {
        Step::Out { org, dest } => match read_page(work, org)?.body {
            Body::Leaf(rows) => Record::Out { org, dest, rows },
            _ => return None,
        },
        Step::In { org, dest, out } => {
            let out = log.of_step(out)?.number;
            Record::In {
                org,
                dest,
                count: log.rows_of(out)?.len() as u16,
                out,
            }
        }
        Step::Point {
            base,
            old,
            new,
            except,
        } => {
            let except = except.and_then(|step| match log.of_step(step)?.record {
                Record::Modify { old_key, .. } => Some(old_key),
                _ => None,
            });
            let old_key = lowest_key(work, base, old, except)?;
            Record::Modify {
                base,
                old,
                new,
                old_key,
                new_key: old_key,
            }
        }
        Step::Remove { base, old } => Record::Modify {
            base,
            old,
            new: 0,
            old_key: lowest_key(work, base, old, None)?,
            new_key: 0,
        },
        Step::End => Record::End {
            unit: open.begin.unit,
        },
    })
}

/// The key of the lowest entry of `base` that points to `page` and does not
/// have the key `except`.
fn lowest_key(work: &[u8], base: u16, page: u16, except: Option<u32>) -> Option<u32> {
    let Body::Base(entries) = read_page(work, base)?.body else {
        return None;
    };
    entries
        .iter()
        .find(|entry| entry.page == page && except != Some(entry.key))
        .map(|entry| entry.key)
}

/// What the record makes of its page; nothing where the page does not fit.
/// `rows` are those of the out record that an in record names.
fn change(body: Body, record: &Record, rows: Option<&[Row]>) -> Option<Body> {
    match (record, body) {
        (Record::Out { rows, .. }, Body::Leaf(held)) => (held == *rows).then_some(Body::Empty),
        (Record::In { .. }, Body::Empty) => Some(Body::Leaf(rows?.to_vec())),
        (Record::In { .. }, Body::Leaf(mut held)) => {
            let rows = rows?;
            let ends_below = held.last()?.key < rows.first()?.key;
            held.extend(rows);
            (ends_below && held.len() <= MOST_ROWS).then_some(Body::Leaf(held))
        }
        (
            Record::Modify {
                old, new, old_key, ..
            },
            Body::Base(mut entries),
        ) => {
            let at = entries
                .iter()
                .position(|entry| entry.key == *old_key && entry.page == *old)?;
            if *new == 0 {
                entries.remove(at);
            } else {
                entries[at].page = *new;
            }
            (!entries.is_empty()).then_some(Body::Base(entries))
        }
        _ => None,
    }
}

/// The page that the record leaves under its number, and where it stands.
fn changed_page(
    log: &Log,
    work: &[u8],
    number: u32,
    record: &Record,
) -> Result<Option<(u16, Page)>, u8> {
    let Some(place) = record.changed() else {
        return Ok(None);
    };
    let rows = match record {
        Record::In { out, .. } => log.rows_of(*out),
        _ => None,
    };
    let page = read_page(work, place).ok_or(reply::MISFIT)?;
    let body = change(page.body, record, rows).ok_or(reply::MISFIT)?;
    Ok(Some((place, Page { number, body })))
}

/// The log number of a page, whatever else it holds.
fn stamp(work: &[u8], place: u16) -> u32 {
    get32(page_of(work, place), 4)
}

/// All pages that the record leaves under its number: one, or for the end of a
/// put or a delete those of its images whose page has a lower number.
fn changed_pages(
    log: &Log,
    work: &[u8],
    number: u32,
    record: &Record,
) -> Result<Vec<(u16, Page)>, u8> {
    if !matches!(record, Record::End { .. }) {
        let changed = changed_page(log, work, number, record)?;
        return Ok(changed.into_iter().collect());
    }
    let images = log.images_of(number);
    let lower = images.filter(|(place, image)| stamp(work, *place) < image.number);
    Ok(lower.map(|(place, image)| (place, image.clone())).collect())
}

fn put(work: &mut [u8], changed: &[(u16, Page)]) {
    for (place, page) in changed {
        page_of_mut(work, *place).copy_from_slice(&page.write());
    }
}

/// Makes the page changes of a record of the log again.
pub fn apply(log: &Log, work: &mut [u8], number: u32, record: &Record) -> Result<(), u8> {
    let changed = changed_pages(log, work, number, record)?;
    put(work, &changed);
    Ok(())
}

/// Repeats a record of the log, unless its page has it already.
pub fn repeat(log: &Log, work: &mut [u8], placed: &Placed) -> Result<(), u8> {
    let Placed { number, record, .. } = placed;
    let has = |place| stamp(work, place) >= *number;
    if record.changed().is_some_and(has) {
        return Ok(());
    }
    apply(log, work, *number, record)
}

/// What the open unit's next step writes.
struct Next {
    record: Record,
    /// The pages that it changes.
    changed: Vec<(u16, Page)>,
    /// The bytes that the unit still takes.
    bytes: usize,
    /// The number that may not pass the last one.
    number: u64,
}

/// The next step of a unit whose steps its begin record gives: test 5.
fn next_of_plan(log: &Log, open: &Open, work: &[u8]) -> Result<Next, u8> {
    let record = next_record(log, open, work).ok_or(reply::MISFIT)?;
    let number = log.last() as u64 + 1;
    // A page stamped with a number that cannot be is never written: see test 7.
    Ok(Next {
        changed: changed_pages(log, work, number as u32, &record)?,
        bytes: room(open.remaining(), work),
        record,
        number,
    })
}

/// The next step of a put or a delete, worked out anew: tests 3 and 8 over all
/// pages, 18 or 15, and 5. All its images bear its end's number.
fn next_of_save(log: &Log, open: &Open, work: &[u8]) -> Result<Next, u8> {
    let (pages, _) = read_tree(work)?;
    let changes = save::changes(&pages, &open.begin)?;
    let images = changes.len();
    let number = save::end_number(log, open, &changes);
    let record = save::next_record(log, open, changes).ok_or(reply::MISFIT)?;
    Ok(Next {
        changed: changed_pages(log, work, number as u32, &record)?,
        bytes: save::room(images - open.done),
        record,
        number,
    })
}

/// One step of the open unit: tests 5, 6 and 7, for a put or a delete 3, 8 and
/// 18 or 15 before them; then the record and its page changes.
pub fn advance(log: &mut Log, bytes: &mut [u8], work: &mut [u8]) -> Result<(), u8> {
    let open = log.open.as_ref().ok_or(reply::CLOSED)?;
    let next = match open.begin.row {
        Some(_) => next_of_save(log, open, work)?,
        None => next_of_plan(log, open, work)?,
    };
    if log.end() + next.bytes > LOG_BYTES {
        return Err(reply::ROOM);
    }
    if next.number > u32::MAX as u64 {
        return Err(reply::NUMBER);
    }
    log.append(bytes, next.record);
    put(work, &next.changed);
    Ok(())
}
