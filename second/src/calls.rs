//! The twelve calls over lent buffers, and a walk of the range reader. Each
//! runs its tests in the order that the documents give, and writes only after
//! the last of them.

use crate::bytes::{get32, page_of, page_of_mut, Numbers, LOG_BYTES, PAGES_BYTES, PAGE_COUNT};
use crate::log::{Begin, Log, Record, Step, Type, CHECK_BYTES};
use crate::page::{
    read_pages, Body, Entry, Page, Row, BASES, LEAVES, MOST_ENTRIES, MOST_ROWS, ROW_BYTES,
};
use crate::tree::{self, read_tree};
use crate::{reply, save, unit};

fn number(result: Result<(), u8>) -> u8 {
    result.err().unwrap_or(reply::DONE)
}

/// Passes where `good`, refuses with `reply` otherwise.
fn test(good: bool, reply: u8) -> Result<(), u8> {
    if good {
        Ok(())
    } else {
        Err(reply)
    }
}

fn test_lengths(pages: &[&[u8]], log: &[u8]) -> Result<(), u8> {
    let pages = pages.iter().all(|lent| lent.len() == PAGES_BYTES);
    test(pages && log.len() == LOG_BYTES, reply::LENGTH)
}

/// Test 2 of every call but build and recovery.
fn read_log(numbers: &Numbers, log: &[u8]) -> Result<Log, u8> {
    let read = Log::read(log).ok_or(reply::LOG)?;
    // Used is the log's end and forced the end of a record, so never below 24
    // nor above used.
    let used = numbers.used as usize == read.end();
    let forced = read.number_at(numbers.forced).is_some();
    test(used && forced, reply::LOG).map(|()| read)
}

/// Replaces the whole log by one check record.
fn put_check(numbers: &mut Numbers, log: &mut [u8], number: u32, check: Record) {
    log.fill(0);
    log[..CHECK_BYTES].copy_from_slice(&check.write(number));
    numbers.used = CHECK_BYTES as u32;
    numbers.forced = CHECK_BYTES as u32;
}

/// Builds a tree of the records with leaf fill `f` and base fill `g`.
pub fn build(
    numbers: &mut Numbers,
    work: &mut [u8],
    store: &mut [u8],
    log: &mut [u8],
    records: &[u8],
    f: u32,
    g: u32,
) -> u8 {
    number(built(work, store, log, records, f, g).map(|pages| {
        for (place, page) in pages.iter().enumerate() {
            page_of_mut(work, place as u16).copy_from_slice(&page.write());
        }
        store.copy_from_slice(work);
        put_check(numbers, log, 1, Record::Check { unit: 0, lk: None });
    }))
}

/// Build's tests and its pages.
fn built(
    work: &[u8],
    store: &[u8],
    log: &[u8],
    records: &[u8],
    f: u32,
    g: u32,
) -> Result<Vec<Page>, u8> {
    test_lengths(&[work, store], log)?;
    let (f, g) = (f as usize, g as usize);
    let fills = (1..=MOST_ROWS).contains(&f) && (1..=MOST_ENTRIES).contains(&g);
    test(
        fills && records.len().is_multiple_of(ROW_BYTES),
        reply::RANGE,
    )?;
    let rows: Option<Vec<Row>> = records.chunks(ROW_BYTES).map(Row::read).collect();
    let rows = rows.ok_or(reply::RECORDS)?;
    let ascend = rows.windows(2).all(|two| two[0].key < two[1].key);
    test(ascend, reply::RECORDS)?;
    let leaves: Vec<&[Row]> = rows.chunks(f).collect();
    test(
        leaves.len() <= LEAVES.len() && leaves.len().div_ceil(g) <= BASES.len(),
        reply::LARGE,
    )?;
    let empty = Page {
        number: 0,
        body: Body::Empty,
    };
    let mut pages = vec![empty; PAGE_COUNT];
    let mut level: Vec<Entry> = Vec::new();
    for (rows, page) in leaves.iter().zip(LEAVES) {
        let key = if level.is_empty() { 0 } else { rows[0].key };
        level.push(Entry { key, page });
        pages[page as usize].body = Body::Leaf(rows.to_vec());
    }
    let mut root = Vec::new();
    for (entries, page) in level.chunks(g).zip(BASES) {
        let key = entries[0].key;
        root.push(Entry { key, page });
        pages[page as usize].body = Body::Base(entries.to_vec());
    }
    pages[0].body = Body::Root(root);
    Ok(pages)
}

/// Brings the work pages back from store and log and finishes an open unit;
/// returns the reply and the count of records appended.
pub fn recover(
    numbers: &mut Numbers,
    work: &mut [u8],
    store: &mut [u8],
    log: &mut [u8],
) -> (u8, u32) {
    if let Err(reply) = test_lengths(&[work, store], log) {
        return (reply, 0);
    }
    match recovered(store, log) {
        Ok(done) => {
            work.copy_from_slice(&done.work);
            log.copy_from_slice(&done.log);
            *numbers = done.numbers;
            (reply::DONE, done.count)
        }
        Err(reply) => {
            work.fill(0);
            (reply, 0)
        }
    }
}

struct Recovered {
    work: Vec<u8>,
    log: Vec<u8>,
    numbers: Numbers,
    count: u32,
}

/// Recovery on copies, past its test 1.
fn recovered(store: &[u8], log: &[u8]) -> Result<Recovered, u8> {
    let mut read = Log::read(log).ok_or(reply::LOG)?;
    let pages = read_pages(store).ok_or(reply::FORM)?;
    let behind = pages.iter().all(|page| page.number <= read.last());
    test(behind, reply::AHEAD)?;
    let mut work = store.to_vec();
    let mut bytes = log.to_vec();
    for placed in &read.records {
        unit::repeat(&read, &mut work, placed)?;
    }
    let found = read.end();
    let mut count = 0;
    while read.open.is_some() {
        unit::advance(&mut read, &mut bytes, &mut work)?;
        count += 1;
    }
    read_tree(&work)?;
    let numbers = Numbers {
        used: read.end() as u32,
        forced: found as u32,
    };
    Ok(Recovered {
        work,
        log: bytes,
        numbers,
        count,
    })
}

/// Begins a compact unit with this fill, 0 for 12.
pub fn begin_compact(numbers: &mut Numbers, work: &mut [u8], log: &mut [u8], fill: u32) -> u8 {
    number(begun(numbers, work, log, Some(fill)))
}

/// Begins a move or a swap.
pub fn begin_order(numbers: &mut Numbers, work: &mut [u8], log: &mut [u8]) -> u8 {
    number(begun(numbers, work, log, None))
}

/// Both begins: a compact with a fill, an order without.
fn begun(
    numbers: &mut Numbers,
    work: &mut [u8],
    log: &mut [u8],
    fill: Option<u32>,
) -> Result<(), u8> {
    test_lengths(&[work], log)?;
    let mut read = read_log(numbers, log)?;
    let fits = fill.is_none_or(|fill| fill as usize <= MOST_ROWS);
    test(fits, reply::RANGE)?;
    test(read.open.is_none(), reply::OPEN)?;
    let (pages, leaves) = read_tree(work)?;
    // A unit number that cannot be is never written: test 7 comes last.
    let unit = read.unit.wrapping_add(1);
    let chosen = match fill {
        Some(fill) => unit::choose_compact(&leaves, read.lk, fill as u8, unit, |page| {
            pages[page as usize].body == Body::Empty
        }),
        None => unit::choose_order(&leaves, unit),
    };
    let chosen = chosen.ok_or(reply::NOTHING)?;
    unit::test_begin(&read, unit::whole(&chosen, work))?;
    read.append(log, Record::Begin(chosen));
    numbers.used = read.end() as u32;
    Ok(())
}

/// Begins a put of this record, of any length.
pub fn put(numbers: &mut Numbers, work: &mut [u8], log: &mut [u8], record: &[u8]) -> u8 {
    number(put_begun(numbers, work, log, record))
}

fn put_begun(numbers: &mut Numbers, work: &[u8], log: &mut [u8], record: &[u8]) -> Result<(), u8> {
    test_lengths(&[work], log)?;
    let read = read_log(numbers, log)?;
    test(record.len() == ROW_BYTES, reply::RANGE)?;
    let row = Row::read(record).ok_or(reply::RECORDS)?;
    save_begun(read, numbers, work, log, Type::Put, row)
}

/// Begins a delete of the record with this key.
pub fn delete(numbers: &mut Numbers, work: &mut [u8], log: &mut [u8], key: u32) -> u8 {
    number(delete_begun(numbers, work, log, key))
}

fn delete_begun(numbers: &mut Numbers, work: &[u8], log: &mut [u8], key: u32) -> Result<(), u8> {
    test_lengths(&[work], log)?;
    let read = read_log(numbers, log)?;
    let value = [0; 10];
    save_begun(read, numbers, work, log, Type::Delete, Row { key, value })
}

/// Both of them, past the tests of the log and of the record.
fn save_begun(
    mut read: Log,
    numbers: &mut Numbers,
    work: &[u8],
    log: &mut [u8],
    kind: Type,
    row: Row,
) -> Result<(), u8> {
    test(read.open.is_none(), reply::OPEN)?;
    let (pages, _) = read_tree(work)?;
    // A unit number that cannot be is never written: test 7 comes last.
    let begin = Begin::of_row(read.unit.wrapping_add(1), kind, row);
    let changes = save::changes(&pages, &begin)?;
    unit::test_begin(&read, save::whole(&changes))?;
    read.append(log, Record::Begin(begin));
    numbers.used = read.end() as u32;
    Ok(())
}

/// Makes the next step of the open unit.
pub fn step(numbers: &mut Numbers, work: &mut [u8], log: &mut [u8]) -> u8 {
    number(stepped(numbers, work, log))
}

fn stepped(numbers: &mut Numbers, work: &mut [u8], log: &mut [u8]) -> Result<(), u8> {
    test_lengths(&[work], log)?;
    let mut read = read_log(numbers, log)?;
    let open = read.open.as_ref().ok_or(reply::CLOSED)?;
    // A put or a delete tests all pages, as it works out what to change.
    let step = open.remaining().first();
    if let Some(page) = step.and_then(Step::changed) {
        let formed = Page::read(page, page_of(work, page)).is_some();
        test(formed, reply::FORM)?;
    }
    unit::advance(&mut read, log, work)?;
    numbers.used = read.end() as u32;
    Ok(())
}

/// Copies one work page to the store.
pub fn flush(
    numbers: &mut Numbers,
    work: &mut [u8],
    store: &mut [u8],
    log: &mut [u8],
    page: u32,
) -> u8 {
    number(flushed(numbers, work, store, log, page).map(|page| {
        page_of_mut(store, page).copy_from_slice(page_of(work, page));
    }))
}

/// Flush's tests; the page to copy.
fn flushed(numbers: &Numbers, work: &[u8], store: &[u8], log: &[u8], page: u32) -> Result<u16, u8> {
    test_lengths(&[work, store], log)?;
    let read = read_log(numbers, log)?;
    test((page as usize) < PAGE_COUNT, reply::RANGE)?;
    let stamp = get32(page_of(work, page as u16), 4);
    let forced = read.number_at(numbers.forced).ok_or(reply::LOG)?;
    test(stamp <= forced, reply::UNFORCED)?;
    Ok(page as u16)
}

/// Sets forced to used.
pub fn force(numbers: &mut Numbers, log: &mut [u8]) -> u8 {
    let tested = test_lengths(&[], log).and_then(|()| read_log(numbers, log));
    number(tested.map(|_| numbers.forced = numbers.used))
}

/// Replaces the log by one check record, keeping or clearing LK.
pub fn checkpoint(
    numbers: &mut Numbers,
    work: &mut [u8],
    store: &mut [u8],
    log: &mut [u8],
    clear: bool,
) -> u8 {
    number(checked(numbers, work, store, log).map(|read| {
        let lk = read.lk.filter(|_| !clear);
        let unit = read.unit;
        put_check(numbers, log, read.last() + 1, Record::Check { unit, lk });
    }))
}

/// Checkpoint's tests; the log to replace.
fn checked(numbers: &Numbers, work: &[u8], store: &[u8], log: &[u8]) -> Result<Log, u8> {
    test_lengths(&[work, store], log)?;
    let read = read_log(numbers, log)?;
    test(read.open.is_none(), reply::OPEN)?;
    test(work == store, reply::DIFFERS)?;
    test(read.last() < u32::MAX, reply::NUMBER)?;
    Ok(read)
}

/// The reply and the ten value bytes under `key`.
pub fn find(numbers: &mut Numbers, work: &mut [u8], log: &mut [u8], key: u32) -> (u8, [u8; 10]) {
    match closed(numbers, work, log).and_then(|()| tree::find(work, key)) {
        Ok(value) => (reply::DONE, value),
        Err(reply) => (reply, [0; 10]),
    }
}

/// Writes the records from `low` to `high` that fit whole into `out`; returns
/// the reply, their count, and whether more remain.
pub fn list(
    numbers: &mut Numbers,
    work: &mut [u8],
    log: &mut [u8],
    out: &mut [u8],
    low: u32,
    high: u32,
) -> (u8, u32, bool) {
    let leaves = match closed(numbers, work, log).and_then(|()| read_tree(work)) {
        Ok((_, leaves)) => leaves,
        Err(reply) => return (reply, 0, false),
    };
    let rows = leaves.iter().flat_map(|leaf| &leaf.rows);
    let wanted: Vec<&Row> = rows
        .filter(|row| low <= row.key && row.key <= high)
        .collect();
    let count = wanted.len().min(out.len() / ROW_BYTES);
    for (row, at) in wanted.iter().zip(out.chunks_exact_mut(ROW_BYTES)) {
        row.write(at);
    }
    (reply::DONE, count as u32, wanted.len() > count)
}

/// The range reader from `key` on: it is lent the work pages alone, tests them
/// as list does and gives one record after the other. Those that fit whole go
/// into `out`; returns the reply and their count.
pub fn walk(work: &[u8], out: &mut [u8], key: u32) -> (u8, u32) {
    let right = test(work.len() == PAGES_BYTES, reply::LENGTH);
    let leaves = match right.and_then(|()| read_tree(work)) {
        Ok((_, leaves)) => leaves,
        Err(reply) => return (reply, 0),
    };
    let mut reader = leaves.iter().flat_map(|leaf| &leaf.rows);
    let mut next = reader.find(|row| key <= row.key);
    let mut count = 0;
    for at in out.chunks_exact_mut(ROW_BYTES) {
        let Some(row) = next else { break };
        row.write(at);
        count += 1;
        next = reader.next();
    }
    (reply::DONE, count)
}

/// The first tests of find and list: 1, 2 and 9.
fn closed(numbers: &Numbers, work: &[u8], log: &[u8]) -> Result<(), u8> {
    test_lengths(&[work], log)?;
    let read = read_log(numbers, log)?;
    test(read.open.is_none(), reply::OPEN)
}
