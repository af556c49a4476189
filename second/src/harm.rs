//! Damage: small states after random calls, and what may go wrong with the
//! buffers and numbers that a call is lent.

use crate::bytes::{get16, get32, page_of, page_of_mut, put16, put32};
use crate::bytes::{LOG_BYTES, PAGES_BYTES, PAGE_BYTES, PAGE_COUNT};
use crate::chance::Chance;
use crate::log::{Log, Record};
use crate::page::{Body, LEAVES, ROW_BYTES};
use crate::runs::{crowded_shape, random_shape};
use crate::state::{put_page, record_bytes, row, Call, State};
use std::ops::Range;

const LAST: u32 = u32::MAX;
const MARKS: [&[u8; 2]; 4] = [b"pr", b"pb", b"pl", b"pe"];

/// A small state after some random calls.
pub fn random_state(chance: &mut Chance) -> State {
    let tree = match chance.one_in(8) {
        true => crowded_shape(chance),
        false => random_shape(chance),
    };
    let number = match chance.within(1, 4) {
        1 => LAST - chance.within(0, 30) as u32,
        _ => chance.within(0, 50) as u32,
    };
    let mut state = State::made(&tree, number, chance.within(0, 9) as u32, None);
    if chance.one_in(4) {
        state.set_check(number, LAST - chance.within(0, 3) as u32, Some(3));
    }
    if chance.one_in(6) {
        let free = 4 * chance.within(20, 200) as usize;
        if number < 1000 && state.read_log().unit < 1000 {
            state.fill_log(free);
        }
    }
    for _ in 0..chance.within(0, 20) {
        let key = chance.within(0, 66) as u32;
        let call = match chance.within(1, 8) {
            1 => Call::BeginCompact { fill: 0 },
            2 => Call::BeginOrder,
            3 => Call::Force,
            4 => Call::Put,
            5 => Call::Delete { key },
            _ => Call::Step,
        };
        state = state.lending(row(key));
        call.on(&mut state);
    }
    state.bytes.clear();
    if chance.one_in(3) {
        Call::Force.on(&mut state);
        for page in 0..PAGE_COUNT as u32 {
            Call::Flush { page }.on(&mut state);
        }
    }
    state
}

/// What a call is lent beside the buffers: a put's record, nearly always
/// right; for any other call some records, which are a room too.
pub fn some_bytes(chance: &mut Chance, call: &Call) -> Vec<u8> {
    if *call != Call::Put {
        let count = chance.within(0, 4) as u32;
        return record_bytes(&(0..count).collect::<Vec<u32>>());
    }
    let key = match chance.within(1, 6) {
        1 => chance.draw() as u32,
        2 => LAST,
        _ => chance.within(0, 66) as u32,
    };
    let mut bytes = record_bytes(&[key]);
    chance.fill(&mut bytes[6..]);
    match chance.within(1, 20) {
        1 => bytes.resize(chance.within(0, 64) as usize, 0),
        2 => bytes[chance.within(0, 1) as usize] ^= 1 << chance.within(0, 7),
        3 => bytes = bytes.repeat(2),
        _ => {}
    }
    bytes
}

/// Any call with any arguments, those that write units more often.
pub fn any_call(chance: &mut Chance) -> Call {
    let number = match chance.within(1, 3) {
        1 => chance.draw() as u32,
        _ => chance.within(0, 66) as u32,
    };
    let other = chance.within(0, 66) as u32;
    match chance.within(1, 21) {
        1 => Call::Build {
            f: number,
            g: other,
        },
        2..=4 => Call::Recover,
        5..=6 => Call::BeginCompact { fill: other % 17 },
        7..=8 => Call::BeginOrder,
        9..=11 => Call::Step,
        12 => Call::Flush { page: number },
        13 => Call::Force,
        14 => Call::Checkpoint {
            clear: number % 2 == 1,
        },
        15 => Call::Find { key: number },
        16 => Call::Walk { key: number },
        17..=18 => Call::Put,
        19..=20 => Call::Delete { key: other },
        _ => Call::List {
            low: number,
            high: other,
        },
    }
}

/// Harms something that a call is lent; lengths harmed before are mended.
pub fn harm(chance: &mut Chance, state: &mut State) {
    state.work.resize(PAGES_BYTES, 0);
    state.store.resize(PAGES_BYTES, 0);
    state.log.resize(LOG_BYTES, 0);
    match chance.within(1, 10) {
        1..=2 => harm_pages(chance, &mut state.work),
        3..=4 => harm_pages(chance, &mut state.store),
        5 => {
            harm_pages(chance, &mut state.work);
            state.store.clone_from(&state.work);
        }
        6 => harm_log(chance, state),
        7 => harm_image(chance, state),
        8 => harm_numbers(chance, state),
        9 => harm_length(chance, state),
        _ => chance.fill(&mut state.work),
    }
}

/// Changes a byte, most often one of the first `used`.
fn harm_byte(chance: &mut Chance, bytes: &mut [u8], used: usize) {
    let most = if chance.one_in(5) { bytes.len() } else { used };
    let at = chance.within(0, most as u64 - 1) as usize;
    bytes[at] = match chance.within(1, 5) {
        1 => chance.draw() as u8,
        2 => bytes[at].wrapping_add(1),
        3 => bytes[at].wrapping_sub(1),
        4 => 0,
        _ => bytes[at] ^ (1 << chance.within(0, 7)),
    };
}

/// A number near this one, or an end of its range.
fn near(chance: &mut Chance, number: u32) -> u32 {
    match chance.within(1, 5) {
        1 => 0,
        2 => LAST,
        3 => chance.draw() as u32,
        4 => number.wrapping_sub(1),
        _ => number.wrapping_add(1),
    }
}

/// A page that is not empty, or now and then any.
fn some_page(chance: &mut Chance, pages: &[u8]) -> u16 {
    let mut places: Vec<u16> = (0..PAGE_COUNT as u16).collect();
    if !chance.one_in(8) {
        places.retain(|&place| !page_of(pages, place).starts_with(b"pe"));
    }
    match places.len() as u64 {
        0 => 0,
        count => places[chance.within(0, count - 1) as usize],
    }
}

/// Harms one of these pages: a bit, a byte or a field of it, its rows, or the
/// page as a whole.
pub fn harm_pages(chance: &mut Chance, pages: &mut [u8]) {
    let place = some_page(chance, pages);
    let row = if LEAVES.contains(&place) { 16 } else { 8 };
    let page = page_of_mut(pages, place);
    let count = get16(page, 2).clamp(1, 240 / row as u16) as usize;
    let some_row = 16 + row * chance.within(0, count as u64 - 1) as usize;
    match chance.within(1, 14) {
        1..=3 => harm_byte(chance, page, 64),
        4 => put16(page, 2, near(chance, count as u32) as u16),
        5 => page[2..4].copy_from_slice(&[chance.within(0, 40) as u8, 0]),
        6 if some_row + 2 * row <= PAGE_BYTES => {
            let (first, second) = page[some_row..some_row + 2 * row].split_at_mut(row);
            first.swap_with_slice(second);
        }
        7 if some_row + 2 * row <= PAGE_BYTES => {
            page.copy_within(some_row..some_row + row, some_row + row)
        }
        8 => page[8 + chance.within(0, 7) as usize] = 1 + chance.within(0, 254) as u8,
        9 => page[..2].copy_from_slice(MARKS[chance.within(0, 3) as usize]),
        10 => {
            let key = get32(page, some_row + 2);
            put32(page, some_row + 2, near(chance, key));
        }
        11 => put16(page, some_row + 6, chance.within(0, 66) as u16),
        12 => put_page(pages, place.max(1), 0, Body::Empty),
        13 => {
            let other = page_of(pages, some_page(chance, pages)).to_vec();
            page_of_mut(pages, place).copy_from_slice(&other);
        }
        _ => {
            // The bytes after the rows, or the rows as well.
            let from = if chance.one_in(2) {
                0
            } else {
                16 + row * count
            };
            if from < PAGE_BYTES {
                harm_byte(chance, &mut page[from..], PAGE_BYTES - from);
            }
        }
    }
}

/// Harms the log: a bit, a byte or a header, records swapped, lost, doubled
/// or cut, something after the end, or all of it.
pub fn harm_log(chance: &mut Chance, state: &mut State) {
    let ends = Log::read(&state.log).map_or(vec![LOG_BYTES], |log| {
        log.records.iter().map(|placed| placed.end).collect()
    });
    let end = ends[ends.len() - 1];
    let at = chance.within(0, ends.len() as u64 - 1) as usize;
    let start = if at == 0 { 0 } else { ends[at - 1] };
    let bytes = &mut state.log;
    let one: Range<usize> = start..ends[at];
    match chance.within(1, 12) {
        1..=3 => harm_byte(chance, bytes, end),
        4..=5 => harm_byte(chance, &mut bytes[one.clone()], one.len()),
        6 => {
            let field = start + 4 * chance.within(0, 2) as usize;
            let number = get32(bytes, field);
            put32(bytes, field, near(chance, number));
        }
        7 if at + 1 < ends.len() => bytes[start..ends[at + 1]].rotate_left(one.len()),
        8 => {
            // The record is lost, and those after it move up.
            bytes.copy_within(ends[at].., start);
            bytes[LOG_BYTES - one.len()..].fill(0);
            state.numbers.used = state.numbers.used.saturating_sub(one.len() as u32);
        }
        9 if end + one.len() <= LOG_BYTES => {
            bytes.copy_within(one.clone(), end);
            state.numbers.used = state.numbers.used.saturating_add(one.len() as u32);
        }
        10 => {
            // The log ends within a record.
            let cut = chance.within(start as u64, ends[at] as u64 - 1) as usize;
            bytes[cut..].fill(0);
            if chance.one_in(2) {
                state.numbers.used = cut as u32;
            }
        }
        11 if end < LOG_BYTES => {
            let at = chance.within(end as u64, LOG_BYTES as u64 - 1) as usize;
            let at = if chance.one_in(3) { end } else { at };
            bytes[at] = [1, b'L', 255][chance.within(0, 2) as usize];
        }
        12 => chance.fill(bytes),
        _ => bytes[one].fill(0),
    }
}

/// Harms an image of a put or a delete, so that it stays in page form as a
/// rule: its number, its page, a record's value, or a whole page of the work
/// pages in its stead. Where the log has none, the log is harmed.
fn harm_image(chance: &mut Chance, state: &mut State) {
    let log = Log::read(&state.log);
    let records = log.map_or(Vec::new(), |log| log.records);
    let images: Vec<usize> = records
        .windows(2)
        .filter(|two| matches!(two[1].record, Record::Image { .. }))
        .map(|two| two[0].end)
        .collect();
    let Some(last) = (images.len() as u64).checked_sub(1) else {
        return harm_log(chance, state);
    };
    let start = images[chance.within(0, last) as usize];
    let (page, number) = (start + 12, start + 16 + 4);
    match chance.within(1, 5) {
        1 => {
            let now = get32(&state.log, number);
            put32(&mut state.log, number, near(chance, now));
        }
        2 => {
            let other = chance.within(0, PAGE_COUNT as u64) as u16;
            put16(&mut state.log, page, other);
        }
        3 => {
            let now = get32(&state.log, number);
            let place = get16(&state.log, page);
            let bytes = page_of(&state.work, place).to_vec();
            state.log[start + 16..start + 16 + PAGE_BYTES].copy_from_slice(&bytes);
            put32(&mut state.log, number, now);
        }
        _ => state.log[start + 32 + ROW_BYTES - 1] ^= 1,
    }
}

/// Numbers that do not fit the log, most of them.
pub fn harm_numbers(chance: &mut Chance, state: &mut State) {
    let numbers = &mut state.numbers;
    match chance.within(1, 6) {
        1 => numbers.used = near(chance, numbers.used),
        2 => numbers.forced = near(chance, numbers.forced),
        3 => numbers.forced = numbers.used.wrapping_add(4),
        4 => numbers.used = chance.within(0, LOG_BYTES as u64) as u32,
        5 => numbers.forced = chance.within(0, LOG_BYTES as u64) as u32,
        _ => std::mem::swap(&mut numbers.used, &mut numbers.forced),
    }
}

/// One buffer of another length, at most one byte longer.
pub fn harm_length(chance: &mut Chance, state: &mut State) {
    let (buffer, right) = match chance.within(1, 3) {
        1 => (&mut state.work, PAGES_BYTES),
        2 => (&mut state.store, PAGES_BYTES),
        _ => (&mut state.log, LOG_BYTES),
    };
    let length = match chance.within(1, 4) {
        1 => 0,
        2 => right - 1,
        3 => right + 1,
        _ => chance.within(0, right as u64) as usize,
    };
    buffer.resize(length, 0);
}
