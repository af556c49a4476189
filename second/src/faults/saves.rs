//! Faults of puts and deletes. Those that work out other images do so in every
//! step and in recovery, so that such a program agrees with itself: the images
//! of its open unit are made right for the call, and wrong again after it.

use super::{begun_in_room, is_recovery, named, with_store, Fault};
use crate::bytes::{get16, get32, page_of, page_of_mut, put32, PAGES_BYTES};
use crate::log::{Begin, Log, Record, Type, BEGIN_BYTES, IMAGE_BYTES};
use crate::page::{Body, Entry, Page, Row, ROW_BYTES};
use crate::runs::after_saves;
use crate::state::{row_bytes, Answer, Call, State, Values};
use crate::tree::read_tree;
use crate::{reply, save};

pub const SAVE_FAULTS: [Fault; 22] = [
    named("neighbour-not-lowered", &neighbour_not_lowered),
    named("base-not-lowered", &base_not_lowered),
    named("root-not-lowered", &root_not_lowered),
    named("joins-right", &joins_right),
    named("split-at-seven", &split_at_seven),
    named("image-own-number", &image_own_number),
    named("image-at-once", &image_at_once),
    named("image-any-number", &image_any_number),
    named("images-not-compared", &images_not_compared),
    named("images-copied-last", &images_copied_last),
    named("end-over-newer", &end_over_newer),
    named("end-forgets-page", &end_forgets_page),
    named("begun-not-counted", &begun_not_counted),
    named("begun-counted-twice", &begun_counted_twice),
    named("lk-moved-by-put", &lk_moved_by_put),
    named("save-room-for-next", &save_room_for_next),
    named("put-of-many", &put_of_many),
    named("put-mark-unread", &put_mark_unread),
    named("delete-keeps-value", &delete_keeps_value),
    named("number-for-next", &number_for_next),
    named("find-while-saving", &find_while_saving),
    named("find-of-begun", &find_of_begun),
];

type Images = Vec<(u16, Page)>;

/// What a put or a delete that is open is going to do.
struct Work {
    /// The pages before it.
    pages: Vec<Page>,
    images: Images,
}

impl Work {
    /// That of the unit that the call goes on with, if there is one.
    fn of(call: &Call, state: &State) -> Option<Work> {
        let works = matches!(call, Call::Step | Call::Recover);
        let lent = state.work.len() == PAGES_BYTES && state.store.len() == PAGES_BYTES;
        let log = Log::read(&state.log).filter(|_| works && lent)?;
        let open = log.open.as_ref().filter(|open| open.begin.row.is_some())?;
        let mut before = state.clone();
        if *call == Call::Recover {
            before.cut(log.records.len() - open.done - 1, |bytes| bytes.fill(0));
            Call::Recover.on(&mut before);
        }
        let (pages, _) = read_tree(&before.work).ok()?;
        let changes = save::changes(&pages, &open.begin).ok()?;
        let number = save::end_number(&log, open, &changes) as u32;
        let image = |(place, body)| (place, Page { number, body });
        Some(Work {
            pages,
            images: changes.into_iter().map(image).collect(),
        })
    }

    fn entries_before(&self, place: u16) -> &[Entry] {
        match &self.pages[place as usize].body {
            Body::Root(entries) | Body::Base(entries) => entries,
            _ => &[],
        }
    }
}

/// The offsets of the images of the log's last unit.
fn image_offsets(log: &[u8]) -> Vec<usize> {
    let mut offsets = Vec::new();
    let mut at = 0;
    while at + 12 <= log.len() && log[at] != 0 && get16(log, at + 2) > 0 {
        match &log[at..at + 2] {
            b"LB" => offsets.clear(),
            b"LG" => offsets.push(at),
            _ => {}
        }
        at += get16(log, at + 2) as usize;
    }
    offsets
}

/// Each image of the log's last unit that is among `from` becomes that of `to`.
fn exchange(log: &mut [u8], from: &Images, to: &Images) {
    for at in image_offsets(log) {
        let number = get32(log, at + 4);
        let record = |(page, image): &(u16, Page)| {
            let (page, image) = (*page, image.clone());
            Record::Image { page, image }.write(number)
        };
        let there = &mut log[at..at + IMAGE_BYTES];
        if let Some(i) = from.iter().position(|image| record(image) == *there) {
            there.copy_from_slice(&record(&to[i]));
        }
    }
}

/// A program whose puts and deletes work out other images.
fn bent(call: &Call, state: &mut State, bend: fn(&Work, &mut Images)) -> Answer {
    let Some(work) = Work::of(call, state) else {
        return call.on(state);
    };
    let mut wrong = work.images.clone();
    bend(&work, &mut wrong);
    let log = state.log.clone();
    exchange(&mut state.log, &wrong, &work.images);
    let answer = call.on(state);
    if answer.reply != reply::DONE {
        state.log = log;
        return answer;
    }
    exchange(&mut state.log, &work.images, &wrong);
    for ((place, right), (_, wrong)) in work.images.iter().zip(&wrong) {
        let page = page_of_mut(&mut state.work, *place);
        if *page == right.write() {
            page.copy_from_slice(&wrong.write());
        }
    }
    answer
}

/// Entries that stood on the same page before have the key that they had.
fn with_old_keys(before: &[Entry], entries: &mut [Entry]) {
    for entry in entries {
        if let Some(old) = before.iter().find(|old| old.page == entry.page) {
            entry.key = old.key;
        }
    }
}

/// The right neighbour keeps its key where the first leaf of a base page goes.
fn neighbour_not_lowered(call: &Call, state: &mut State) -> Answer {
    bent(call, state, |work, images| {
        for (place, image) in images {
            let before = work.entries_before(*place);
            match &mut image.body {
                Body::Base(entries) if entries.len() < before.len() => {
                    with_old_keys(before, entries)
                }
                _ => {}
            }
        }
    })
}

/// The base page on the right keeps its first key where the first one goes.
fn base_not_lowered(call: &Call, state: &mut State) -> Answer {
    bent(call, state, |work, images| {
        for (place, image) in images {
            let before = work.entries_before(*place);
            match &mut image.body {
                Body::Base(entries) if entries.len() == before.len() => {
                    with_old_keys(before, entries)
                }
                _ => {}
            }
        }
    })
}

/// The root keeps the key of the base page on the right.
fn root_not_lowered(call: &Call, state: &mut State) -> Answer {
    bent(call, state, |work, images| {
        for (place, image) in images {
            if let Body::Root(entries) = &mut image.body {
                with_old_keys(work.entries_before(*place), entries);
            }
        }
    })
}

/// An emptied leaf's range joins the right neighbour's, also where there is
/// one on its left.
fn joins_right(call: &Call, state: &mut State) -> Answer {
    bent(call, state, |work, images| {
        for (place, image) in images {
            let before = work.entries_before(*place);
            let (Body::Root(entries) | Body::Base(entries)) = &mut image.body else {
                continue;
            };
            let gone = |old: &&Entry| entries.iter().all(|entry| entry.page != old.page);
            if let Some(gone) = before.iter().find(gone).filter(|_| !entries.is_empty()) {
                let right = entries.iter_mut().find(|entry| entry.key > gone.key);
                right.into_iter().for_each(|right| right.key = gone.key);
            }
        }
    })
}

/// Of 16 records seven stay.
fn split_at_seven(call: &Call, state: &mut State) -> Answer {
    bent(call, state, |work, images| {
        let leaf = |image: &&mut (u16, Page)| matches!(image.1.body, Body::Leaf(_));
        let mut halves: Vec<&mut (u16, Page)> = images.iter_mut().filter(leaf).collect();
        halves.sort_by_key(|(place, _)| work.pages[*place as usize].body == Body::Empty);
        let [lower, upper] = &mut halves[..] else {
            return;
        };
        let to = upper.0;
        let (Body::Leaf(lower), Body::Leaf(upper)) = (&mut lower.1.body, &mut upper.1.body) else {
            return;
        };
        let Some(moved) = lower.pop() else {
            return;
        };
        upper.insert(0, moved);
        for (_, image) in images {
            if let Body::Base(entries) = &mut image.body {
                let entry = entries.iter_mut().find(|entry| entry.page == to);
                entry.into_iter().for_each(|entry| entry.key = moved.key);
            }
        }
    })
}

/// Each image bears its own record's number.
fn image_own_number(call: &Call, state: &mut State) -> Answer {
    bent(call, state, |_, images| {
        let count = images.len() as u32;
        for ((_, image), before_end) in images.iter_mut().zip((1..=count).rev()) {
            image.number = image.number.wrapping_sub(before_end);
        }
    })
}

/// An image changes its page at once, not with the end.
fn image_at_once(call: &Call, state: &mut State) -> Answer {
    let answer = call.on(state);
    if *call == Call::Step && answer.reply == reply::DONE {
        let log = state.read_log();
        if let Some(Record::Image { page, image }) = log.records.last().map(|r| &r.record) {
            page_of_mut(&mut state.work, *page).copy_from_slice(&image.write());
        }
    }
    answer
}

/// An ended unit's image may bear any number.
fn image_any_number(call: &Call, state: &mut State) -> Answer {
    let log = state.log.clone();
    let mut images: Vec<usize> = Vec::new();
    let mut at = 0;
    while at + 12 <= log.len() && log[at] != 0 && get16(&log, at + 2) > 0 {
        match &log[at..at + 2] {
            b"LB" => images.clear(),
            b"LG" => images.push(at + 16 + 4),
            b"LE" => {
                let number = get32(&log, at + 4);
                images
                    .drain(..)
                    .for_each(|at| put32(&mut state.log, at, number));
            }
            _ => {}
        }
        at += get16(&log, at + 2) as usize;
    }
    let mended = state.log.clone();
    let answer = call.on(state);
    if state.log == mended {
        state.log = log;
    }
    answer
}

/// Logged images are not compared: the unit is worked out afresh, and goes on
/// from there.
fn images_not_compared(call: &Call, state: &mut State) -> Answer {
    let Some(work) = Work::of(call, state) else {
        return call.on(state);
    };
    let log = state.log.clone();
    let offsets = image_offsets(&log);
    for (&at, (page, image)) in offsets.iter().zip(work.images) {
        let record = Record::Image { page, image }.write(get32(&log, at + 4));
        state.log[at..at + IMAGE_BYTES].copy_from_slice(&record);
    }
    let answer = call.on(state);
    for at in offsets {
        let there = at..at + IMAGE_BYTES;
        state.log[there.clone()].copy_from_slice(&log[there]);
    }
    answer
}

/// The end copies its images over newer pages too.
fn end_over_newer(call: &Call, state: &mut State) -> Answer {
    let Some(log) = Log::read(&state.log) else {
        return call.on(state);
    };
    if is_recovery(call, state) {
        let mut store = state.store.clone();
        for placed in &log.records {
            for (place, image) in ended_images(&log, &placed.record, placed.number) {
                let page = page_of_mut(&mut store, place);
                let number = get32(page, 4).min(image.number - 1);
                put32(page, 4, number);
            }
        }
        return with_store(call, state, store);
    }
    let Some(forward) = Work::of(call, state) else {
        return call.on(state);
    };
    let work = state.work.clone();
    for (place, _) in forward.images {
        put32(page_of_mut(&mut state.work, place), 4, 0);
    }
    let answer = call.on(state);
    if state.read_log().open.is_some() {
        state.work = work;
    }
    answer
}

/// The images that this record copies, if it is the end of a put or a delete.
fn ended_images(log: &Log, record: &Record, number: u32) -> Images {
    match record {
        Record::End { .. } => {
            let images = log.images_of(number);
            images
                .map(|(place, image)| (place, image.clone()))
                .collect()
        }
        _ => Images::new(),
    }
}

/// Recovery copies the images of all ended units when it has repeated the
/// other records.
fn images_copied_last(call: &Call, state: &mut State) -> Answer {
    let log = Log::read(&state.log);
    let answer = call.on(state);
    let (Call::Recover, reply::DONE, Some(log)) = (call, answer.reply, log) else {
        return answer;
    };
    for placed in &log.records {
        for (place, image) in ended_images(&log, &placed.record, placed.number) {
            page_of_mut(&mut state.work, place).copy_from_slice(&image.write());
        }
    }
    answer
}

/// Recovery takes back a put or a delete of which the begin record alone is
/// there: it is not counted among the begun ones.
fn begun_not_counted(call: &Call, state: &mut State) -> Answer {
    let log = Log::read(&state.log).filter(|_| is_recovery(call, state));
    if let Some(log) = log {
        let open = log.open.as_ref();
        if open.is_some_and(|open| open.begin.row.is_some() && open.done == 0) {
            state.cut(log.records.len() - 1, |bytes| bytes.fill(0));
        }
    }
    call.on(state)
}

/// Recovery finishes a put and does it once more.
fn begun_counted_twice(call: &Call, state: &mut State) -> Answer {
    let log = Log::read(&state.log).filter(|_| is_recovery(call, state));
    let mut answer = call.on(state);
    let row = log.and_then(|log| log.open).and_then(|open| open.begin.row);
    let (Some(row), Values::Count(count), reply::DONE) = (row, &mut answer.values, answer.reply)
    else {
        return answer;
    };
    let mut again = state.lending(row);
    if Call::Put.on(&mut again).reply == reply::DONE {
        *count += 1 + again.finish() as u32;
        again.numbers.forced = state.numbers.forced;
        again.bytes.clone_from(&state.bytes);
        *state = again;
    }
    answer
}

/// A checkpoint takes the last put's key for LK.
fn lk_moved_by_put(call: &Call, state: &mut State) -> Answer {
    let log = Log::read(&state.log);
    let answer = call.on(state);
    let (Call::Checkpoint { clear: false }, reply::DONE, Some(log)) = (call, answer.reply, log)
    else {
        return answer;
    };
    let last = log
        .records
        .iter()
        .rev()
        .find_map(|placed| match &placed.record {
            Record::Begin(begin) => Some(begin.clone()),
            _ => None,
        });
    if let Some(Begin {
        kind: Type::Put,
        row: Some(row),
        ..
    }) = last
    {
        state.log[16] = 1;
        put32(&mut state.log, 20, row.key);
    }
    answer
}

/// A put or a delete tests the room for its begin record alone.
fn save_room_for_next(call: &Call, state: &mut State) -> Answer {
    let answer = call.on(state);
    let begin = matches!(call, Call::Put | Call::Delete { .. });
    match begin && answer.reply == reply::ROOM {
        true => begun_in_room(call, state).unwrap_or(answer),
        false => answer,
    }
}

/// A put takes the first of several records.
fn put_of_many(call: &Call, state: &mut State) -> Answer {
    let many = state.bytes.len() > ROW_BYTES && state.bytes.len().is_multiple_of(ROW_BYTES);
    if *call != Call::Put || !many {
        return call.on(state);
    }
    let rest = state.bytes.split_off(ROW_BYTES);
    let answer = call.on(state);
    state.bytes.extend(rest);
    answer
}

/// A put does not look at its record's mark.
fn put_mark_unread(call: &Call, state: &mut State) -> Answer {
    if *call != Call::Put || state.bytes.len() != ROW_BYTES {
        return call.on(state);
    }
    let mark = [state.bytes[0], state.bytes[1]];
    state.bytes[..2].copy_from_slice(b"rc");
    let answer = call.on(state);
    state.bytes[..2].copy_from_slice(&mark);
    answer
}

/// A delete's begin record bears the record that goes.
fn delete_keeps_value(call: &Call, state: &mut State) -> Answer {
    let at = state.numbers.used as usize;
    let answer = call.on(state);
    if let (Call::Delete { key }, reply::DONE) = (call, answer.reply) {
        let mut short = state.clone();
        short.set_check(1, 0, None);
        if let Values::Value(value) = (Call::Find { key: *key }).on(&mut short).values {
            let row = row_bytes(&[Row { key: *key, value }]);
            state.log[at + BEGIN_BYTES..at + BEGIN_BYTES + ROW_BYTES].copy_from_slice(&row);
        }
    }
    answer
}

/// Test 7 of an image looks at its own record's number, so that an image may
/// bear one that has wrapped.
fn number_for_next(call: &Call, state: &mut State) -> Answer {
    let answer = call.on(state);
    if !(*call == Call::Step && answer.reply == reply::NUMBER) {
        return answer;
    }
    let mut log = state.read_log();
    match Work::of(call, state) {
        Some(work) if log.last() < u32::MAX => {
            let (page, image) = work.images[0].clone();
            log.append(&mut state.log, Record::Image { page, image });
            state.numbers.used = log.end() as u32;
            Answer {
                reply: reply::DONE,
                ..answer
            }
        }
        _ => answer,
    }
}

/// Find reads while a put or a delete is open: only its end changes pages.
fn find_while_saving(call: &Call, state: &mut State) -> Answer {
    let answer = call.on(state);
    let (Call::Find { .. }, reply::OPEN) = (call, answer.reply) else {
        return answer;
    };
    let mut short = state.clone();
    match state.read_log().open {
        Some(open) if open.begin.row.is_some() => {
            short.set_check(1, 0, None);
            call.on(&mut short)
        }
        _ => answer,
    }
}

/// Find gives the record of a put that is open: as if it had ended.
fn find_of_begun(call: &Call, state: &mut State) -> Answer {
    let answer = call.on(state);
    let (Call::Find { key }, reply::OPEN) = (call, answer.reply) else {
        return answer;
    };
    let rows = after_saves(&[], &state.read_log());
    match rows.iter().find(|row| row.key == *key) {
        Some(row) => Answer {
            reply: reply::DONE,
            values: Values::Value(row.value),
        },
        None => answer,
    }
}

/// A put's end leaves the first of its pages as it was.
fn end_forgets_page(call: &Call, state: &mut State) -> Answer {
    let forward = Work::of(call, state).filter(|_| *call == Call::Step);
    let work = state.work.clone();
    let answer = call.on(state);
    if let Some(forward) = forward {
        let (place, _) = forward.images[0];
        if state.read_log().open.is_none() {
            page_of_mut(&mut state.work, place).copy_from_slice(page_of(&work, place));
        }
    }
    answer
}
