//! Planted faults: the second program with one thing wrong in one call. What
//! compares programs must tell each of them from the second program.
//!
//! The first four are those of document 01's "Easy to get wrong". Each fault
//! lends the right call something wrong, or changes what it leaves. Those of
//! puts and deletes are in `saves`.

mod saves;

pub use saves::SAVE_FAULTS;

use crate::bytes::{get32, page_of, page_of_mut, put32, Numbers, PAGES_BYTES, PAGE_COUNT};
use crate::log::{Log, Record, Step, BEGIN_BYTES, CHECK_BYTES};
use crate::page::{read_page, read_pages, Body, ROW_BYTES};
use crate::runs::Program;
use crate::state::{Answer, Call, State, Values};
use crate::{reply, unit};

/// A program with one thing wrong.
pub struct Fault {
    pub name: &'static str,
    pub program: &'static Program<'static>,
}

/// Faults of document 01's calls.
pub const FAULTS: [Fault; 24] = [
    named("in-repeated", &in_repeated),
    named("swap-by-pointer", &swap_by_pointer),
    named("room-for-next", &room_for_next),
    named("chosen-afresh", &chosen_afresh),
    named("early-flush", &early_flush),
    named("repeats-all", &repeats_all),
    named("count-wrong", &count_wrong),
    named("log-forgotten", &log_forgotten),
    named("forces-too-much", &forces_too_much),
    named("stamp-forgotten", &stamp_forgotten),
    named("refusal-changes", &refusal_changes),
    named("refused-keeps-work", &refused_keeps_work),
    named("checkpoint-clears", &checkpoint_clears),
    named("fill-of-nought", &fill_of_nought),
    named("longer-lent", &longer_lent),
    named("tail-unread", &tail_unread),
    named("find-reads-all", &find_reads_all),
    named("find-entry-strict", &find_entry_strict),
    named("list-below-high", &list_below_high),
    named("list-more-when-full", &list_more_when_full),
    named("walk-past-key", &walk_past_key),
    named("walk-of-open-unit", &walk_of_open_unit),
    named("build-first-key", &build_first_key),
    named("build-keeps-store", &build_keeps_store),
];

const fn named(name: &'static str, program: &'static Program<'static>) -> Fault {
    Fault { name, program }
}

/// All faults.
pub fn all() -> impl Iterator<Item = &'static Fault> {
    FAULTS.iter().chain(&SAVE_FAULTS)
}

/// The program with this fault.
pub fn fault(name: &str) -> Option<&'static Program<'static>> {
    let fault = all().find(|fault| fault.name == name);
    fault.map(|fault| fault.program)
}

fn is_recovery(call: &Call, state: &State) -> bool {
    matches!(call, Call::Recover) && state.store.len() == PAGES_BYTES
}

/// Makes the call with other store pages, which are put back.
fn with_store(call: &Call, state: &mut State, store: Vec<u8>) -> Answer {
    let kept = std::mem::replace(&mut state.store, store);
    let answer = call.on(state);
    state.store = kept;
    answer
}

/// Recovery repeats an in record on the page that it has stamped.
fn in_repeated(call: &Call, state: &mut State) -> Answer {
    let log = Log::read(&state.log);
    let (true, Some(log)) = (is_recovery(call, state), log) else {
        return call.on(state);
    };
    let mut store = state.store.clone();
    for placed in &log.records {
        if let Record::In { dest, .. } = placed.record {
            let page = page_of_mut(&mut store, dest);
            if get32(page, 4) == placed.number {
                put32(page, 4, placed.number - 1);
            }
        }
    }
    with_store(call, state, store)
}

/// The swap's second entry is the lowest that points to the page, also where
/// it is the one just changed.
fn swap_by_pointer(call: &Call, state: &mut State) -> Answer {
    let mut before = state.clone();
    let answer = call.on(state);
    if *call == Call::Step && answer.reply == reply::DONE {
        if let Some(mut log) = Log::read(&before.log) {
            if let Some(record) = by_pointer(&log, &before.work) {
                let number = log.last() + 1;
                // The entry is there: it is the one just changed.
                let _ = unit::apply(&log, &mut before.work, number, &record);
                log.append(&mut before.log, record);
                before.numbers.used = log.end() as u32;
                *state = before;
            }
        }
    }
    answer
}

fn by_pointer(log: &Log, work: &[u8]) -> Option<Record> {
    let (base, old, new) = match *log.open.as_ref()?.remaining().first()? {
        Step::Point {
            base,
            old,
            new,
            except: Some(_),
        } => (base, old, new),
        _ => return None,
    };
    let Body::Base(entries) = read_page(work, base)?.body else {
        return None;
    };
    let entry = entries.iter().find(|entry| entry.page == old)?;
    Some(Record::Modify {
        base,
        old,
        new,
        old_key: entry.key,
        new_key: entry.key,
    })
}

/// Begin tests the room for its own record instead of the whole unit's.
fn room_for_next(call: &Call, state: &mut State) -> Answer {
    let answer = call.on(state);
    let begin = matches!(call, Call::BeginCompact { .. } | Call::BeginOrder);
    match begin && answer.reply == reply::ROOM {
        true => begun_in_room(call, state).unwrap_or(answer),
        false => answer,
    }
}

/// Begins as after a log of one check record, where the begin record fits.
fn begun_in_room(call: &Call, state: &mut State) -> Option<Answer> {
    let log = state.read_log();
    let mut short = state.clone();
    short.set_check(log.last(), log.unit, log.lk);
    let answer = call.on(&mut short);
    let begin = &short.log[CHECK_BYTES..short.numbers.used as usize];
    let room = log.end()..log.end() + begin.len();
    if answer.reply == reply::DONE && room.end <= state.log.len() {
        state.log[room.clone()].copy_from_slice(begin);
        state.numbers.used = room.end as u32;
        return Some(answer);
    }
    None
}

/// Recovery finds a begin record alone and chooses the unit afresh, with the
/// usual fill.
fn chosen_afresh(call: &Call, state: &mut State) -> Answer {
    let log = Log::read(&state.log);
    let (true, Some(log)) = (is_recovery(call, state), log) else {
        return call.on(state);
    };
    if log.open.as_ref().is_some_and(|open| open.done == 0) {
        let before = log.records.len() - 1;
        let at = log.records[before - 1].end;
        let mut closed = state.clone();
        closed.cut(before, |bytes| bytes.fill(0));
        Call::Recover.on(&mut closed);
        let chosen = Call::BeginCompact { fill: 0 }.on(&mut closed);
        if chosen.reply == reply::DONE {
            let begin = &closed.log[at..at + BEGIN_BYTES];
            state.log[at..at + BEGIN_BYTES].copy_from_slice(begin);
        }
    }
    call.on(state)
}

/// A flush that does not wait for the force.
fn early_flush(call: &Call, state: &mut State) -> Answer {
    let answer = call.on(state);
    match (call, answer.reply) {
        (Call::Flush { page }, reply::UNFORCED) => {
            let page = *page as u16;
            let bytes = page_of(&state.work, page).to_vec();
            page_of_mut(&mut state.store, page).copy_from_slice(&bytes);
            Answer {
                reply: reply::DONE,
                ..answer
            }
        }
        _ => answer,
    }
}

/// A recovery that repeats records on pages that already have them.
fn repeats_all(call: &Call, state: &mut State) -> Answer {
    if !is_recovery(call, state) {
        return call.on(state);
    }
    let mut store = state.store.clone();
    for place in 0..PAGE_COUNT as u16 {
        page_of_mut(&mut store, place)[4..8].fill(0);
    }
    with_store(call, state, store)
}

/// A recovery that counts one record too many.
fn count_wrong(call: &Call, state: &mut State) -> Answer {
    let mut answer = call.on(state);
    if let Values::Count(count) = &mut answer.values {
        *count += (*count > 0) as u32;
    }
    answer
}

/// A recovery that leaves the log as it found it.
fn log_forgotten(call: &Call, state: &mut State) -> Answer {
    let log = state.log.clone();
    let answer = call.on(state);
    if matches!(call, Call::Recover) && answer.reply == reply::DONE {
        state.log = log;
        let end = state.read_log().end() as u32;
        state.numbers = Numbers {
            used: end,
            forced: end,
        };
    }
    answer
}

/// A recovery that says the appended records are forced.
fn forces_too_much(call: &Call, state: &mut State) -> Answer {
    let answer = call.on(state);
    if matches!(call, Call::Recover) && answer.reply == reply::DONE {
        state.numbers.forced = state.numbers.used;
    }
    answer
}

/// A step whose page keeps its old number.
fn stamp_forgotten(call: &Call, state: &mut State) -> Answer {
    let before = state.work.clone();
    let answer = call.on(state);
    if *call == Call::Step && answer.reply == reply::DONE {
        for place in 0..PAGE_COUNT as u16 {
            let old = get32(page_of(&before, place), 4);
            put32(page_of_mut(&mut state.work, place), 4, old);
        }
    }
    answer
}

/// A refused begin that changes a number.
fn refusal_changes(call: &Call, state: &mut State) -> Answer {
    let answer = call.on(state);
    if answer.reply == reply::NOTHING {
        state.numbers.forced = state.numbers.used;
    }
    answer
}

/// A refused recovery that leaves the work pages as they were.
fn refused_keeps_work(call: &Call, state: &mut State) -> Answer {
    let work = state.work.clone();
    let answer = call.on(state);
    if matches!(call, Call::Recover) && answer.reply != reply::DONE {
        state.work = work;
    }
    answer
}

/// A checkpoint that clears LK, told so or not.
fn checkpoint_clears(call: &Call, state: &mut State) -> Answer {
    match call {
        Call::Checkpoint { .. } => Call::Checkpoint { clear: true }.on(state),
        _ => call.on(state),
    }
}

/// Fill 0 stands for a full leaf.
fn fill_of_nought(call: &Call, state: &mut State) -> Answer {
    match call {
        Call::BeginCompact { fill: 0 } => Call::BeginCompact { fill: 15 }.on(state),
        _ => call.on(state),
    }
}

/// Work pages may be lent with bytes to spare.
fn longer_lent(call: &Call, state: &mut State) -> Answer {
    let right = state.work.len().min(PAGES_BYTES);
    let spare = state.work.split_off(right);
    let answer = call.on(state);
    state.work.extend(spare);
    answer
}

/// Find and list do not look at the bytes after the log's end.
fn tail_unread(call: &Call, state: &mut State) -> Answer {
    let end = (state.numbers.used as usize).min(state.log.len());
    if !matches!(call, Call::Find { .. } | Call::List { .. }) {
        return call.on(state);
    }
    let tail = state.log[end..].to_vec();
    state.log[end..].fill(0);
    let answer = call.on(state);
    state.log[end..].copy_from_slice(&tail);
    answer
}

/// Find reads pages that are not on its way.
fn find_reads_all(call: &Call, state: &mut State) -> Answer {
    let answer = call.on(state);
    let read = matches!(answer.reply, reply::DONE | reply::ABSENT);
    if matches!(call, Call::Find { .. }) && read && read_pages(&state.work).is_none() {
        return Answer {
            reply: reply::FORM,
            values: Values::Value([0; 10]),
        };
    }
    answer
}

/// Find passes by an entry of a base page whose key is the wanted one.
fn find_entry_strict(call: &Call, state: &mut State) -> Answer {
    let answer = call.on(state);
    let (Call::Find { key }, reply::DONE) = (call, answer.reply) else {
        return answer;
    };
    let passed = (1..8).any(|place| match read_page(&state.work, place) {
        Some(page) => {
            matches!(page.body, Body::Base(entries) if entries.iter().any(|e| e.key == *key))
        }
        None => false,
    });
    if !passed {
        return answer;
    }
    Answer {
        reply: reply::ABSENT,
        values: Values::Value([0; 10]),
    }
}

/// List leaves out its upper bound.
fn list_below_high(call: &Call, state: &mut State) -> Answer {
    match *call {
        Call::List { low, high } if high > 0 => Call::List {
            low,
            high: high - 1,
        }
        .on(state),
        _ => call.on(state),
    }
}

/// List says that more remain whenever its room is full.
fn list_more_when_full(call: &Call, state: &mut State) -> Answer {
    let mut answer = call.on(state);
    if let Values::Listed(count, more) = &mut answer.values {
        *more |= *count > 0 && *count as usize == state.bytes.len() / ROW_BYTES;
    }
    answer
}

/// The range reader passes by the record with the key itself.
fn walk_past_key(call: &Call, state: &mut State) -> Answer {
    match *call {
        Call::Walk { key } if key < u32::MAX => Call::Walk { key: key + 1 }.on(state),
        _ => call.on(state),
    }
}

/// The range reader looks at the log, and refuses while a unit is open.
fn walk_of_open_unit(call: &Call, state: &mut State) -> Answer {
    let open = Log::read(&state.log).is_some_and(|log| log.open.is_some());
    if matches!(call, Call::Walk { .. }) && open {
        return Answer {
            reply: reply::OPEN,
            values: Values::Walked(0),
        };
    }
    call.on(state)
}

/// Build gives the leftmost entries the smallest record's key.
fn build_first_key(call: &Call, state: &mut State) -> Answer {
    let answer = call.on(state);
    let built = matches!(call, Call::Build { .. }) && answer.reply == reply::DONE;
    if built && !state.bytes.is_empty() {
        // The first entry of the root and of its first base page.
        for place in 0..2 {
            let page = page_of_mut(&mut state.work, place);
            page[18..22].copy_from_slice(&state.bytes[2..6]);
        }
        state.store.clone_from(&state.work);
    }
    answer
}

/// Build writes no store.
fn build_keeps_store(call: &Call, state: &mut State) -> Answer {
    let store = state.store.clone();
    let answer = call.on(state);
    if matches!(call, Call::Build { .. }) {
        state.store = store;
    }
    answer
}
