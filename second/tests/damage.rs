//! Damaged input. The plan:
//!
//! 1. for every reply of every call's "Order of tests" one state made by hand
//!    that must give just this reply;
//! 2. the same states with a later test failing too: the earlier one wins;
//! 3. random damage to states of small runs: no call may panic, give a reply
//!    that is not in its list, or change anything when it refuses;
//! 4. the pairs of call and reply met must be all pairs there are.

use second::bytes::{page_of_mut, put32, LOG_BYTES, PAGES_BYTES, PAGE_COUNT};
use second::chance::Chance;
use second::harm::{any_call, harm, random_state, some_bytes};
use second::log::{Begin, Record, Type};
use second::page::{Body, Row};
use second::reply::{pairs, Pair, ORDER};
use second::state::{put_page, record_bytes, row, shape, Call, LeafShape, State, Values};
use std::collections::BTreeSet;

const LAST: u32 = u32::MAX;
const COMPACT: Call = Call::BeginCompact { fill: 4 };
const TOO_FULL: Call = Call::BeginCompact { fill: 16 };
const CHECKPOINT: Call = Call::Checkpoint { clear: false };
const BUILD: Call = Call::Build { f: 15, g: 30 };
const ALL: Call = Call::List { low: 0, high: LAST };
const FIND: Call = Call::Find { key: 10 };
const WALK: Call = Call::Walk { key: 10 };

type Pairs = BTreeSet<Pair>;

fn every_pair() -> Pairs {
    pairs().collect()
}

/// Makes the call and tests what holds of every refusal.
fn make(call: Call, state: &State, seed: &str) -> u8 {
    let mut after = state.clone();
    let answer = call.on(&mut after);
    let replies = ORDER.iter().find(|(name, _)| *name == call.name());
    let known = replies.is_some_and(|(_, replies)| replies.contains(&answer.reply));
    assert!(known, "{seed}: {call:?} gave {answer:?}");
    if answer.reply != 0 {
        let mut same = state.clone();
        if call == Call::Recover && answer.reply != 1 {
            same.work.fill(0);
        }
        assert!(after == same, "{seed}: {call:?} gave {answer:?}, changed");
        let none = match answer.values {
            Values::Nothing => true,
            Values::Count(count) | Values::Walked(count) => count == 0,
            Values::Value(value) => value == [0; 10],
            Values::Listed(count, more) => count == 0 && !more,
        };
        assert!(none, "{seed}: {call:?} gave {answer:?}");
    }
    answer.reply
}

fn row_one() -> State {
    State::built(&[10, 20, 30, 40, 50, 60], 2, 30)
}

/// Leaf (10, 20) on 9 and (30) on 8: both begins find a unit.
fn crossed() -> State {
    let tree = shape(&[(1, &[(9, 0, &[10, 20]), (8, 30, &[30])])]);
    State::made(&tree, 1, 0, None)
}

/// One leaf in its place: neither begin finds a unit.
fn settled() -> State {
    State::built(&[10, 20], 2, 30)
}

fn begun() -> State {
    let mut state = row_one();
    state.done(COMPACT);
    state
}

fn change(state: &State, change: impl Fn(&mut State)) -> State {
    let mut state = state.clone();
    change(&mut state);
    state
}

fn bad_log(state: &mut State) {
    state.log[LOG_BYTES - 1] = 1;
}

fn bad_page(state: &mut State) {
    state.work[PAGES_BYTES - 1] = 1;
    state.store[PAGES_BYTES - 1] = 1;
}

fn bad_tree(state: &mut State) {
    for pages in [&mut state.work, &mut state.store] {
        put_page(pages, 62, 0, Body::Leaf(vec![row(70)]));
    }
}

fn bad_length(state: &mut State) {
    state.log.push(0);
}

fn records(state: &mut State, keys: &[u32]) {
    state.bytes = record_bytes(keys);
}

/// A compact of 9 into 8 begun at the end of a log with `free` bytes left.
fn begun_in(free: usize, check: u32) -> State {
    let mut state = row_one();
    state.set_check(check, 0, None);
    state.fill_log(free + 44);
    let log = state.read_log();
    let unit = log.unit + 1;
    let begin = Begin {
        unit,
        kind: Type::Compact,
        fill: 4,
        bases: vec![1],
        leaves: vec![8, 9],
        destination: 8,
        row: None,
    };
    state.append(log.last() + 1, &Record::Begin(begin));
    for place in 0..PAGE_COUNT as u16 {
        put32(page_of_mut(&mut state.store, place), 4, log.last());
    }
    state
}

/// A compact begun with these numbers at its check record.
fn begun_at(check: u32) -> State {
    let mut state = row_one();
    state.set_check(check, 0, None);
    let begin = Begin {
        unit: 1,
        kind: Type::Compact,
        fill: 4,
        bases: vec![1],
        leaves: vec![8, 9],
        destination: 8,
        row: None,
    };
    state.append(check + 1, &Record::Begin(begin));
    state
}

fn by_hand() -> Vec<(Call, u8, State)> {
    let one = row_one();
    let open = begun();
    let misfit = |state: &mut State| {
        put_page(&mut state.work, 9, 0, Body::Empty);
        put_page(&mut state.store, 9, 0, Body::Empty);
    };
    let full = |state: &State| {
        let mut state = state.clone();
        state.fill_log(100);
        state
    };
    let at = |state: &State, number: u32, unit: u32| {
        let mut state = state.clone();
        state.set_check(number, unit, None);
        state
    };
    let differs = |state: &mut State| state.store[300] ^= 1;
    let zero = State::zero();
    let many: Vec<u32> = (1..=841).collect();
    let mut finished = open.clone();
    finished.finish();
    let mut cases = vec![
        (BUILD, 0, one.clone()),
        (BUILD, 1, change(&one, bad_length)),
        (Call::Build { f: 0, g: 1 }, 12, one.clone()),
        (Call::Build { f: 1, g: 31 }, 12, one.clone()),
        (BUILD, 12, change(&one, |s| s.bytes = vec![0; 17])),
        (BUILD, 16, change(&one, |s| s.bytes = vec![0; 16])),
        (BUILD, 16, change(&zero, |s| records(s, &[2, 2]))),
        (BUILD, 17, change(&zero, |s| records(s, &many))),
        (Call::Build { f: 0, g: 1 }, 1, change(&one, bad_length)),
        (
            BUILD,
            16,
            change(&zero, |s| {
                records(s, &many);
                s.bytes[0] = 0;
            }),
        ),
        (Call::Recover, 0, open.clone()),
        (Call::Recover, 1, change(&open, bad_length)),
        (Call::Recover, 2, change(&open, bad_log)),
        (Call::Recover, 3, change(&open, bad_page)),
        (Call::Recover, 4, change(&open, |s| s.store[256 + 4] = 9)),
        (Call::Recover, 5, change(&open, misfit)),
        (Call::Recover, 6, begun_in(116, 1)),
        (Call::Recover, 0, begun_in(120, 1)),
        (Call::Recover, 7, begun_at(LAST - 4)),
        (Call::Recover, 0, begun_at(LAST - 5)),
        (Call::Recover, 8, change(&open, bad_tree)),
        (Call::Recover, 2, change(&change(&open, bad_log), bad_page)),
        (
            Call::Recover,
            3,
            change(&change(&open, bad_page), |s| s.store[260] = 9),
        ),
        (
            Call::Recover,
            4,
            change(&change(&open, misfit), |s| s.store[260] = 9),
        ),
        (Call::Recover, 5, change(&begun_in(116, 1), misfit)),
        (Call::Recover, 6, begun_in(116, LAST - 111)),
        (Call::Recover, 7, change(&begun_at(LAST - 4), bad_tree)),
        (Call::Step, 0, open.clone()),
        (Call::Step, 10, one.clone()),
        (Call::Step, 3, change(&open, |s| s.work[9 * 256 + 8] = 1)),
        (Call::Step, 5, change(&open, misfit)),
        (Call::Step, 6, begun_in(116, 1)),
        (Call::Step, 0, begun_in(120, 1)),
        (Call::Step, 7, begun_at(LAST - 1)),
        (Call::Step, 0, begun_at(LAST - 2)),
        (Call::Step, 2, change(&one, bad_log)),
        (
            Call::Step,
            3,
            change(&begun_in(116, 1), |s| s.work[9 * 256 + 8] = 1),
        ),
        (Call::Step, 5, change(&begun_in(116, 1), misfit)),
        (Call::Step, 5, change(&begun_at(LAST - 1), misfit)),
        (Call::Flush { page: 63 }, 0, one.clone()),
        (Call::Flush { page: 64 }, 12, one.clone()),
        (
            Call::Flush { page: 9 },
            13,
            change(&open, |s| s.done(Call::Step)),
        ),
        (Call::Flush { page: 64 }, 2, change(&one, bad_log)),
        (Call::Force, 0, one.clone()),
        (CHECKPOINT, 0, one.clone()),
        (CHECKPOINT, 9, open.clone()),
        (CHECKPOINT, 14, change(&one, differs)),
        (CHECKPOINT, 7, at(&one, LAST, 0)),
        (CHECKPOINT, 0, at(&one, LAST - 1, 0)),
        (CHECKPOINT, 9, change(&open, differs)),
        (CHECKPOINT, 14, change(&at(&one, LAST, 0), differs)),
        (FIND, 0, one.clone()),
        (FIND, 9, change(&open, |s| s.work.fill(0))),
        (FIND, 3, change(&one, |s| s.work[8 * 256] = 0)),
        (Call::Find { key: 11 }, 15, change(&one, bad_page)),
        (ALL, 0, one.clone()),
        (ALL, 9, change(&open, bad_page)),
        (ALL, 3, change(&change(&one, bad_page), bad_tree)),
        (ALL, 8, change(&one, bad_tree)),
        (WALK, 0, change(&change(&open, bad_log), bad_length)),
        (
            WALK,
            1,
            change(&change(&one, bad_page), |s| s.work.truncate(1)),
        ),
        (WALK, 3, change(&change(&one, bad_page), bad_tree)),
        (WALK, 8, change(&one, bad_tree)),
        (TOO_FULL, 2, change(&one, bad_log)),
        (TOO_FULL, 12, change(&open, bad_page)),
    ];
    for begin in [Call::BeginCompact { fill: 0 }, Call::BeginOrder] {
        let tree = crossed();
        let need: usize = if begin == Call::BeginOrder { 252 } else { 148 };
        let records: u32 = if begin == Call::BeginOrder { 8 } else { 5 };
        let room = |free: usize| change(&tree, |state| state.fill_log(free));
        cases.extend([
            (begin, 0, tree.clone()),
            (begin, 9, change(&open, bad_page)),
            (begin, 3, change(&change(&tree, bad_page), bad_tree)),
            (begin, 8, full(&change(&tree, bad_tree))),
            (begin, 11, full(&settled())),
            (begin, 11, at(&settled(), LAST, LAST)),
            (begin, 0, room(need)),
            (begin, 6, room(need - 4)),
            (begin, 0, at(&tree, LAST - records, LAST - 1)),
            (begin, 7, at(&tree, LAST - records + 1, 0)),
            (begin, 7, at(&tree, 1, LAST)),
            (begin, 6, {
                let mut tree = at(&tree, LAST - 126, 0);
                tree.fill_log(100);
                tree
            }),
        ]);
    }
    for call in [TOO_FULL, COMPACT, Call::BeginOrder, Call::Step, FIND, ALL] {
        cases.push((call, 1, change(&change(&one, bad_log), |s| s.work.clear())));
        cases.push((call, 1, change(&one, bad_length)));
    }
    for call in [Call::Flush { page: 64 }, CHECKPOINT] {
        cases.push((call, 1, change(&one, |s| s.store.truncate(1))));
    }
    cases.push((Call::Force, 1, change(&change(&one, bad_log), bad_length)));
    for call in [
        COMPACT,
        Call::BeginOrder,
        Call::Step,
        Call::Flush { page: 1 },
        Call::Force,
        CHECKPOINT,
        FIND,
        ALL,
    ] {
        cases.push((call, 2, change(&open, bad_log)));
        cases.push((call, 2, change(&open, |s| s.numbers.used -= 4)));
        cases.push((call, 2, change(&finished, |s| s.numbers.used = 172)));
        cases.push((call, 2, change(&open, |s| s.numbers.forced = 0)));
        cases.push((call, 2, change(&open, |s| s.numbers.forced = 28)));
        cases.push((call, 2, change(&one, |s| s.numbers.forced = 68)));
    }
    cases
}

/// One leaf of 15 records, and so many of one, under one base page.
fn full_and_more(more: u32) -> State {
    let keys: Vec<u32> = (1..=15).collect();
    let mut tree = shape(&[(1, &[(8, 0, &keys)])]);
    tree[0].leaves.extend((1..=more).map(|leaf| LeafShape {
        page: 8 + leaf as u16,
        entry: 100 * leaf,
        keys: vec![100 * leaf],
    }));
    State::made(&tree, 1, 0, None)
}

/// A begin record of a put or a delete after the log's last record, with the
/// record of key 7.
fn begun_save(state: &State, kind: Type) -> State {
    let mut state = state.clone();
    let log = state.read_log();
    let value = [0; 10];
    let begin = Begin::of_row(log.unit + 1, kind, Row { key: 7, value });
    state.append(log.last() + 1, &Record::Begin(begin));
    state
}

/// Puts and deletes: each reply when they begin and when they go on, and the
/// order of the tests.
fn saves_by_hand() -> Vec<(Call, u8, State)> {
    let one = change(&row_one(), |s| records(s, &[25]));
    let open = change(&begun(), |s| records(s, &[25]));
    let crowded = change(&full_and_more(29), |s| records(s, &[99]));
    let at = |state: &State, number: u32, unit: u32| {
        change(state, |state| state.set_check(number, unit, None))
    };
    let room = |state: &State, free: usize| change(state, |state| state.fill_log(free));
    let no_mark = |s: &mut State| s.bytes[0] = 0;
    let delete = |key| Call::Delete { key };
    let mut cases = vec![
        (Call::Put, 0, one.clone()),
        (Call::Put, 12, change(&one, |s| s.bytes.clear())),
        (Call::Put, 12, change(&one, |s| records(s, &[1, 2]))),
        (Call::Put, 12, change(&open, |s| s.bytes = vec![0; 15])),
        (Call::Put, 16, change(&one, no_mark)),
        (Call::Put, 16, change(&open, no_mark)),
        (Call::Put, 18, crowded.clone()),
        (Call::Put, 0, change(&crowded, |s| records(s, &[15]))),
        (
            Call::Put,
            0,
            change(&full_and_more(28), |s| records(s, &[99])),
        ),
        (Call::Put, 18, at(&crowded, LAST, LAST)),
        (Call::Put, 18, room(&crowded, 100)),
        (Call::Put, 8, change(&crowded, bad_tree)),
        (Call::Put, 0, room(&one, 348)),
        (Call::Put, 6, room(&one, 344)),
        (Call::Put, 0, at(&one, LAST - 3, LAST - 1)),
        (Call::Put, 7, at(&one, LAST - 2, 0)),
        (Call::Put, 7, at(&one, 1, LAST)),
        (Call::Put, 6, room(&at(&one, LAST - 200, LAST - 200), 100)),
        (delete(10), 0, one.clone()),
        (delete(11), 15, one.clone()),
        (delete(11), 15, at(&one, LAST, LAST)),
        (delete(11), 15, room(&one, 100)),
        (delete(11), 8, change(&one, bad_tree)),
        (delete(10), 0, room(&one, 348)),
        (delete(10), 6, room(&one, 344)),
        (delete(10), 0, at(&one, LAST - 3, LAST - 1)),
        (delete(10), 7, at(&one, LAST - 2, 0)),
        (delete(10), 7, at(&one, 1, LAST)),
    ];
    for call in [Call::Put, delete(10)] {
        cases.extend([
            (call, 1, change(&change(&one, bad_log), bad_length)),
            (call, 1, change(&one, |s| s.work.truncate(1))),
            (call, 2, change(&change(&one, bad_log), bad_page)),
            (call, 2, change(&open, |s| s.numbers.used -= 4)),
            (call, 9, change(&open, bad_page)),
            (call, 3, change(&change(&one, bad_page), bad_tree)),
            (call, 8, change(&one, bad_tree)),
        ]);
    }
    for call in [Call::Step, Call::Recover] {
        let put = begun_save(&row_one(), Type::Put);
        let full = begun_save(&full_and_more(29), Type::Put);
        let absent = begun_save(&row_one(), Type::Delete);
        let logged = change(&put, |state| state.done(Call::Step));
        let value = |state: &mut State| state.log[24 + 60 + 16 + 16 + 15] ^= 1;
        let number = |state: &mut State| state.log[24 + 60 + 16 + 4] ^= 1;
        cases.extend([
            (call, 0, put.clone()),
            (call, 0, logged.clone()),
            (call, 3, change(&change(&put, bad_page), bad_tree)),
            (call, 8, change(&put, bad_tree)),
            (call, 8, change(&absent, bad_tree)),
            (call, 15, absent),
            (call, 5, change(&logged, value)),
            (call, 5, change(&logged, number)),
            (
                call,
                6,
                change(&begun_save(&room(&row_one(), 344), Type::Put), stamped),
            ),
            (
                call,
                0,
                change(&begun_save(&room(&row_one(), 348), Type::Put), stamped),
            ),
            (call, 7, begun_save(&at(&row_one(), LAST - 2, 0), Type::Put)),
            (call, 0, begun_save(&at(&row_one(), LAST - 3, 0), Type::Put)),
        ]);
        // Key 7 is in the full leaf, so that no leaf is needed; 99 needs one.
        cases.push((call, 0, full));
        let mut needs = full_and_more(29);
        let row = row(99);
        needs.append(2, &Record::Begin(Begin::of_row(1, Type::Put, row)));
        cases.push((call, 18, needs.clone()));
        cases.push((call, 8, change(&needs, bad_tree)));
    }
    cases
}

/// The store has all that its log has written.
fn stamped(state: &mut State) {
    let number = state.read_log().last() - 1;
    for place in 0..PAGE_COUNT as u16 {
        put32(page_of_mut(&mut state.store, place), 4, number);
    }
}

#[test]
fn every_reply_of_every_call_is_met() {
    let mut met = Pairs::new();
    let mut cases = by_hand();
    cases.extend(saves_by_hand());
    for (i, (call, expected, state)) in cases.iter().enumerate() {
        let reply = make(*call, state, "by hand");
        assert_eq!(reply, *expected, "case {i}: {call:?}");
        met.insert((call.name(), reply));
    }
    assert_eq!(met, every_pair());
    println!(
        "{} cases, {} pairs of call and reply",
        cases.len(),
        met.len()
    );
}

#[test]
fn random_damage_is_refused_or_does_no_harm() {
    let mut met = Pairs::new();
    let mut calls = 0;
    for seed in 1..=3000 {
        let mut chance = Chance::new(seed);
        let mut state = random_state(&mut chance);
        for _ in 0..12 {
            let call = any_call(&mut chance);
            let mut lent = state.clone();
            lent.bytes = some_bytes(&mut chance, &call);
            harm(&mut chance, &mut lent);
            let reply = make(call, &lent, &format!("seed {seed}"));
            met.insert((call.name(), reply));
            calls += 1;
            // Damage that was not seen stays for the calls to come.
            if reply == 0 {
                call.on(&mut lent);
                state = lent;
            }
        }
    }
    assert!(met.is_subset(&every_pair()));
    assert!(met.len() > 50, "only {} pairs", met.len());
    println!("{calls} calls, {} pairs of call and reply", met.len());
}
