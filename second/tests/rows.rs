//! The twelve rows of "Numbers to try", one test each, with every figure that
//! the document gives.

use second::bytes::{get32, Numbers};
use second::log::Type;
use second::page::{read_page, read_pages, Body, Entry};
use second::state::{record_bytes, row, shape, Answer, Call, State, Values};
use second::tree;

const KEYS: [u32; 6] = [10, 20, 30, 40, 50, 60];

fn row_one() -> State {
    State::built(&KEYS, 2, 30)
}

fn reply(state: &mut State, call: Call) -> u8 {
    call.on(state).reply
}

/// Begins, finishes and returns steps, the begin counted, and bytes written.
fn unit(state: &mut State, begin: Call) -> (usize, u32) {
    let before = state.numbers.used;
    state.done(begin);
    let steps = 1 + state.finish();
    (steps, state.numbers.used - before)
}

/// The leaf pages in key order with their keys.
fn leaves(state: &State) -> Vec<(u16, Vec<u32>)> {
    let pages = read_pages(&state.work).expect("pages in form");
    let leaves = tree::leaves(&pages).expect("a well-formed tree");
    let keys = |leaf: &tree::Leaf| leaf.rows.iter().map(|row| row.key).collect();
    leaves.iter().map(|leaf| (leaf.page, keys(leaf))).collect()
}

#[test]
fn row_1_build() {
    let state = row_one();
    let expected = [(8, vec![10, 20]), (9, vec![30, 40]), (10, vec![50, 60])];
    assert_eq!(leaves(&state), expected);
    let entry = |key, page| Entry { key, page };
    let base = read_page(&state.work, 1).expect("in form").body;
    assert_eq!(
        base,
        Body::Base(vec![entry(0, 8), entry(30, 9), entry(50, 10)])
    );
    let both = Numbers {
        used: 24,
        forced: 24,
    };
    assert_eq!(state.numbers, both);
    assert_eq!(state.work, state.store);
    let mut check = [0; 24];
    check[..8].copy_from_slice(b"LC\x18\x00\x01\x00\x00\x00");
    assert_eq!(state.log[..24], check);
    assert!(state.log[24..].iter().all(|&byte| byte == 0));
}

#[test]
fn row_2_compact_in_place() {
    let mut state = row_one();
    assert_eq!(unit(&mut state, Call::BeginCompact { fill: 4 }), (5, 164));
    assert_eq!(state.numbers.used, 188);
    assert_eq!(state.read_log().lk, Some(40));
    assert_eq!(
        leaves(&state),
        [(8, vec![10, 20, 30, 40]), (10, vec![50, 60])]
    );
}

#[test]
fn row_3_three_leaves() {
    let mut state = row_one();
    assert_eq!(unit(&mut state, Call::BeginCompact { fill: 6 }), (8, 268));
    assert_eq!(leaves(&state), [(8, KEYS.to_vec())]);
}

#[test]
fn row_4_nothing_left() {
    let mut state = row_one();
    unit(&mut state, Call::BeginCompact { fill: 4 });
    assert_eq!(reply(&mut state, Call::BeginCompact { fill: 4 }), 11);
}

#[test]
fn row_5_order_moves() {
    let mut state = row_one();
    unit(&mut state, Call::BeginCompact { fill: 4 });
    state.done(Call::BeginOrder);
    let begin = state.read_log().open.expect("open").begin;
    assert_eq!((begin.kind, &begin.leaves[..]), (Type::Move, &[10][..]));
    assert_eq!(begin.destination, 9);
    state.finish();
    assert_eq!(state.numbers.used, 352);
    assert_eq!(
        leaves(&state),
        [(8, vec![10, 20, 30, 40]), (9, vec![50, 60])]
    );
}

#[test]
fn row_6_flush_waits_and_row_7_cut() {
    let mut state = row_one();
    state.done(Call::BeginCompact { fill: 4 });
    state.done(Call::Force);
    state.done(Call::Step);
    let forced = state.read_log().number_at(state.numbers.forced);
    assert_eq!(forced, Some(2));
    let stamp = get32(&state.work, 9 * 256 + 4);
    assert_eq!(stamp, 3);
    assert_eq!(reply(&mut state, Call::Flush { page: 9 }), 13);
    state.done(Call::Force);
    assert_eq!(reply(&mut state, Call::Flush { page: 9 }), 0);
    // Row 7: the cut keeps the three forced records.
    state.cut(3, |bytes| bytes.fill(0xd5));
    let answer = Call::Recover.on(&mut state);
    let expected = Answer {
        reply: 0,
        values: Values::Count(3),
    };
    assert_eq!(answer, expected);
    for key in KEYS {
        let found = Call::Find { key }.on(&mut state);
        assert_eq!(found.reply, 0);
        assert_eq!(found.values, Values::Value(row(key).value));
    }
    let numbers = Numbers {
        used: 188,
        forced: 120,
    };
    assert_eq!(state.numbers, numbers);
}

#[test]
fn row_8_swap() {
    let tree = shape(&[(1, &[(9, 0, &[10, 20]), (8, 30, &[30])])]);
    let mut state = State::made(&tree, 1, 0, None);
    state.done(Call::BeginOrder);
    let begin = state.read_log().open.expect("open").begin;
    assert_eq!((begin.kind, &begin.leaves[..]), (Type::Swap, &[8, 9][..]));
    assert_eq!(1 + state.finish(), 8);
    assert_eq!(state.numbers.used - 24, 252);
    assert_eq!(leaves(&state), [(8, vec![10, 20]), (9, vec![30])]);
}

#[test]
fn row_9_new_place() {
    let tree = shape(&[(1, &[(11, 0, &[10, 20]), (12, 30, &[30, 40])])]);
    let mut state = State::made(&tree, 1, 0, None);
    state.done(Call::BeginCompact { fill: 4 });
    let begin = state.read_log().open.expect("open").begin;
    assert_eq!(begin.destination, 8);
    assert_eq!(1 + state.finish(), 8);
    assert_eq!(state.numbers.used - 24, 268);
    assert_eq!(leaves(&state), [(8, vec![10, 20, 30, 40])]);
}

#[test]
fn row_10_no_records() {
    let mut state = State::built(&[], 2, 30);
    assert_eq!(reply(&mut state, Call::Find { key: 10 }), 15);
    assert_eq!(reply(&mut state, Call::BeginCompact { fill: 4 }), 11);
    assert_eq!(reply(&mut state, Call::BeginOrder), 11);
    let all = Call::List {
        low: 0,
        high: u32::MAX,
    };
    let answer = all.on(&mut state);
    assert_eq!((answer.reply, answer.values), (0, Values::Listed(0, false)));
}

#[test]
fn row_11_limits() {
    assert_eq!(reply(&mut row_one(), Call::BeginCompact { fill: 15 }), 0);
    assert_eq!(reply(&mut row_one(), Call::BeginCompact { fill: 16 }), 12);
    for (count, expected) in [(840, 0), (841, 17)] {
        let mut state = State::zero();
        state.bytes = record_bytes(&(1..=count).collect::<Vec<u32>>());
        assert_eq!(reply(&mut state, Call::Build { f: 15, g: 30 }), expected);
    }
}

#[test]
fn row_12_room() {
    // All lengths are multiples of 4, so one fewer is run as 4 fewer.
    for (free, expected) in [(164, 0), (160, 6)] {
        let mut state = row_one();
        state.fill_log(free);
        assert_eq!(reply(&mut state, Call::BeginCompact { fill: 4 }), expected);
    }
    let mut state = row_one();
    state.fill_log(164);
    unit(&mut state, Call::BeginCompact { fill: 4 });
    assert_eq!(state.numbers.used, 8192);
    assert_eq!(reply(&mut state, Call::Find { key: 40 }), 0);
}
