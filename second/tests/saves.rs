//! Puts and deletes, one test for each shape: the pages that are changed, byte
//! for byte where the document gives them, the records that the unit writes
//! and the bytes that they take.

use second::bytes::{get32, page_of, Numbers, LOG_BYTES};
use second::log::{Log, Record};
use second::page::{read_page, read_pages, Body, Entry, Row};
use second::runs::after_saves;
use second::state::{row, row_bytes, shape, Call, LeafShape, ShortBase, State, Values};
use second::tree;

const LAST: u32 = u32::MAX;
/// The keys of a full leaf.
const FULL: [u32; 15] = [
    10, 20, 30, 40, 50, 60, 70, 80, 90, 100, 110, 120, 130, 140, 150,
];

fn made(tree: &[ShortBase]) -> State {
    State::made(&shape(tree), 1, 0, Some(7))
}

/// Leaf (10, 20) on 8 and (30) on 9.
fn thin() -> State {
    made(&[(1, &[(8, 0, &[10, 20]), (9, 30, &[30])])])
}

/// A full leaf on 20 under base page 3, and one more on 21.
fn full() -> State {
    made(&[(3, &[(20, 0, &FULL), (21, 200, &[200])])])
}

fn other(key: u32) -> Row {
    let value = *b"othervalue";
    Row { key, value }
}

fn entries(list: &[(u32, u16)]) -> Vec<Entry> {
    let entry = |&(key, page): &(u32, u16)| Entry { key, page };
    list.iter().map(entry).collect()
}

fn body(state: &State, place: u16) -> Body {
    read_page(&state.work, place).expect("in form").body
}

fn keys(state: &State, place: u16) -> Vec<u32> {
    match body(state, place) {
        Body::Leaf(rows) => rows.iter().map(|row| row.key).collect(),
        other => panic!("page {place} holds {other:?}"),
    }
}

/// All records, in key order.
fn records(state: &State) -> Vec<Row> {
    let pages = read_pages(&state.work).expect("pages in form");
    let leaves = tree::leaves(&pages).expect("a well-formed tree");
    leaves.into_iter().flat_map(|leaf| leaf.rows).collect()
}

/// Makes the unit, tests what all have in common, and returns the state after
/// it: `places` are the pages that it changes, in number order.
fn unit(start: &State, begin: Call, places: &[u16]) -> State {
    let before = records(start);
    let mut state = start.clone();
    state.done(begin);
    assert_eq!(state.work, start.work, "a begin changes no page");
    assert_eq!(state.numbers.used, 24 + 60);
    for images in 1..=places.len() as u32 {
        state.done(Call::Step);
        assert_eq!(state.work, start.work, "an image changes no page");
        assert_eq!(state.numbers.used, 24 + 60 + 272 * images);
    }
    state.done(Call::Step);
    let log = state.read_log();
    assert!(log.open.is_none());
    assert_eq!(log.lk, Some(7), "LK is untouched");
    let end = places.len() as u32 + 3;
    assert_eq!(log.last(), end);
    let bytes = 60 + 272 * places.len() as u32 + 16;
    let numbers = Numbers {
        used: 24 + bytes,
        forced: 24,
    };
    assert_eq!(state.numbers, numbers);
    for place in 0..64 {
        let (old, new) = (page_of(&start.work, place), page_of(&state.work, place));
        match places.contains(&place) {
            true => assert_eq!(get32(new, 4), end, "page {place}"),
            false => assert_eq!(old, new, "page {place}"),
        }
    }
    let logged: Vec<u16> = log
        .records
        .iter()
        .filter_map(|placed| match placed.record {
            Record::Image { page, .. } => Some(page),
            _ => None,
        })
        .collect();
    assert_eq!(logged, places);
    assert_eq!(records(&state), after_saves(&before, &log));
    state
}

fn put(start: &State, record: Row, places: &[u16]) -> State {
    let state = unit(&start.lending(record), Call::Put, places);
    assert!(records(&state).contains(&record));
    state
}

fn delete(start: &State, key: u32, places: &[u16]) -> State {
    let state = unit(start, Call::Delete { key }, places);
    assert!(records(&state).iter().all(|row| row.key != key));
    state
}

#[test]
fn a_put_replaces() {
    let state = put(&thin(), other(20), &[8]);
    assert_eq!(body(&state, 8), Body::Leaf(vec![row(10), other(20)]));
    // In a full leaf too: none is split for it.
    let state = put(&full(), other(80), &[20]);
    assert_eq!(keys(&state, 20), FULL);
}

#[test]
fn a_put_that_changes_nothing_is_a_unit() {
    let state = put(&thin(), row(20), &[8]);
    assert_eq!(body(&state, 8), body(&thin(), 8));
}

#[test]
fn a_put_adds_where_its_key_belongs() {
    let cases: [(u32, u16, &[u32]); 5] = [
        (0, 8, &[0, 10, 20]),
        (15, 8, &[10, 15, 20]),
        (29, 8, &[10, 20, 29]),
        (31, 9, &[30, 31]),
        (LAST, 9, &[30, LAST]),
    ];
    for (key, place, expected) in cases {
        let state = put(&thin(), other(key), &[place]);
        assert_eq!(keys(&state, place), expected);
    }
}

#[test]
fn a_full_leaf_splits_at_eight() {
    // The new record in the lower half, its last, the first of the upper, its
    // last: base 3, the lowest empty leaf page 8, the leaf 20.
    for (key, upper) in [(5, 80), (75, 80), (85, 85), (155, 90)] {
        let state = put(&full(), other(key), &[3, 8, 20]);
        assert_eq!(keys(&state, 20).len(), 8);
        assert_eq!(keys(&state, 8).len(), 8);
        assert_eq!(keys(&state, 8)[0], upper);
        let expected = entries(&[(0, 20), (upper, 8), (200, 21)]);
        assert_eq!(body(&state, 3), Body::Base(expected));
    }
    let state = put(&full(), other(75), &[3, 8, 20]);
    assert_eq!(keys(&state, 20), [10, 20, 30, 40, 50, 60, 70, 75]);
    assert_eq!(keys(&state, 8), [80, 90, 100, 110, 120, 130, 140, 150]);
    // From then on a key just below the upper half's first is the lower's.
    let mut after = state.clone();
    after.put(79);
    assert_eq!(keys(&after, 20).last(), Some(&79));
}

#[test]
fn a_split_takes_the_lowest_empty_leaf_page() {
    let above = made(&[(7, &[(8, 0, &FULL), (9, 160, &[160]), (11, 170, &[170])])]);
    let state = put(&above, other(5), &[7, 8, 10]);
    let expected = entries(&[(0, 8), (80, 10), (160, 9), (170, 11)]);
    assert_eq!(body(&state, 7), Body::Base(expected));
    // One that a delete has freed is empty as well.
    let mut freed = above.clone();
    freed.delete(160);
    freed.put(5);
    assert_eq!(keys(&freed, 9)[0], 80);
}

#[test]
fn a_first_record_takes_page_1_and_the_lowest_leaf_page() {
    let none = made(&[]);
    for key in [0, 7, LAST] {
        let state = put(&none, other(key), &[0, 1, 8]);
        assert_eq!(body(&state, 0), Body::Root(entries(&[(0, 1)])));
        assert_eq!(body(&state, 1), Body::Base(entries(&[(0, 8)])));
        assert_eq!(body(&state, 8), Body::Leaf(vec![other(key)]));
    }
}

#[test]
fn a_delete_leaves_its_leaf() {
    let state = delete(&thin(), 10, &[8]);
    assert_eq!(body(&state, 8), Body::Leaf(vec![row(20)]));
    // The entry's key stays, whatever the smallest record is.
    assert_eq!(body(&state, 1), body(&thin(), 1));
}

/// Three leaves of a base page.
fn three() -> State {
    made(&[(2, &[(9, 0, &[5]), (8, 30, &[35]), (10, 50, &[55])])])
}

#[test]
fn an_emptied_leaf_joins_the_left_neighbour() {
    let state = delete(&three(), 35, &[2, 8]);
    assert_eq!(body(&state, 8), Body::Empty);
    assert_eq!(body(&state, 2), Body::Base(entries(&[(0, 9), (50, 10)])));
    let state = delete(&three(), 55, &[2, 10]);
    assert_eq!(body(&state, 2), Body::Base(entries(&[(0, 9), (30, 8)])));
}

#[test]
fn an_emptied_first_leaf_joins_the_right_neighbour() {
    let state = delete(&three(), 5, &[2, 9]);
    assert_eq!(body(&state, 9), Body::Empty);
    assert_eq!(body(&state, 2), Body::Base(entries(&[(0, 8), (50, 10)])));
    let mut after = state.clone();
    after.put(0);
    assert_eq!(keys(&after, 8), [0, 35]);
    // Under the second base page the key is that base page's, not 0.
    let second = made(&[
        (1, &[(8, 0, &[1])]),
        (2, &[(9, 20, &[25]), (10, 30, &[35])]),
    ]);
    let state = delete(&second, 25, &[2, 9]);
    assert_eq!(body(&state, 2), Body::Base(entries(&[(20, 10)])));
}

/// Three base pages with one leaf, two leaves, one leaf.
fn three_bases() -> State {
    made(&[
        (5, &[(30, 0, &[3])]),
        (2, &[(9, 20, &[25]), (8, 30, &[35])]),
        (7, &[(63, 50, &[LAST])]),
    ])
}

#[test]
fn an_emptied_base_page_joins_the_left_one() {
    let state = delete(&three_bases(), LAST, &[0, 7, 63]);
    assert_eq!(body(&state, 7), Body::Empty);
    assert_eq!(body(&state, 63), Body::Empty);
    assert_eq!(body(&state, 0), Body::Root(entries(&[(0, 5), (20, 2)])));
}

#[test]
fn an_emptied_first_base_page_joins_the_right_one() {
    let state = delete(&three_bases(), 3, &[0, 2, 5, 30]);
    assert_eq!(body(&state, 5), Body::Empty);
    assert_eq!(body(&state, 0), Body::Root(entries(&[(0, 2), (50, 7)])));
    // Its first key is lowered with the root's, its second is not.
    assert_eq!(body(&state, 2), Body::Base(entries(&[(0, 9), (30, 8)])));
}

#[test]
fn the_last_record_leaves_a_root_without_entries() {
    let last = made(&[(4, &[(11, 0, &[9])])]);
    let mut state = delete(&last, 9, &[0, 4, 11]);
    for place in 1..64 {
        assert_eq!(body(&state, place), Body::Empty);
    }
    assert_eq!(body(&state, 0), Body::Root(Vec::new()));
    // And a first record again.
    state.put(LAST);
    assert_eq!(keys(&state, 8), [LAST]);
    assert_eq!(body(&state, 0), Body::Root(entries(&[(0, 1)])));
}

#[test]
fn the_log_has_these_bytes() {
    let mut state = thin().lending(other(20));
    state.done(Call::Put);
    state.finish();
    let mut expected = Vec::new();
    expected.extend(b"LB\x3c\0\x02\0\0\0\0\0\0\0\x01\0\0\0\x04\0\0\0");
    expected.extend([0; 24]);
    expected.extend(row_bytes(&[other(20)]));
    expected.extend(b"LG\x10\x01\x03\0\0\0\x02\0\0\0\x08\0\0\0");
    expected.extend(b"pl\x02\0\x04\0\0\0\0\0\0\0\0\0\0\0");
    expected.extend(row_bytes(&[row(10), other(20)]));
    expected.extend([0; 208]);
    expected.extend(b"LE\x10\0\x04\0\0\0\x03\0\0\0\x01\0\0\0");
    assert_eq!(expected.len(), 348);
    assert_eq!(state.log[24..372], expected);
    assert!(state.log[372..].iter().all(|&byte| byte == 0));
    state.done(Call::Delete { key: 20 });
    let mut expected = Vec::new();
    expected.extend(b"LB\x3c\0\x05\0\0\0\0\0\0\0\x02\0\0\0\x05\0\0\0");
    expected.extend([0; 24]);
    expected.extend(b"rc\x14\0\0\0\0\0\0\0\0\0\0\0\0\0");
    assert_eq!(state.log[372..432], expected);
}

#[test]
fn room_and_numbers_are_those_of_the_whole_unit() {
    let last = made(&[(4, &[(11, 0, &[9])])]);
    let first_base = three_bases();
    let units = [
        (Call::Put, thin().lending(other(25)), 348),
        (Call::Put, full().lending(other(25)), 892),
        (Call::Put, made(&[]).lending(other(25)), 892),
        (Call::Delete { key: 10 }, thin(), 348),
        (Call::Delete { key: 30 }, thin(), 620),
        (Call::Delete { key: 9 }, last, 892),
        (Call::Delete { key: 3 }, first_base, 1164),
    ];
    for (begin, start, bytes) in units {
        for (free, reply) in [(bytes, 0), (bytes - 4, 6)] {
            let mut state = start.clone();
            state.fill_log(free);
            assert_eq!(begin.on(&mut state).reply, reply, "{begin:?} in {free}");
            if reply == 0 {
                state.finish();
                assert_eq!(state.numbers.used as usize, LOG_BYTES);
            }
        }
        let records = (bytes - 60 - 16) as u32 / 272 + 2;
        for (check, unit, reply) in [
            (LAST - records, LAST - 1, 0),
            (LAST - records + 1, 0, 7),
            (1, LAST, 7),
        ] {
            let mut state = start.clone();
            state.set_check(check, unit, None);
            assert_eq!(begin.on(&mut state).reply, reply, "{begin:?} at {check}");
            if reply == 0 {
                state.finish();
                assert_eq!(state.read_log().last(), LAST);
            }
        }
    }
}

#[test]
fn crowded_trees_refuse_a_split_alone() {
    // 56 leaves in all, or 30 under one base page; the first one is full.
    for (leaves, under) in [(56, 10), (30, 30)] {
        let mut tree = shape(&[]);
        for (at, page) in (8..8 + leaves as u16).enumerate() {
            if (at as u32).is_multiple_of(under) {
                let page = tree.len() as u16 + 1;
                tree.extend(shape(&[(page, &[])]));
            }
            let base = tree.len() - 1;
            let (entry, keys) = match at as u32 {
                0 => (0, FULL.to_vec()),
                at => (1000 * at, vec![1000 * at]),
            };
            tree[base].leaves.push(LeafShape { page, entry, keys });
        }
        let crowded = State::made(&tree, 1, 0, Some(7));
        let reply = |key: u32| Call::Put.on(&mut crowded.lending(other(key))).reply;
        assert_eq!((reply(25), reply(20), reply(1001)), (18, 0, 0));
        // A leaf of the same base page gone, there is a page and an entry again.
        let mut freed = crowded.clone();
        freed.delete(1000);
        assert_eq!(Call::Put.on(&mut freed.lending(other(25))).reply, 0);
    }
}

#[test]
fn find_and_list_wait_for_the_end() {
    let mut state = thin().lending(other(20));
    state.done(Call::Put);
    for _ in 0..2 {
        let found = Call::Find { key: 20 }.on(&mut state);
        assert_eq!((found.reply, found.values), (9, Values::Value([0; 10])));
        state.done(Call::Step);
    }
    let found = Call::Find { key: 20 }.on(&mut state);
    assert_eq!(found.values, Values::Value(*b"othervalue"));
}

#[test]
fn a_begun_put_is_done_after_a_cut() {
    let mut state = full().lending(other(75));
    state.done(Call::Put);
    let mut wanted = state.clone();
    wanted.finish();
    for kept in 2..=6 {
        let mut cut = wanted.clone();
        cut.cut(kept, |bytes| bytes.fill(0xd5));
        let answer = Call::Recover.on(&mut cut);
        assert_eq!(answer.values, Values::Count(6 - kept as u32));
        assert_eq!((&cut.work, &cut.log), (&wanted.work, &wanted.log));
    }
    // The begin record lost, nothing was begun.
    let mut cut = wanted.clone();
    cut.cut(1, |bytes| bytes.fill(0xd5));
    assert_eq!(Call::Recover.on(&mut cut).values, Values::Count(0));
    assert_eq!(cut.work, full().work);
}

#[test]
fn the_records_are_a_fold_over_the_begin_records() {
    let mut state = thin();
    state.put(15);
    state.delete(10);
    state = state.lending(other(20));
    state.done(Call::Put);
    state.finish();
    state.delete(15);
    state.put(15);
    state.done(Call::Delete { key: 30 });
    let start = [row(10), row(20), row(30)];
    let log = |kept: usize| {
        let mut cut = state.clone();
        cut.cut(kept, |bytes| bytes.fill(0));
        Log::read(&cut.log).expect("in form")
    };
    assert_eq!(after_saves(&start, &log(1)), start);
    // With the begin record of the first put alone, and with all.
    let first = [row(10), row(15), row(20), row(30)];
    assert_eq!(after_saves(&start, &log(2)), first);
    let all = state.read_log().records.len();
    assert_eq!(after_saves(&start, &log(all)), [row(15), other(20)]);
    assert_eq!(
        after_saves(&start, &log(all - 1)),
        [row(15), other(20), row(30)]
    );
}
