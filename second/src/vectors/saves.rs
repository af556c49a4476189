//! Vectors of puts and deletes: each shape, what refuses them, their records
//! broken in one field at a time, and begin records and images that no call
//! has written.

use super::*;
use crate::log::{BEGIN_BYTES, IMAGE_BYTES};
use crate::page::{Page, LEAVES, MOST_ENTRIES};

/// The keys of a full leaf.
const FULL: &[u32] = &[
    10, 20, 30, 40, 50, 60, 70, 80, 90, 100, 110, 120, 130, 140, 150,
];

/// Two leaves under one base page.
fn thin() -> State {
    made(&[(1, &[(8, 0, &[10, 20]), (9, 30, &[30])])])
}

/// A full leaf on 20, one more after it.
fn full_leaf() -> State {
    made(&[(3, &[(20, 0, FULL), (21, 200, &[200])])])
}

/// `count` leaves, the first one full, under base pages of `under` leaves.
fn many_leaves(count: usize, under: usize) -> State {
    let mut tree: Vec<BaseShape> = Vec::new();
    for (i, page) in LEAVES.take(count).enumerate() {
        if i % under == 0 {
            tree.push(BaseShape {
                page: tree.len() as u16 + 1,
                leaves: Vec::new(),
            });
        }
        let (entry, keys) = match i {
            0 => (0, FULL.to_vec()),
            _ => (1000 * i as u32, vec![1000 * i as u32]),
        };
        let base = tree.len() - 1;
        tree[base].leaves.push(LeafShape { page, entry, keys });
    }
    State::made(&tree, 1, 0, None)
}

/// A record with a value of its own.
fn other(key: u32) -> Row {
    let value = [0x5a; 10];
    Row { key, value }
}

fn begin_put(unit: u32, key: u32) -> Record {
    Record::Begin(Begin::of_row(unit, Type::Put, other(key)))
}

fn begin_delete(unit: u32, key: u32) -> Record {
    let value = [0; 10];
    Record::Begin(Begin::of_row(unit, Type::Delete, Row { key, value }))
}

fn image(page: u16, number: u32, body: Body) -> Record {
    let image = Page { number, body };
    Record::Image { page, image }
}

fn leaf(rows: &[Row]) -> Body {
    Body::Leaf(rows.to_vec())
}

/// The same state with another log number at its check record.
fn at(state: &State, number: u32, unit: u32) -> State {
    let mut state = state.clone();
    state.set_check(number, unit, None);
    state
}

/// The store as the work pages are, every page under this number.
fn stored(state: &State, number: u32) -> State {
    let mut state = state.clone();
    state.store.clone_from(&state.work);
    for place in 0..PAGE_COUNT as u16 {
        put32(page_of_mut(&mut state.store, place), 4, number);
    }
    state
}

impl Cases {
    /// Puts and deletes of every shape, to their end.
    pub(super) fn saves(&mut self) {
        let (thin, full) = (thin(), full_leaf());
        for key in [20, 30] {
            self.unit("put-replaces", Call::Put, &thin.lending(other(key)));
        }
        for key in [0, 25, 31, LAST] {
            self.unit("put-adds", Call::Put, &thin.lending(other(key)));
        }
        self.unit("put-replaces", Call::Put, &full.lending(other(80)));
        self.unit("put-same", Call::Put, &thin.lending(row(20)));
        for key in [0, 75, 85, 155] {
            self.unit("put-splits", Call::Put, &full.lending(other(key)));
        }
        let above = made(&[(7, &[(8, 0, &[1]), (9, 5, FULL), (11, 160, &[LAST])])]);
        self.unit("put-splits", Call::Put, &above.lending(other(81)));
        // A page that an earlier unit has emptied is the lowest empty one.
        let mut freed = above.clone();
        freed.delete(1);
        self.unit("put-freed", Call::Put, &freed.lending(other(5)));
        let none = State::built(&[], 1, 1);
        for key in [0, 7, LAST] {
            self.unit("put-first", Call::Put, &none.lending(other(key)));
        }
        let three = made(&[(2, &[(9, 0, &[0]), (8, 30, &[30, 40]), (10, 50, &[55])])]);
        for key in [0, 30, 40, 55] {
            self.unit("delete", Call::Delete { key }, &three);
        }
        let bases = made(&[
            (5, &[(30, 0, &[3])]),
            (2, &[(9, 20, &[20]), (8, 30, &[30, 40])]),
            (7, &[(63, 50, &[LAST])]),
        ]);
        for key in [3, 20, LAST] {
            self.unit("delete-base", Call::Delete { key }, &bases);
        }
        let last = made(&[(4, &[(11, 0, &[9])])]);
        let mut nothing = self.unit("delete-last", Call::Delete { key: 9 }, &last);
        nothing.bytes = row_bytes(&[other(9)]);
        self.unit("put-again", Call::Put, &nothing);
        let mut twice = thin.clone();
        twice.put(15);
        self.unit("delete-again", Call::Delete { key: 15 }, &twice);
    }

    /// What refuses a put or a delete when it begins.
    pub(super) fn saves_refused(&mut self) {
        let thin = thin();
        for length in [0, 1, 15, 17, 32, 48, 64] {
            let mut state = thin.clone();
            state.bytes = record_bytes(&[25, 26, 27, 28]);
            state.bytes.truncate(length);
            self.add("put-length", Call::Put, &state);
        }
        let put = thin.lending(other(25));
        for at in [0, 1] {
            let mut state = put.clone();
            state.bytes[at] ^= 1;
            self.add("put-mark", Call::Put, &state);
            state.bytes.push(0);
            self.add("first-test", Call::Put, &state);
            state.log[LOG_BYTES - 1] = 1;
            self.add("first-test", Call::Put, &state);
        }
        let mut open = after(&thin, Call::BeginCompact { fill: 4 });
        open.bytes = row_bytes(&[other(25)]);
        let mut saving = after(&put, Call::Put);
        for state in [&mut open, &mut saving] {
            state.work[PAGES_BYTES - 1] = 1;
            self.add("save-open", Call::Put, state);
            self.add("save-open", Call::Delete { key: 10 }, state);
            state.bytes[0] = 0;
            self.add("first-test", Call::Put, state);
        }
        for (key, tree) in [(11, &thin), (0, &thin), (LAST, &thin), (31, &thin)] {
            self.add("delete-absent", Call::Delete { key }, tree);
        }
        let none = State::built(&[], 1, 1);
        self.add("delete-absent", Call::Delete { key: 0 }, &none);
        let mut no_tree = put.clone();
        put_page(&mut no_tree.work, 40, 0, leaf(&[row(70)]));
        let mut no_form = no_tree.clone();
        page_of_mut(&mut no_form.work, 9)[12] = 1;
        for call in [Call::Put, Call::Delete { key: 10 }] {
            self.add("save-tree", call, &no_tree);
            self.add("save-form", call, &no_form);
        }
        self.saves_crowded();
        self.saves_at_limits();
    }

    /// Where a put needs a leaf and there is none to be had.
    fn saves_crowded(&mut self) {
        let trees = [
            many_leaves(LEAVES.len(), 10),
            many_leaves(MOST_ENTRIES, MOST_ENTRIES),
        ];
        for tree in &trees {
            self.add("put-crowded", Call::Put, &tree.lending(other(75)));
            // No leaf is needed where the record is there, or its leaf has room.
            self.add("put-crowded", Call::Put, &tree.lending(other(80)));
            self.add("put-crowded", Call::Put, &tree.lending(other(1001)));
            let mut late = at(&tree.lending(other(75)), LAST, LAST);
            self.add("first-test", Call::Put, &late);
            put_page(
                &mut late.work,
                7,
                0,
                Body::Base(vec![Entry { key: 0, page: 8 }]),
            );
            self.add("first-test", Call::Put, &late);
            late.work[PAGES_BYTES - 1] = 1;
            self.add("first-test", Call::Put, &late);
            let mut filled = tree.lending(other(75));
            filled.fill_log(100);
            self.add("first-test", Call::Put, &filled);
        }
        let nearly = [
            many_leaves(LEAVES.len() - 1, 10),
            many_leaves(MOST_ENTRIES - 1, MOST_ENTRIES - 1),
        ];
        for tree in nearly {
            self.add("put-crowded", Call::Put, &tree.lending(other(75)));
        }
    }

    /// Room of exactly the unit's bytes and of 4 fewer; numbers that end at the
    /// last one, and one past it.
    fn saves_at_limits(&mut self) {
        let delete = |key| Call::Delete { key };
        let last = made(&[(4, &[(11, 0, &[9])])]);
        let right = made(&[(5, &[(30, 0, &[3])]), (2, &[(9, 20, &[20])])]);
        let units = [
            (Call::Put, thin().lending(other(20)), 1),
            (Call::Put, full_leaf().lending(other(75)), 3),
            (Call::Put, State::built(&[], 1, 1).lending(other(5)), 3),
            (delete(20), thin(), 1),
            (delete(30), thin(), 2),
            (delete(9), last, 3),
            (delete(3), right, 4),
        ];
        for (call, state, images) in units {
            let need = BEGIN_BYTES + 16 + IMAGE_BYTES * images + 16;
            for (label, free) in [("room-exact", need), ("room-less", need - 4)] {
                let mut state = state.clone();
                state.fill_log(free);
                self.add(label, call, &state);
            }
            let records = images as u32 + 2;
            self.add("number-last", call, &at(&state, LAST - records, LAST - 1));
            self.add("number-past", call, &at(&state, LAST - records + 1, 0));
            self.add("number-past", call, &at(&state, LAST, 0));
            self.add("number-past", call, &at(&state, 1, LAST));
            let mut both = at(&state, LAST - 200, LAST - 200);
            both.fill_log(100);
            self.add("first-test", call, &both);
        }
        let absent = at(&thin(), LAST, LAST);
        self.add("first-test", delete(11), &absent);
        let mut no_tree = absent.clone();
        put_page(&mut no_tree.work, 40, 0, leaf(&[row(70)]));
        self.add("first-test", delete(11), &no_tree);
        no_tree.work[PAGES_BYTES - 1] = 1;
        self.add("first-test", delete(11), &no_tree);
    }

    /// Recovery after each record of a split and of a delete of four pages,
    /// nothing flushed, all flushed, and one page flushed; and what an open put
    /// does to the other calls.
    pub(super) fn saves_cut(&mut self) {
        let right = made(&[(5, &[(30, 0, &[3])]), (2, &[(9, 20, &[20])])]);
        let units = [
            (Call::Put, full_leaf().lending(other(75)), 20),
            (Call::Delete { key: 3 }, right, 2),
        ];
        for (begin, start, page) in units {
            let mut state = after(&start, begin);
            state.bytes.clear();
            loop {
                let records = state.read_log().records.len();
                self.add("recover-save", Call::Recover, &cut(&state, records));
                if state.read_log().open.is_none() {
                    break;
                }
                self.add("save-open", Call::Find { key: 20 }, &state);
                self.add("save-open", Call::Find { key: 75 }, &state);
                state.done(Call::Step);
            }
            let mut one = after(&state, Call::Force);
            one.done(Call::Flush { page });
            self.add(
                "recover-save",
                Call::Recover,
                &cut(&one, one.read_log().records.len()),
            );
            let mut all = state.clone();
            all.flush_all();
            self.add("recover-save", Call::Recover, &all);
            self.add("lk-untouched", Call::Checkpoint { clear: false }, &all);
        }
        let open = after(&thin().lending(other(25)), Call::Put);
        let mut open = stepped(&open, 1);
        for call in [Call::Checkpoint { clear: true }, COMPACT, Call::BeginOrder] {
            self.add("save-open", call, &open);
        }
        open.bytes = vec![170; 50];
        self.add("save-open", ALL, &open);
        self.add("save-open", Call::Flush { page: 8 }, &open);
        // LK is that of the compact before the put.
        let mut packed = after(&row_one(), Call::BeginCompact { fill: 4 });
        packed.finish();
        packed.put(5);
        packed.delete(60);
        self.add("lk-untouched", Call::BeginCompact { fill: 15 }, &packed);
        packed.flush_all();
        let keep = Call::Checkpoint { clear: false };
        self.then("lk-untouched", keep, &mut packed);
        self.add("lk-untouched", Call::BeginCompact { fill: 15 }, &packed);
    }

    /// Steps and recoveries of begin records that no call has written.
    pub(super) fn saves_forged(&mut self) {
        let thin = thin();
        let mut both = |label: &str, state: &State| {
            let number = state.read_log().records[0].number;
            self.add(label, Call::Step, state);
            self.add(label, Call::Recover, &stored(state, number));
        };
        both("forged-absent", &append(&thin, &[begin_delete(1, 11)]));
        let none = State::built(&[], 1, 1);
        both("forged-absent", &append(&none, &[begin_delete(1, 0)]));
        for tree in [
            many_leaves(LEAVES.len(), 10),
            many_leaves(MOST_ENTRIES, MOST_ENTRIES),
        ] {
            both("forged-crowded", &append(&tree, &[begin_put(1, 75)]));
        }
        let mut no_tree = append(&thin, &[begin_put(1, 25)]);
        put_page(&mut no_tree.work, 40, 0, leaf(&[row(70)]));
        both("forged-tree", &no_tree);
        // The tree comes before the key, and the form before the tree.
        let mut absent = append(&thin, &[begin_delete(1, 11)]);
        put_page(&mut absent.work, 40, 0, leaf(&[row(70)]));
        both("first-test", &absent);
        absent.work[PAGES_BYTES - 1] = 1;
        both("first-test", &absent);
        // Numbers that the end would pass, though the image would not.
        for check in [LAST - 1, LAST - 2, LAST - 3] {
            both(
                "number-past",
                &append(&at(&thin, check, 0), &[begin_put(1, 25)]),
            );
        }
        for check in [LAST - 2, LAST - 3] {
            let records = [begin_put(1, 75), image(3, LAST, split_base())];
            both(
                "number-past",
                &append(&at(&full_leaf(), check, 0), &records),
            );
        }
        // Images that are right, but for a number that has wrapped.
        let records = [begin_put(1, 75), image(3, 1, split_base())];
        both(
            "number-past",
            &append(&at(&full_leaf(), LAST - 3, 0), &records),
        );
        let body = leaf(&[row(10), row(20), other(25)]);
        let records = [begin_put(1, 25), image(8, 0, body)];
        both("number-past", &append(&at(&thin, LAST - 2, 0), &records));
        self.saves_without_room();
    }

    /// Begin records of puts with too little room behind them.
    fn saves_without_room(&mut self) {
        let body = Body::Leaf(vec![row(10), row(20), other(25)]);
        for (label, free) in [("room-exact", 348), ("room-less", 344)] {
            let mut state = thin();
            state.fill_log(free);
            let log = state.read_log();
            let state = append(&state, &[begin_put(log.unit + 1, 25)]);
            self.add(label, Call::Step, &state);
            self.add(label, Call::Recover, &stored(&state, log.last()));
            let logged = append(&state, &[image(8, log.last() + 3, body.clone())]);
            self.add(label, Call::Step, &logged);
            // An image that differs comes before the room.
            let wrong = append(&state, &[image(8, log.last() + 3, leaf(&[row(10)]))]);
            self.add("first-test", Call::Step, &wrong);
            self.add("first-test", Call::Recover, &stored(&wrong, log.last()));
        }
    }

    /// Images in form that are not those of the unit, open and ended.
    pub(super) fn saves_images(&mut self) {
        let begun = append(&full_leaf(), &[begin_put(1, 75)]);
        let right = stepped(&begun, 3);
        let wanted: Vec<Record> = right.read_log().records[2..]
            .iter()
            .map(|placed| placed.record.clone())
            .collect();
        let lower = leaf(&[row(10), other(75)]);
        let wrong = [
            vec![image(3, 5, split_base())],
            vec![image(3, 6, Body::Empty)],
            vec![image(8, 6, lower.clone())],
            vec![wanted[0].clone(), image(8, 6, lower.clone())],
            vec![wanted[0].clone(), image(20, 6, lower.clone())],
            vec![wanted[0].clone(), wanted[2].clone()],
            vec![
                wanted[0].clone(),
                wanted[1].clone(),
                image(20, 7, lower.clone()),
            ],
            [&wanted[..], &[image(21, 6, lower)]].concat(),
        ];
        for records in wrong {
            let state = append(&begun, &records);
            self.add("image-differs", Call::Step, &state);
            self.add("image-differs", Call::Recover, &stored(&state, 1));
            // Ended it is in form only where its images bear the end's number.
            let ended = append(&state, &[Record::End { unit: 1 }]);
            self.add("image-ended", Call::Force, &ended);
            self.add("image-ended", Call::Recover, &stored(&ended, 1));
        }
        // One image too many, each of them bearing the number that the end
        // of so many would have.
        let more = append(&thin(), &[begin_put(1, 25)]);
        let body = leaf(&[row(10), row(20), other(25)]);
        for number in [4, 5] {
            let images = [
                image(8, number, body.clone()),
                image(9, number, leaf(&[row(30)])),
            ];
            let state = append(&more, &images);
            self.add("image-differs", Call::Step, &state);
            self.add("image-differs", Call::Recover, &stored(&state, 1));
        }
        self.saves_ended(&body);
    }

    /// Ended puts, whose images are copied onto pages with a lower number and
    /// compared with nothing.
    fn saves_ended(&mut self, body: &Body) {
        let records = |body: Body| [begin_put(1, 25), image(8, 4, body), Record::End { unit: 1 }];
        let ended = append(&thin(), &records(body.clone()));
        for number in [0, 3, 4] {
            let mut state = ended.clone();
            put_page(&mut state.store, 8, number, leaf(&[row(1)]));
            self.add("end-number", Call::Recover, &state);
        }
        for body in [Body::Empty, leaf(&[row(40)]), leaf(&[row(1)])] {
            let state = append(&thin(), &records(body));
            self.add("end-image", Call::Recover, &state);
        }
        // A newer page stays: its number is that of a later record.
        let later = append(&ended, &[begin_delete(2, 10)]);
        let mut newer = later.clone();
        put_page(&mut newer.store, 8, 5, leaf(&[row(10), row(11)]));
        self.add("end-number", Call::Recover, &newer);
        // Forward too: a work page whose number is not lower is left.
        let open = append(&thin(), &[begin_put(1, 25), image(8, 4, body.clone())]);
        for number in [3, 4, 5, LAST] {
            let mut state = open.clone();
            put32(page_of_mut(&mut state.work, 8), 4, number);
            self.add("end-number", Call::Step, &state);
        }
    }

    /// Records of puts and deletes broken in one field at a time.
    pub(super) fn saves_fields(&mut self) {
        let put = append(&thin(), &[begin_put(1, 25)]);
        let delete = append(&thin(), &[begin_delete(1, 20)]);
        let start = 24;
        // Every byte of the begin record but key and value, and the length.
        for at in (0..44).chain([44, 45]) {
            for state in [&put, &delete] {
                let mut broken = state.clone();
                broken.log[start + at] = broken.log[start + at].wrapping_add(1);
                self.add("log-field", Call::Force, &broken);
            }
        }
        for at in [46, 49, 50, 59] {
            for state in [&put, &delete] {
                let mut changed = state.clone();
                changed.log[start + at] ^= 0x10;
                self.add("log-field", Call::Force, &changed);
            }
        }
        // Types with the other length: 44 without a record, 60 and 76 with.
        for (kind, length) in [
            (4, 44),
            (5, 44),
            (1, 60),
            (3, 60),
            (6, 60),
            (4, 76),
            (4, 52),
        ] {
            let mut other = put.clone();
            other.log[start + 2] = length;
            other.log[start + 16] = kind;
            other.log[start + length as usize..].fill(0);
            other.numbers.used = (start + length as usize) as u32;
            self.add("log-field", Call::Force, &other);
        }
        // A tidying begin record that carries a record.
        for (begin, tree) in [
            (COMPACT, row_nine()),
            (Call::BeginOrder, row_nine()),
            (Call::BeginOrder, row_eight()),
        ] {
            let mut state = after(&tree, begin);
            state.log[start + 2] += 16;
            row(30).write(&mut state.log[start + BEGIN_BYTES..]);
            state.numbers.used += 16;
            self.add("log-field", Call::Force, &state);
        }
        self.image_fields(&put);
        self.saves_order(&put);
    }

    /// An image's fields, and its page's form.
    fn image_fields(&mut self, put: &State) {
        let logged = stepped(put, 1);
        let start = 84;
        for at in (0..20).chain([20, 24, 31, 32, 34, 38, 47, 80, 271]) {
            let mut broken = logged.clone();
            broken.log[start + at] = broken.log[start + at].wrapping_add(1);
            self.add("log-field", Call::Force, &broken);
        }
        let entries = |page| vec![Entry { key: 0, page }];
        let bodies = [
            (0, Body::Root(entries(1))),
            (0, Body::Root(Vec::new())),
            (0, Body::Empty),
            (0, Body::Base(entries(8))),
            (1, Body::Base(entries(8))),
            (1, Body::Empty),
            (7, leaf(&[row(1)])),
            (8, leaf(&[row(1)])),
            (8, leaf(&[])),
            (8, Body::Base(entries(8))),
            (63, Body::Empty),
            (64, Body::Empty),
            (64, leaf(&[row(1)])),
        ];
        for (page, body) in bodies {
            let state = append(put, &[image(page, 4, body)]);
            self.add("log-field", Call::Force, &state);
        }
    }

    /// Records that may not follow each other.
    fn saves_order(&mut self, put: &State) {
        let body = leaf(&[row(10)]);
        let end = Record::End { unit: 1 };
        let rows = [
            vec![end.clone()],
            vec![image(8, 4, body.clone()), end.clone()],
            vec![image(8, 3, body.clone()), end.clone()],
            vec![image(8, 5, body.clone()), end.clone()],
            vec![image(8, 4, body.clone()), Record::End { unit: 2 }],
            vec![
                image(8, 5, body.clone()),
                image(9, 5, body.clone()),
                end.clone(),
            ],
            vec![
                image(8, 4, body.clone()),
                image(9, 5, body.clone()),
                end.clone(),
            ],
            vec![
                image(8, 5, body.clone()),
                image(9, 4, body.clone()),
                end.clone(),
            ],
            vec![image(9, 5, body.clone()), image(8, 5, body.clone())],
            vec![image(8, 5, body.clone()), image(8, 5, body.clone())],
            vec![out(8, 9, &[10])],
            vec![remove(1, 9, 30)],
            vec![begin_put(2, 26)],
            vec![
                image(8, 4, body.clone()),
                end.clone(),
                image(9, 4, body.clone()),
            ],
            vec![image(8, 4, body.clone()), end.clone(), end.clone()],
            vec![image(8, 4, body.clone()), end, begin_delete(2, 10)],
        ];
        for records in rows {
            self.add("log-field", Call::Force, &append(put, &records));
        }
        let moved = after(&made(&[(7, &[(63, 0, &[6])])]), Call::BeginOrder);
        self.add(
            "log-field",
            Call::Force,
            &append(&moved, &[image(8, 4, body.clone())]),
        );
        self.add(
            "log-field",
            Call::Force,
            &append(&thin(), &[image(8, 4, body)]),
        );
    }
}

/// The base page of the full leaf after its split.
fn split_base() -> Body {
    let entry = |key, page| Entry { key, page };
    Body::Base(vec![entry(0, 20), entry(80, 8), entry(200, 21)])
}
