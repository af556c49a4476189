//! Vectors of the rows, of what a begin chooses, and of whole units: where
//! they end up, the room they need and the numbers they reach.

use super::*;

impl Cases {
    /// The rows of "Numbers to try".
    pub(super) fn rows(&mut self) {
        let mut empty = State::zero();
        empty.bytes = record_bytes(&[10, 20, 30, 40, 50, 60]);
        self.add("row-1", Call::Build { f: 2, g: 30 }, &empty);
        let one = row_one();
        let two = self.unit("row-2", Call::BeginCompact { fill: 4 }, &one);
        self.unit("row-3", Call::BeginCompact { fill: 6 }, &one);
        self.add("row-4", Call::BeginCompact { fill: 4 }, &two);
        self.unit("row-5", Call::BeginOrder, &two);
        let mut six = one.clone();
        self.then("row-6", Call::BeginCompact { fill: 4 }, &mut six);
        self.then("row-6", Call::Force, &mut six);
        self.then("row-6", Call::Step, &mut six);
        self.add("row-6", Call::Flush { page: 9 }, &six);
        self.then("row-6", Call::Force, &mut six);
        self.then("row-6", Call::Flush { page: 9 }, &mut six);
        self.add("row-7", Call::Recover, &cut(&six, 3));
        self.unit("row-8", Call::BeginOrder, &row_eight());
        self.unit("row-9", Call::BeginCompact { fill: 4 }, &row_nine());
        let mut none = State::zero();
        self.then("row-10", Call::Build { f: 1, g: 1 }, &mut none);
        self.add("row-10", Call::Find { key: 10 }, &none);
        self.add("row-10", COMPACT, &none);
        self.add("row-10", Call::BeginOrder, &none);
        self.add("row-10", ALL, &none);
        self.add("row-11", Call::BeginCompact { fill: 15 }, &one);
        self.add("row-11", Call::BeginCompact { fill: 16 }, &one);
        self.add("row-11", Call::BeginCompact { fill: LAST }, &one);
        for count in [840, 841] {
            let mut empty = State::zero();
            empty.bytes = record_bytes(&(1..=count).collect::<Vec<u32>>());
            self.add("row-11", Call::Build { f: 15, g: 30 }, &empty);
        }
        // All lengths are multiples of 4, so one fewer is 4 fewer.
        for free in [164, 160] {
            let mut twelve = one.clone();
            twelve.fill_log(free);
            self.add("row-12", Call::BeginCompact { fill: 4 }, &twelve);
        }
    }

    /// Which leaves a compact takes, and where it puts them.
    pub(super) fn compact_choices(&mut self) {
        let four = Call::BeginCompact { fill: 4 };
        // Pages 8 and 9 are empty and below C's, but a leaf before C stands on 10.
        let low = made(&[(
            1,
            &[(10, 0, &[10, 20, 30, 40]), (11, 50, &[50]), (12, 60, &[60])],
        )]);
        self.unit("dest-L", four, &low);
        let above = made(&[(
            1,
            &[(20, 0, &[10, 20, 30, 40]), (12, 50, &[50]), (9, 60, &[60])],
        )]);
        self.add("dest-L", four, &above);
        let other = made(&[
            (2, &[(10, 0, &[10])]),
            (1, &[(11, 50, &[50]), (12, 60, &[60])]),
        ]);
        self.unit("dest-L-other-base", COMPACT, &other);
        let two_before = made(&[
            (3, &[(14, 0, &[1])]),
            (2, &[(9, 5, &[10])]),
            (1, &[(17, 50, &[50]), (18, 60, &[60])]),
        ]);
        self.add("dest-L-other-base", COMPACT, &two_before);
        let new = made(&[(
            1,
            &[(8, 0, &[10, 20, 30, 40]), (12, 50, &[50]), (13, 60, &[60])],
        )]);
        self.unit("dest-new", four, &new);
        let taken = made(&[(
            1,
            &[
                (8, 0, &[10, 20, 30, 40]),
                (13, 50, &[50]),
                (9, 60, &[60]),
                (10, 70, &[70, 71, 72]),
            ],
        )]);
        self.add("dest-new", four, &taken);
        let next_to = made(&[(1, &[(9, 0, &[10]), (8, 50, &[50])])]);
        self.unit("dest-own", COMPACT, &next_to);
        let edge = made(&[
            (1, &[(8, 0, &[10])]),
            (2, &[(9, 20, &[20]), (10, 30, &[30])]),
        ]);
        self.add("group-base-edge", COMPACT, &edge);
        let every_edge = made(&[
            (1, &[(8, 0, &[10])]),
            (2, &[(9, 20, &[20])]),
            (3, &[(10, 30, &[30])]),
        ]);
        self.add("group-base-edge", COMPACT, &every_edge);
        let cut_edge = made(&[
            (4, &[(8, 0, &[10]), (9, 15, &[20])]),
            (2, &[(10, 25, &[30]), (11, 40, &[40])]),
        ]);
        self.add("group-base-edge", COMPACT, &cut_edge);
        let keys: Vec<u32> = (1..=9).collect();
        let nine = State::built(&keys, 1, 30);
        let fifteen = Call::BeginCompact { fill: 15 };
        let mut eight = nine.clone();
        self.then("group-8", fifteen, &mut eight);
        self.add("group-8", Call::Step, &eight);
        self.add("group-8", Call::Recover, &eight);
        let mut most: Vec<BaseShape> = shape(&[(1, &[])]);
        most[0].leaves = (0..8)
            .map(|i| LeafShape {
                page: 9 + i,
                entry: 10 * i as u32,
                keys: vec![10 * i as u32],
            })
            .collect();
        let mut most = State::made(&most, 1, 0, None);
        self.then("recover-most", fifteen, &mut most);
        self.add("recover-most", Call::Recover, &cut(&most, 2));
        let stops = made(&[(
            1,
            &[
                (8, 0, &[1, 2, 3]),
                (9, 10, &[11, 12, 13, 14, 15]),
                (10, 20, &[21]),
            ],
        )]);
        self.add("group-stops", four, &stops);
        self.add("group-stops", Call::BeginCompact { fill: 5 }, &stops);
        self.add("group-stops", Call::BeginCompact { fill: 6 }, &stops);
        self.add("group-stops", Call::BeginCompact { fill: 8 }, &stops);
        self.add("group-stops", Call::BeginCompact { fill: 9 }, &stops);
        self.add("group-stops", Call::BeginCompact { fill: 1 }, &stops);
        let twelve = State::built(&(1..=13).collect::<Vec<u32>>(), 4, 30);
        self.add("fill-0", COMPACT, &twelve);
        self.add("fill-0", Call::BeginCompact { fill: 13 }, &twelve);
    }

    /// How LK holds a compact back, and whence it comes.
    pub(super) fn last_keys(&mut self) {
        let four = Call::BeginCompact { fill: 4 };
        for lk in [0, 9, 10, 29, 30, 40, LAST] {
            let mut state = row_one();
            state.set_check(1, 0, Some(lk));
            self.add("lk-stops", four, &state);
        }
        let zero = made(&[(1, &[(8, 0, &[0, 5]), (9, 10, &[10])])]);
        self.add("lk-stops", four, &zero);
        let mut zero_lk = zero.clone();
        zero_lk.set_check(1, 0, Some(0));
        self.add("lk-stops", four, &zero_lk);
        let begun = after(&row_one(), four);
        let mut ended = begun.clone();
        ended.finish();
        let all = Call::BeginCompact { fill: 15 };
        self.add("lk-ended", all, &ended);
        let keep = Call::Checkpoint { clear: false };
        let mut ordered = after(&ended, Call::BeginOrder);
        ordered.finish();
        self.add("lk-ended", all, &ordered);
        ordered.flush_all();
        self.then("lk-ended", keep, &mut ordered);
        self.add("lk-ended", all, &ordered);
        let mut longer = State::built(&[10, 20, 30, 40, 50, 60, 70, 80], 2, 30);
        longer.done(four);
        longer.finish();
        self.add("lk-ended", four, &longer);
        self.add("lk-ended", all, &longer);
        // Not ended: the unit is open, and it counts once a recovery ends it.
        let open = stepped(&begun, 3);
        self.add("lk-ended", all, &open);
        let mut recovered = cut(&open, 5);
        self.then("lk-ended", Call::Recover, &mut recovered);
        self.add("lk-ended", all, &recovered);
        let mut second = after(&ordered, Call::Checkpoint { clear: true });
        second.done(all);
        self.add("lk-ended", keep, &second);
        // The largest key moved is not that of the last out record.
        let falling = append(
            &made(&[(
                1,
                &[
                    (8, 0, &[10]),
                    (9, 60, &[60]),
                    (10, 100, &[100]),
                    (11, 101, &[101]),
                ],
            )]),
            &[
                compact(1, 1, &[20, 21, 22], 20),
                out(21, 20, &[70, 100]),
                into(21, 20, 2, 3),
                out(22, 20, &[50]),
                into(22, 20, 1, 5),
                remove(1, 21, 70),
                remove(1, 22, 50),
                Record::End { unit: 1 },
            ],
        );
        self.add("lk-ended", COMPACT, &falling);
    }

    /// Moves and swaps.
    pub(super) fn order_choices(&mut self) {
        self.add("order-done", Call::BeginOrder, &row_one());
        let gap = made(&[(1, &[(8, 0, &[1]), (63, 5, &[6]), (9, 7, &[7])])]);
        self.add("order-swap", Call::BeginOrder, &gap);
        let far = made(&[(7, &[(8, 0, &[1]), (63, 5, &[6])])]);
        self.unit("order-move", Call::BeginOrder, &far);
        let second = made(&[(1, &[(8, 0, &[1])]), (2, &[(10, 5, &[6])])]);
        self.add("order-move", Call::BeginOrder, &second);
        let first = made(&[(5, &[(40, 0, &[0, LAST])])]);
        self.add("order-move", Call::BeginOrder, &first);
    }

    /// Room of exactly what is needed, and of 4 bytes fewer.
    pub(super) fn room(&mut self) {
        let four = Call::BeginCompact { fill: 4 };
        for (label, free) in [("room-exact", 252), ("room-less", 248)] {
            let mut state = row_eight();
            state.fill_log(free);
            self.add(label, Call::BeginOrder, &state);
        }
        for (label, free) in [("room-exact", 268), ("room-less", 264)] {
            let mut state = row_nine();
            state.fill_log(free);
            self.add(label, four, &state);
        }
        let mut exact = row_one();
        exact.fill_log(164);
        exact.done(four);
        self.add("room-exact", Call::Recover, &{
            // The filling moves nothing that the store could repeat.
            let mut state = exact.clone();
            for place in 0..PAGE_COUNT as u16 {
                let number = state.read_log().last();
                put32(page_of_mut(&mut state.store, place), 4, number);
            }
            state
        });
        while exact.read_log().open.is_some() {
            self.then("room-exact", Call::Step, &mut exact);
        }
        self.add("room-full", Call::Find { key: 40 }, &exact);
        self.add("room-full", Call::BeginOrder, &exact);
        let mut less = row_one();
        less.fill_log(160);
        let unit = less.read_log().unit + 1;
        let last = less.read_log().last();
        let records = [
            compact(unit, 1, &[8, 9], 8),
            out(9, 8, &[30, 40]),
            into(9, 8, 2, last + 2),
            remove(1, 9, 30),
        ];
        for kept in 1..=records.len() {
            let mut state = append(&less, &records[..kept]);
            // The pages stand as after these records.
            let mut pages = after(&row_one(), four);
            pages = stepped(&pages, kept - 1);
            state.work = pages.work;
            self.add("room-less", Call::Step, &state);
            for place in 0..PAGE_COUNT as u16 {
                put32(page_of_mut(&mut state.work, place), 4, last + kept as u32);
            }
            state.store = std::mem::replace(&mut state.work, vec![0; PAGES_BYTES]);
            self.add("room-less", Call::Recover, &state);
        }
        // An out record to come is counted by its page's bytes, whatever they are.
        let six = after(&row_one(), Call::BeginCompact { fill: 6 });
        let known = six.numbers.used as usize + (52 + 24) + (20 + 24) + 2 * 28 + 16;
        let most = ((LOG_BYTES - known) / 16) as u16;
        for count in [0, 16, most, most + 1, u16::MAX] {
            let mut raw = six.clone();
            put16(page_of_mut(&mut raw.work, 10), 2, count);
            self.add("room-raw", Call::Step, &raw);
        }
    }

    /// Log and unit numbers that end at the last one, and one past it.
    pub(super) fn numbers(&mut self) {
        let four = Call::BeginCompact { fill: 4 };
        let one = row_one();
        let at = |state: &State, number: u32, unit: u32| {
            let mut state = state.clone();
            state.set_check(number, unit, None);
            state
        };
        self.unit("number-last", four, &at(&one, LAST - 5, LAST - 1));
        self.add("number-past", four, &at(&one, LAST - 4, 0));
        self.add("number-past", four, &at(&one, LAST, 0));
        self.add("number-past", four, &at(&one, 1, LAST));
        self.add("number-last", four, &at(&one, 1, LAST - 1));
        let eight = row_eight();
        self.add("number-last", Call::BeginOrder, &at(&eight, LAST - 8, 0));
        self.add("number-past", Call::BeginOrder, &at(&eight, LAST - 7, 0));
        self.add("number-past", Call::BeginOrder, &at(&eight, 1, LAST));
        let begin = |unit| [compact(unit, 1, &[8, 9], 8)];
        let late = append(&at(&one, LAST - 2, 6), &begin(7));
        let mut steps = late.clone();
        self.then("number-last", Call::Step, &mut steps);
        self.add("number-past", Call::Step, &steps);
        let at_end = append(&at(&one, LAST - 1, 6), &begin(7));
        self.add("number-past", Call::Step, &at_end);
        self.add("number-past", Call::Recover, &late);
        self.add("number-past", Call::Recover, &at_end);
        let fits = append(&at(&one, LAST - 5, LAST - 1), &begin(LAST));
        self.add("number-last", Call::Recover, &fits);
        let past = append(&at(&one, LAST - 4, LAST - 1), &begin(LAST));
        self.add("number-past", Call::Recover, &past);
        let clear = Call::Checkpoint { clear: true };
        self.add("number-last", clear, &at(&one, LAST - 1, LAST));
        self.add("number-past", clear, &at(&one, LAST, 3));
        let keep = Call::Checkpoint { clear: false };
        self.add("number-past", keep, &at(&one, LAST, LAST));
        // The number after the last is none at all.
        let wrapped = append(&at(&one, LAST, 0), &begin(1));
        self.add("number-past", Call::Force, &wrapped);
        let unit_wrapped = append(&at(&one, 1, LAST), &begin(0));
        self.add("number-past", Call::Force, &unit_wrapped);
        self.add("number-past", Call::Recover, &unit_wrapped);
        let zero = at(&one, 0, 0);
        self.add("check-zero", Call::Find { key: 60 }, &zero);
        let mut zero = self.unit("check-zero", four, &zero);
        zero.flush_all();
        self.add("check-zero", Call::Recover, &cut(&zero, 6));
        self.add("check-zero", Call::Checkpoint { clear: false }, &zero);
    }

    /// Swaps under one base page and under two, cut with both entries on A.
    pub(super) fn swaps(&mut self) {
        let two = made(&[(3, &[(9, 0, &[10, 20])]), (2, &[(8, 30, &[30])])]);
        let deep = made(&[
            (3, &[(9, 0, &[10, 20])]),
            (2, &[(10, 25, &[25]), (8, 30, &[30])]),
        ]);
        let one = row_eight();
        let three = made(&[(4, &[(10, 0, &[1]), (9, 5, &[5]), (8, 9, &[9])])]);
        let trees = [
            ("swap-one-base", &one, 1),
            ("swap-one-base", &three, 4),
            ("swap-two-base", &two, 3),
            ("swap-two-base", &deep, 3),
        ];
        for (label, tree, base) in trees {
            let mut both = stepped(&after(tree, Call::BeginOrder), 5);
            self.add(label, Call::Step, &both);
            self.add(label, Call::Recover, &cut(&both, 7));
            both.done(Call::Force);
            both.done(Call::Flush { page: base });
            self.add(label, Call::Recover, &cut(&both, 7));
            both.done(Call::Step);
            both.done(Call::Force);
            for page in 0..PAGE_COUNT as u32 {
                both.done(Call::Flush { page });
            }
            self.add(label, Call::Recover, &cut(&both, 8));
        }
        self.unit("swap-two-base", Call::BeginOrder, &two);
        // Under two base pages the key of the entry before does not matter.
        let entry = |key, page| Entry { key, page };
        let mut alike = stepped(&after(&two, Call::BeginOrder), 5);
        let both = Body::Base(vec![entry(0, 8), entry(30, 8)]);
        put_page(&mut alike.work, 2, 1, both.clone());
        self.add("swap-two-base", Call::Step, &alike);
        // Under one it is the log's key, whichever entry that was.
        let before = stepped(&after(&one, Call::BeginOrder), 4);
        for key in [30, 0, 7] {
            let mut other = append(&before, &[point(1, 9, 8, key)]);
            put_page(&mut other.work, 1, 7, both.clone());
            self.add("swap-one-base", Call::Step, &other);
            put_page(&mut other.store, 1, 7, both.clone());
            self.add("swap-one-base", Call::Recover, &other);
        }
    }
}
