//! Vectors of recoveries and steps: after every step, repeated on pages that
//! fit and on pages that do not.

use super::*;

impl Cases {
    /// Recovery after each step of rows 2, 8 and 9, the changed page flushed
    /// and not; recovery after recovery.
    pub(super) fn recoveries(&mut self) {
        let rows = [
            ("row2", Call::BeginCompact { fill: 4 }, row_one()),
            ("row8", Call::BeginOrder, row_eight()),
            ("row9", Call::BeginCompact { fill: 4 }, row_nine()),
        ];
        for (row, begin, tree) in rows {
            let mut state = after(&tree, begin);
            loop {
                let log = state.read_log();
                let records = log.records.len();
                let label = format!("recover-{row}-unflushed");
                self.add(&label, Call::Recover, &cut(&state, records));
                let changed = log.records[records - 1].record.changed();
                if let Some(page) = changed {
                    let mut flushed = after(&state, Call::Force);
                    flushed.done(Call::Flush { page: page as u32 });
                    let label = format!("recover-{row}-flushed");
                    self.add(&label, Call::Recover, &cut(&flushed, records));
                }
                if log.open.is_none() {
                    break;
                }
                state.done(Call::Step);
            }
            let mut again = cut(&stepped(&after(&tree, begin), 1), 3);
            self.then("recover-again", Call::Recover, &mut again);
            self.add("recover-again", Call::Recover, &again);
            self.add("recover-again", Call::Recover, &cut(&again, 4));
            again.flush_all();
            self.add("recover-again", Call::Recover, &again);
        }
        let mut rubbish = row_one();
        rubbish.work[..16].fill(0xa5);
        rubbish.numbers = Numbers {
            used: LAST,
            forced: 3,
        };
        self.add("recover-rubbish", Call::Recover, &rubbish);
        self.add("recover-none", Call::Recover, &State::built(&[], 3, 4));
    }

    /// Recoveries that meet 3, 4, 5 and 8.
    pub(super) fn repeats(&mut self) {
        let begun = after(&row_one(), Call::BeginCompact { fill: 4 });
        let out_done = stepped(&begun, 1);
        let leaf = |keys: &[u32]| Body::Leaf(keys.iter().map(|&key| row(key)).collect());
        let with = |state: &State, place: u16, number: u32, body: Body| {
            let mut state = state.clone();
            put_page(&mut state.store, place, number, body);
            state
        };
        let mut value = out_done.clone();
        page_of_mut(&mut value.store, 9)[16 + 6] ^= 1;
        self.add("repeat-lo-differs", Call::Recover, &value);
        for keys in [&[30][..], &[30, 41], &[30, 40, 41], &[40]] {
            let state = with(&out_done, 9, 0, leaf(keys));
            self.add("repeat-lo-differs", Call::Recover, &state);
        }
        let empty = with(&out_done, 9, 2, Body::Empty);
        self.add("repeat-lo-differs", Call::Recover, &empty);
        // The page has the record's number already: nothing to repeat.
        let stamped = with(&out_done, 9, 3, leaf(&[30, 41]));
        self.add("repeat-lo-stamped", Call::Recover, &stamped);
        let in_done = stepped(&begun, 2);
        let many: Vec<u32> = (10..=23).collect();
        for keys in [&[10, 30][..], &[10, 35], &[41], &many] {
            let state = with(&in_done, 8, 0, leaf(keys));
            self.add("repeat-li", Call::Recover, &state);
        }
        let thirteen = with(&in_done, 8, 0, leaf(&many[..13]));
        self.add("repeat-li-full", Call::Recover, &thirteen);
        let onto_empty = with(&in_done, 8, 0, Body::Empty);
        self.add("repeat-li-empty", Call::Recover, &onto_empty);
        let stamped = with(&in_done, 8, 4, leaf(&[10, 20, 30, 40]));
        self.add("repeat-li-stamped", Call::Recover, &stamped);
        let modified = stepped(&begun, 3);
        let entries = |list: &[(u32, u16)]| {
            let entry = |&(key, page): &(u32, u16)| Entry { key, page };
            Body::Base(list.iter().map(entry).collect())
        };
        let bases = [
            entries(&[(0, 8), (31, 9), (50, 10)]),
            entries(&[(0, 8), (30, 11), (50, 10)]),
            entries(&[(0, 8), (50, 10)]),
            entries(&[(30, 9)]),
            Body::Empty,
        ];
        for body in bases {
            let state = with(&modified, 1, 0, body);
            self.add("repeat-lm", Call::Recover, &state);
        }
        let stamped = with(&modified, 1, 5, entries(&[(0, 8), (50, 10)]));
        self.add("repeat-lm-stamped", Call::Recover, &stamped);
        // Finishing meets a page that does not fit.
        let finishing = [
            with(&begun, 9, 2, Body::Empty),
            with(&begun, 8, 2, leaf(&[10, 99])),
            with(&begun, 1, 2, entries(&[(0, 8), (50, 10)])),
            with(&begun, 1, 2, entries(&[(30, 9)])),
            with(&begun, 1, 2, Body::Empty),
        ];
        for state in finishing {
            self.add("finish-misfit", Call::Recover, &state);
        }
        let number = |place: u16, number: u32| {
            let mut state = out_done.clone();
            put32(page_of_mut(&mut state.store, place), 4, number);
            state
        };
        self.add("store-ahead", Call::Recover, &number(63, 4));
        self.add("store-ahead", Call::Recover, &number(0, LAST));
        self.add("store-last", Call::Recover, &number(63, 3));
        let late_tree = with(&begun, 40, 0, leaf(&[70]));
        self.add("recover-tree", Call::Recover, &late_tree);
        let plain_tree = with(&row_one(), 8, 0, leaf(&[10, 30]));
        self.add("recover-tree", Call::Recover, &plain_tree);
        let swapped = with(&row_one(), 2, 0, entries(&[(70, 11)]));
        self.add("recover-tree", Call::Recover, &swapped);
        let mut broken = out_done.clone();
        broken.store[PAGES_BYTES - 1] = 1;
        self.add("recover-form", Call::Recover, &broken);
        let mut both = broken.clone();
        put32(page_of_mut(&mut both.store, 1), 4, LAST);
        self.add("recover-form", Call::Recover, &both);
        both.log[4] ^= 1;
        self.add("recover-log", Call::Recover, &both);
        self.add("recover-log", Call::Recover, &State::zero());
    }

    /// Steps that meet 3, 5 and 10, and an end over rubbish.
    pub(super) fn steps(&mut self) {
        self.add("step-closed", Call::Step, &row_one());
        let begun = after(&row_one(), Call::BeginCompact { fill: 4 });
        let mut ended = begun.clone();
        ended.finish();
        self.add("step-closed", Call::Step, &ended);
        let leaf = |keys: &[u32]| Body::Leaf(keys.iter().map(|&key| row(key)).collect());
        let with = |state: &State, place: u16, body: Body| {
            let mut state = state.clone();
            put_page(&mut state.work, place, 1, body);
            state
        };
        // The changed page of each kind: broken, and in form without fitting.
        for (steps, place) in [(0, 9), (1, 8), (2, 1)] {
            let state = stepped(&begun, steps);
            let mut broken = state.clone();
            page_of_mut(&mut broken.work, place)[15] = 1;
            self.add("step-form", Call::Step, &broken);
            let mut mark = state.clone();
            page_of_mut(&mut mark.work, place)[1] = b'r';
            self.add("step-form", Call::Step, &mark);
            // Any other page may hold anything.
            let mut other = state.clone();
            page_of_mut(&mut other.work, 20).fill(7);
            self.add("step-other-form", Call::Step, &other);
        }
        self.add("step-lo", Call::Step, &with(&begun, 9, Body::Empty));
        let out_done = stepped(&begun, 1);
        let many: Vec<u32> = (10..=23).collect();
        for keys in [&[10, 30][..], &[35], &[41], &many] {
            self.add("step-li", Call::Step, &with(&out_done, 8, leaf(keys)));
        }
        let full = with(&out_done, 8, leaf(&many[..13]));
        self.add("step-li-full", Call::Step, &full);
        let onto_empty = with(&out_done, 8, Body::Empty);
        self.add("step-li-empty", Call::Step, &onto_empty);
        let in_done = stepped(&begun, 2);
        let entries = |list: &[(u32, u16)]| {
            let entry = |&(key, page): &(u32, u16)| Entry { key, page };
            Body::Base(list.iter().map(entry).collect())
        };
        let bases = [
            Body::Empty,
            entries(&[(0, 8), (50, 10)]),
            entries(&[(30, 9)]),
        ];
        for body in bases {
            self.add("step-lm", Call::Step, &with(&in_done, 1, body));
        }
        let twice = entries(&[(0, 8), (31, 9), (33, 9), (50, 10)]);
        self.add("step-lm-lowest", Call::Step, &with(&in_done, 1, twice));
        // Pointing elsewhere leaves the entry, so an only one may be pointed.
        let moved = stepped(&after(&row_eight(), Call::BeginOrder), 4);
        for list in [&[(0, 9)][..], &[(0, 10)], &[(0, 8), (5, 9), (6, 9)]] {
            let state = with(&moved, 1, entries(list));
            self.add("step-lm-swap", Call::Step, &state);
        }
        let both = stepped(&moved, 1);
        for list in [&[(0, 8)][..], &[(0, 8), (30, 9)], &[(0, 8), (1, 8), (2, 8)]] {
            let state = with(&both, 1, entries(list));
            self.add("step-lm-swap", Call::Step, &state);
        }
        let mut end = stepped(&begun, 3);
        end.work.fill(0);
        end.work[..40].fill(0x5a);
        self.add("step-le", Call::Step, &end);
    }
}
