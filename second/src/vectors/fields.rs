//! Vectors of logs, pages and trees broken in one field at a time.

use super::*;

impl Cases {
    /// Logs broken in every field of every kind of record. Force is lent the
    /// log alone.
    pub(super) fn log_fields(&mut self) {
        // For each kind: the log's end after it, and its fields as offset and
        // size within the record.
        const HEADER: [(usize, usize); 4] = [(0, 2), (2, 2), (4, 4), (8, 4)];
        let begin: Vec<(usize, usize)> = [(12, 4), (16, 1), (17, 1), (18, 1), (19, 1)]
            .into_iter()
            .chain((0..12).map(|i| (20 + 2 * i, 2)))
            .collect();
        let pages = |more: &[(usize, usize)]| {
            let mut fields = vec![(12, 2), (14, 2), (16, 2), (18, 2)];
            fields.extend_from_slice(more);
            fields
        };
        let nine = after(&row_nine(), Call::BeginCompact { fill: 4 });
        let two = made(&[(3, &[(9, 0, &[10, 20])]), (2, &[(8, 30, &[30])])]);
        let swap = after(&two, Call::BeginOrder);
        let far = after(&made(&[(7, &[(63, 0, &[6])])]), Call::BeginOrder);
        let check = vec![(12, 4), (16, 1), (17, 1), (18, 1), (19, 1), (20, 4)];
        let kinds = [
            (row_one(), check),
            (nine.clone(), begin.clone()),
            (swap.clone(), begin.clone()),
            (far.clone(), begin),
            (stepped(&far, 1), pages(&[(20, 2), (22, 4), (26, 1)])),
            (stepped(&far, 2), pages(&[(20, 4)])),
            (stepped(&far, 3), pages(&[(20, 4), (24, 4)])),
            (stepped(&nine, 6), pages(&[(20, 4), (24, 4)])),
            (stepped(&swap, 4), pages(&[(20, 4)])),
            (stepped(&far, 4), vec![(12, 4)]),
        ];
        for (state, fields) in kinds {
            let log = state.read_log();
            let ends: Vec<usize> = log.records.iter().map(|placed| placed.end).collect();
            let start = if ends.len() > 1 {
                ends[ends.len() - 2]
            } else {
                0
            };
            for (at, _) in HEADER.into_iter().chain(fields) {
                let mut broken = state.clone();
                broken.log[start + at] = broken.log[start + at].wrapping_add(1);
                self.add("log-field", Call::Force, &broken);
            }
        }
        self.begin_fields(&nine, &swap, &far);
        self.record_fields(&nine, &far);
    }

    /// Begin records with chosen values in their fields.
    fn begin_fields(&mut self, compact: &State, swap: &State, moved: &State) {
        let start = 24;
        let bytes = |state: &State, changes: &[(usize, u8)]| {
            let mut state = state.clone();
            for &(at, byte) in changes {
                state.log[start + at] = byte;
            }
            state
        };
        // Offsets: mark 0, length 2, type 16, fill 17, bases 18, leaves 19, base pages 20 and
        // 22, leaf pages 24 and up, destination 40, zero 42.
        let compacts: [&[(usize, u8)]; 26] = [
            &[(0, 0)],
            &[(2, 0)],
            &[(2, 11)],
            &[(3, 255)],
            &[(16, 0)],
            &[(16, 4)],
            &[(17, 0)],
            &[(17, 15)],
            &[(17, 16)],
            &[(18, 0)],
            &[(18, 0), (20, 0)],
            &[(18, 2), (22, 2)],
            &[(18, 255)],
            &[(19, 1), (26, 0)],
            &[(19, 0), (24, 0), (26, 0)],
            &[(19, 9)],
            &[(19, 3), (28, 13)],
            &[(19, 3), (28, 11)],
            &[(20, 0)],
            &[(20, 8)],
            &[(24, 7)],
            &[(26, 64)],
            &[(40, 7)],
            &[(40, 64)],
            &[(40, 12)],
            &[(40, 11)],
        ];
        for changes in compacts {
            self.add("log-field", Call::Force, &bytes(compact, changes));
        }
        let above = bytes(compact, &[(40, 63)]);
        self.add("log-field", Call::Force, &above);
        let swaps: [&[(usize, u8)]; 9] = [
            &[(18, 1), (22, 0)],
            &[(18, 1)],
            &[(20, 3)],
            &[(22, 8)],
            &[(24, 9)],
            &[(19, 3), (28, 10)],
            &[(17, 12)],
            &[(40, 8)],
            &[(16, 3)],
        ];
        for changes in swaps {
            self.add("log-field", Call::Force, &bytes(swap, changes));
        }
        let moves: [&[(usize, u8)]; 6] = [
            &[(40, 63)],
            &[(40, 0)],
            &[(40, 62)],
            &[(17, 1)],
            &[(19, 2), (26, 9)],
            &[(18, 2), (22, 1)],
        ];
        for changes in moves {
            self.add("log-field", Call::Force, &bytes(moved, changes));
        }
    }

    /// Records after the begin record with chosen values in their fields.
    fn record_fields(&mut self, compact: &State, moved: &State) {
        let mut absent = row_one();
        put32(&mut absent.log, 20, 5);
        self.add("log-field", Call::Force, &absent);
        absent.log[16] = 1;
        self.add("log-field", Call::Force, &absent);
        put32(&mut absent.log, 20, 0);
        self.add("log-field", Call::Force, &absent);
        absent.log[16] = 2;
        self.add("log-field", Call::Force, &absent);
        put32(&mut absent.log, 8, 1);
        self.add("log-field", Call::Find { key: 10 }, &absent);
        // Counts of 0, 15 and 16 with the length that would go with them.
        for count in [0, 15, 16] {
            let keys: Vec<u32> = (1..=count).collect();
            let state = append(moved, &[out(63, 8, &keys)]);
            self.add("log-field", Call::Force, &state);
        }
        for keys in [&[5, 5][..], &[6, 5], &[0, LAST]] {
            let state = append(moved, &[out(63, 8, keys)]);
            self.add("log-field", Call::Force, &state);
        }
        let mut later_mark = append(moved, &[out(63, 8, &[5, 6])]);
        later_mark.log[68 + 20 + 16] = b'x';
        self.add("log-field", Call::Force, &later_mark);
        // A second out record need not be above the first.
        let falls = append(
            compact,
            &[out(11, 8, &[50]), into(11, 8, 1, 3), out(12, 8, &[40, 41])],
        );
        self.add("log-free", Call::Force, &falls);
        let wrong_out = append(&falls, &[into(12, 8, 2, 3)]);
        self.add("log-field", Call::Force, &wrong_out);
        let wrong_count = append(&falls, &[into(12, 8, 1, 5)]);
        self.add("log-field", Call::Force, &wrong_count);
        let right = append(&falls, &[into(12, 8, 2, 5)]);
        for record in [
            point(1, 11, 8, LAST),
            point(1, 12, 8, 0),
            remove(1, 11, 0),
            Record::End { unit: 1 },
            out(12, 8, &[40]),
            compact_again(),
        ] {
            let state = append(&right, &[record]);
            self.add("log-field", Call::Force, &state);
        }
        let pointed = append(&right, &[point(1, 11, 8, 7)]);
        for record in [remove(1, 12, 9), remove(1, 11, 9), point(1, 12, 8, 9)] {
            let state = append(&pointed, &[record]);
            self.add("log-field", Call::Force, &state);
        }
    }

    /// Numbers beside the log, and the zeros after its end.
    pub(super) fn log_ends(&mut self) {
        let mut state = after(&row_one(), Call::BeginCompact { fill: 4 });
        state.done(Call::Step);
        let ends = [24, 68, 120];
        for used in [0, 24, 68, 116, 120, 124, LOG_BYTES as u32, LAST] {
            let mut wrong = state.clone();
            wrong.numbers = Numbers { used, forced: 24 };
            self.add("log-used", Call::Force, &wrong);
        }
        for forced in [0, 4, 23, 25, 67, 68, 119, 120, 124, LAST] {
            let mut wrong = state.clone();
            wrong.numbers.forced = forced;
            self.add("log-forced", Call::Force, &wrong);
        }
        for at in [120, 121, 4000, LOG_BYTES - 1] {
            for byte in [1, b'L'] {
                let mut wrong = state.clone();
                wrong.log[at] = byte;
                self.add("log-tail", Call::Force, &wrong);
            }
        }
        for end in ends {
            let mut wrong = state.clone();
            wrong.log[end - 4..].fill(0);
            wrong.numbers.used = end as u32 - 4;
            self.add("log-tail", Call::Force, &wrong);
        }
        // A record begins and the log ends.
        let mut partial = row_one();
        partial.fill_log(8);
        partial.log[LOG_BYTES - 8..].copy_from_slice(b"LB\x2c\x00\x01\x00\x00\x00");
        self.add("log-tail", Call::Force, &partial);
        // No check record, or two.
        self.add("log-none", Call::Force, &State::zero());
        let twice = append(&row_one(), &[Record::Check { unit: 0, lk: None }]);
        self.add("log-field", Call::Force, &twice);
        // Each call tests the log.
        let mut broken = row_one();
        broken.log[12] = 1;
        broken.log[100] = 1;
        broken.bytes = vec![170; 20];
        let calls = [
            Call::Recover,
            COMPACT,
            Call::BeginOrder,
            Call::Put,
            Call::Delete { key: 10 },
            Call::Step,
            Call::Flush { page: 8 },
            Call::Checkpoint { clear: false },
            Call::Find { key: 10 },
            ALL,
        ];
        for call in calls {
            self.add("log-tail", call, &broken);
        }
        let mut lent = row_one();
        lent.bytes = vec![170; 20];
        lent.numbers.used = 28;
        for call in &calls[1..] {
            self.add("log-used", *call, &lent);
        }
    }

    /// Pages broken in every way.
    pub(super) fn page_fields(&mut self) {
        let tree = made(&[(1, &[(8, 0, &[10, 20]), (9, 30, &[30])])]);
        // Page, offset, byte: root, base, leaf, then an empty page.
        let changes: [(u16, usize, u8); 47] = [
            (0, 0, b'q'),
            (0, 1, b'b'),
            (0, 1, b'e'),
            (0, 2, 2),
            (0, 2, 0),
            (0, 3, 1),
            (0, 8, 1),
            (0, 15, 1),
            (0, 16, b'f'),
            (0, 17, b'm'),
            (0, 22, 0),
            (0, 22, 8),
            (0, 23, 1),
            (0, 24, 1),
            (0, 255, 1),
            (1, 1, b'r'),
            (1, 1, b'l'),
            (1, 2, 1),
            (1, 2, 0),
            (1, 2, 31),
            (1, 9, 1),
            (1, 16, 0),
            (1, 22, 7),
            (1, 22, 64),
            (1, 26, 0),
            (1, 32, 1),
            (8, 0, 0),
            (8, 1, b'b'),
            (8, 2, 0),
            (8, 2, 1),
            (8, 2, 3),
            (8, 2, 16),
            (8, 3, 255),
            (8, 12, 1),
            (8, 16, 0),
            (8, 33, b'x'),
            (8, 34, 10),
            (8, 34, 9),
            (8, 48, 1),
            (8, 255, 9),
            (2, 1, b'r'),
            (2, 2, 1),
            (2, 255, 1),
            (7, 1, b'b'),
            (63, 1, b'l'),
            (63, 14, 1),
            (63, 1, b'b'),
        ];
        for (place, at, byte) in changes {
            let mut broken = tree.clone();
            page_of_mut(&mut broken.work, place)[at] = byte;
            let on_way = [0, 1, 8].contains(&place);
            let call = if on_way { Call::Find { key: 20 } } else { ALL };
            self.add("page-field", call, &broken);
            // A page with 30 or 15 rows says so, and its rows are tested.
            if (at, byte) == (255, 1) {
                self.add("page-field", Call::BeginOrder, &broken);
                self.add("page-field", COMPACT, &broken);
                broken.store.clone_from(&broken.work);
                self.add("page-field", Call::Recover, &broken);
            }
        }
        // Whole pages that would be in form in another region.
        let entries = |page| vec![Entry { key: 0, page }];
        let misplaced = [
            (0, Body::Empty),
            (0, Body::Base(entries(8))),
            (1, Body::Leaf(vec![row(20)])),
            (1, Body::Root(entries(1))),
            (8, Body::Base(entries(8))),
            (8, Body::Root(Vec::new())),
            (7, Body::Leaf(vec![row(70)])),
            (63, Body::Base(entries(8))),
        ];
        for (place, body) in misplaced {
            let mut other = tree.clone();
            put_page(&mut other.work, place, 0, body.clone());
            self.add("page-region", Call::Find { key: 20 }, &other);
            self.add("page-region", ALL, &other);
            put_page(&mut other.store, place, 0, body);
            self.add("page-region", Call::Recover, &other);
        }
        for (place, number) in [(0, 5), (1, LAST), (8, LAST)] {
            let mut stamped = tree.clone();
            put32(page_of_mut(&mut stamped.work, place), 4, number);
            self.add("page-number", Call::Find { key: 20 }, &stamped);
        }
        let keys: Vec<u32> = (1..=15).collect();
        let full = State::built(&keys, 15, 1);
        self.add("page-full", Call::Find { key: 15 }, &full);
        let mut last = full.clone();
        page_of_mut(&mut last.work, 8)[16 + 14 * 16 + 2] = 14;
        self.add("page-field", Call::Find { key: 15 }, &last);
        let many = State::built(&(1..=30).collect::<Vec<u32>>(), 1, 30);
        self.add("page-full", Call::Find { key: 30 }, &many);
        let mut last = many.clone();
        page_of_mut(&mut last.work, 1)[16 + 29 * 8 + 2] = 29;
        self.add("page-field", Call::Find { key: 30 }, &last);
    }

    /// Pages in form that are not a well-formed tree.
    pub(super) fn tree_fields(&mut self) {
        let tree = made(&[
            (1, &[(8, 0, &[10, 20]), (9, 30, &[30])]),
            (2, &[(10, 50, &[50])]),
        ]);
        let entries = |list: &[(u32, u16)]| -> Vec<Entry> {
            let entry = |&(key, page): &(u32, u16)| Entry { key, page };
            list.iter().map(entry).collect()
        };
        let leaf = |keys: &[u32]| Body::Leaf(keys.iter().map(|&key| row(key)).collect());
        let root = |list: &[(u32, u16)]| (0, Body::Root(entries(list)));
        let base = |place: u16, list: &[(u32, u16)]| (place, Body::Base(entries(list)));
        let changes = [
            root(&[(0, 1)]),
            root(&[(0, 2)]),
            root(&[]),
            root(&[(1, 1), (50, 2)]),
            root(&[(0, 1), (49, 2)]),
            root(&[(0, 1), (51, 2)]),
            root(&[(0, 1), (50, 1)]),
            root(&[(0, 1), (50, 3)]),
            root(&[(0, 2), (50, 1)]),
            root(&[(0, 1), (50, 2), (60, 3)]),
            base(1, &[(0, 8)]),
            base(1, &[(0, 8), (30, 8)]),
            base(1, &[(0, 8), (30, 9), (40, 11)]),
            base(1, &[(0, 8), (30, 10)]),
            base(1, &[(5, 8), (30, 9)]),
            base(1, &[(0, 8), (31, 9)]),
            base(1, &[(0, 8), (20, 9)]),
            base(1, &[(0, 8), (21, 9)]),
            base(1, &[(0, 9), (30, 8)]),
            base(1, &[(0, 8), (30, 9), (50, 11)]),
            base(2, &[(51, 10)]),
            base(3, &[(60, 11)]),
            (8, leaf(&[10, 30])),
            (8, leaf(&[10, 29])),
            (8, leaf(&[0, 1])),
            (9, leaf(&[29])),
            (9, leaf(&[30, 50])),
            (9, leaf(&[30, 49])),
            (10, leaf(&[49, 50])),
            (10, leaf(&[50, LAST])),
            (10, Body::Empty),
            (11, leaf(&[60])),
            (2, Body::Empty),
        ];
        // The first root key is 1, and its base page's first key too.
        let mut late = tree.clone();
        for (place, body) in [root(&[(1, 1), (50, 2)]), base(1, &[(1, 8), (30, 9)])] {
            put_page(&mut late.work, place, 0, body.clone());
            put_page(&mut late.store, place, 0, body);
        }
        self.add("tree-field", ALL, &late);
        self.add("tree-field", Call::BeginOrder, &late);
        self.add("tree-field", Call::Recover, &late);
        for (i, (place, body)) in changes.into_iter().enumerate() {
            let mut broken = tree.clone();
            put_page(&mut broken.work, place, 0, body);
            broken.bytes = vec![170; 32];
            self.add("tree-field", ALL, &broken);
            if i % 8 == 0 {
                self.add("tree-field", COMPACT, &broken);
                self.add("tree-field", Call::BeginOrder, &broken);
            }
        }
    }
}

/// A begin record where a unit is open.
fn compact_again() -> Record {
    compact(2, 1, &[8, 9], 8)
}
