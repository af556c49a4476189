//! Vectors of the calls that write no unit, of wrong lengths, of the order of
//! tests, and of random states.

use super::*;

impl Cases {
    pub(super) fn finds(&mut self) {
        let tree = made(&[
            (1, &[(8, 0, &[0, 20]), (9, 30, &[35])]),
            (2, &[(10, 50, &[50, LAST])]),
        ]);
        for key in [0, 1, 20, 29, 30, 35, 49, 50, 51, LAST - 1, LAST] {
            self.add("find-key", Call::Find { key }, &tree);
        }
        let mut above = tree.clone();
        let first = |key, page| Entry { key, page };
        put_page(&mut above.work, 0, 0, Body::Root(vec![first(5, 1)]));
        page_of_mut(&mut above.work, 1).fill(0xee);
        self.add("find-above", Call::Find { key: 4 }, &above);
        self.add("find-above", Call::Find { key: 5 }, &above);
        let mut base_above = tree.clone();
        put_page(&mut base_above.work, 1, 0, Body::Base(vec![first(5, 8)]));
        page_of_mut(&mut base_above.work, 8).fill(0xee);
        self.add("find-above", Call::Find { key: 4 }, &base_above);
        let mut no_leaf = tree.clone();
        put_page(&mut no_leaf.work, 8, 0, Body::Empty);
        self.add("find-empty", Call::Find { key: 20 }, &no_leaf);
        self.add("find-empty", Call::Find { key: 35 }, &no_leaf);
        let mut no_base = tree.clone();
        put_page(&mut no_base.work, 2, 0, Body::Empty);
        self.add("find-empty", Call::Find { key: 60 }, &no_base);
        let mut rubbish = tree.clone();
        for place in [2, 8, 10, 63] {
            page_of_mut(&mut rubbish.work, place)[..9].fill(0x77);
        }
        self.add("find-other", Call::Find { key: 35 }, &rubbish);
        self.add("find-other", Call::Find { key: 36 }, &rubbish);
        self.add("find-other", Call::Find { key: 20 }, &rubbish);
        let mut no_root = State::built(&[], 1, 1);
        no_root.work[PAGE_BYTES..].fill(0);
        self.add("find-other", Call::Find { key: 0 }, &no_root);
        let open = after(&row_one(), Call::BeginCompact { fill: 4 });
        self.add("find-open", Call::Find { key: 10 }, &open);
        self.add("find-open", Call::Find { key: 11 }, &stepped(&open, 3));
        let large = State::built(&(1..=840).collect::<Vec<u32>>(), 15, 30);
        self.add("find-large", Call::Find { key: 840 }, &large);
        self.add("find-large", Call::Find { key: 841 }, &large);
    }

    pub(super) fn lists(&mut self) {
        let tree = made(&[
            (1, &[(9, 0, &[0, 20]), (8, 30, &[35])]),
            (2, &[(10, 50, &[50, LAST])]),
        ]);
        for room in [0, 15, 16, 17, 40, 79, 80, 100] {
            let mut state = tree.clone();
            state.bytes = vec![170; room];
            self.add("list-room", ALL, &state);
        }
        let bounds = [
            (20, 20),
            (20, 50),
            (21, 34),
            (35, 20),
            (LAST, 0),
            (LAST, LAST),
            (0, 0),
            (1, LAST - 1),
        ];
        for (low, high) in bounds {
            let mut state = tree.clone();
            state.bytes = vec![170; 32];
            self.add("list-bounds", Call::List { low, high }, &state);
        }
        let open = after(&row_one(), Call::BeginCompact { fill: 4 });
        self.add("list-open", ALL, &open);
        self.add("list-open", Call::List { low: 5, high: 1 }, &open);
        let mut crossed = tree.clone();
        crossed.work[PAGES_BYTES - 1] = 1;
        self.add("list-crossed", Call::List { low: 5, high: 1 }, &crossed);
        let mut unpointed = tree.clone();
        put_page(&mut unpointed.work, 63, 0, Body::Leaf(vec![row(9)]));
        self.add("list-crossed", Call::List { low: 5, high: 1 }, &unpointed);
    }

    pub(super) fn builds(&mut self) {
        let with = |keys: &[u32]| {
            let mut state = State::zero();
            state.bytes = record_bytes(keys);
            state
        };
        let call = |f, g| Call::Build { f, g };
        self.add("build-none", call(1, 1), &with(&[]));
        self.add("build-none", call(15, 30), &with(&[]));
        self.add("build-keys", call(3, 2), &with(&[0, 1, 2, LAST]));
        let seven: Vec<u32> = (1..=7).collect();
        let eight: Vec<u32> = (1..=8).collect();
        self.add("build-most", call(1, 1), &with(&seven));
        self.add("build-large", call(1, 1), &with(&eight));
        self.add("build-most", call(2, 1), &with(&eight));
        let fifty_seven: Vec<u32> = (1..=57).collect();
        self.add("build-large", call(1, 30), &with(&fifty_seven));
        self.add("build-most", call(1, 8), &with(&fifty_seven[..56]));
        self.add("build-large", call(1, 7), &with(&fifty_seven[..50]));
        for (f, g) in [(0, 1), (16, 1), (1, 0), (1, 31), (LAST, LAST), (256, 1)] {
            self.add("build-fill", call(f, g), &with(&[5]));
        }
        for length in [1, 15, 17, 31] {
            let mut partial = with(&[5, 6]);
            partial.bytes.truncate(length);
            self.add("build-partial", call(2, 2), &partial);
        }
        for keys in [&[5, 5][..], &[6, 5], &[1, 2, 3, 0]] {
            self.add("build-keys", call(2, 2), &with(keys));
        }
        for at in [0, 1, 16, 17] {
            let mut mark = with(&[5, 6]);
            mark.bytes[at] ^= 0x20;
            self.add("build-mark", call(2, 2), &mark);
        }
        let mut over = row_one();
        over.work[..24].fill(0x33);
        over.log[500] = 1;
        over.numbers.used = LAST;
        over.bytes = record_bytes(&[1, 2, 3]);
        self.add("build-over", call(2, 1), &over);
        self.add("build-over", call(2, 0), &over);
    }

    pub(super) fn checkpoints(&mut self) {
        let mut done = after(&row_one(), Call::BeginCompact { fill: 4 });
        let open = done.clone();
        done.finish();
        let differs = done.clone();
        done.flush_all();
        for clear in [false, true] {
            let call = Call::Checkpoint { clear };
            self.add("checkpoint", call, &done);
            self.add("checkpoint", call, &row_one());
            self.add("checkpoint-open", call, &open);
            self.add("checkpoint-differs", call, &differs);
        }
        let call = Call::Checkpoint { clear: false };
        let mut last_byte = done.clone();
        last_byte.store[PAGES_BYTES - 1] = 1;
        self.add("checkpoint-differs", call, &last_byte);
        last_byte.work[PAGES_BYTES - 1] = 1;
        self.add("checkpoint", call, &last_byte);
        let mut unforced = done.clone();
        unforced.numbers.forced = 24;
        self.add("checkpoint", call, &unforced);
    }

    pub(super) fn flushes(&mut self) {
        let mut state = after(&row_one(), Call::BeginCompact { fill: 4 });
        state.finish();
        let flush = |page| Call::Flush { page };
        for page in [0, 1, 8, 9, 63, 64, 256 + 8, LAST] {
            self.add("flush", flush(page), &state);
        }
        let ends = [68, 120, 144, 172, 188];
        for forced in ends {
            state.numbers.forced = forced;
            self.add("flush", flush(8), &state);
            self.add("flush", flush(1), &state);
        }
        let mut rubbish = row_one();
        page_of_mut(&mut rubbish.work, 30).fill(0xcc);
        self.add("flush", flush(30), &rubbish);
        put32(page_of_mut(&mut rubbish.work, 30), 4, 1);
        self.add("flush", flush(30), &rubbish);
    }

    /// Every lent buffer one byte short, one byte long, and empty.
    pub(super) fn lengths(&mut self) {
        let calls = [
            Call::Build { f: 1, g: 1 },
            Call::Recover,
            COMPACT,
            Call::BeginOrder,
            Call::Put,
            Call::Delete { key: 0 },
            Call::Step,
            Call::Flush { page: 0 },
            Call::Force,
            Call::Checkpoint { clear: true },
            Call::Find { key: 0 },
            ALL,
        ];
        for call in calls {
            let lent = call.lent();
            for change in [-1, 1] {
                let long = |length: usize| length.saturating_add_signed(change);
                let mut work = State::zero();
                work.work.resize(long(PAGES_BYTES), 0);
                let mut store = State::zero();
                store.store.resize(long(PAGES_BYTES), 0);
                let mut log = State::zero();
                log.log.resize(long(LOG_BYTES), 0);
                for (is_lent, state) in [(lent.work, work), (lent.store, store), (lent.log, log)] {
                    if is_lent {
                        self.add("length", call, &state);
                    }
                }
            }
            let mut none = State::zero();
            none.work.clear();
            none.store.clear();
            none.log.clear();
            self.add("length", call, &none);
        }
    }

    /// Two tests that both fail: the one that comes first gives the reply.
    pub(super) fn first_tests(&mut self) {
        let one = row_one();
        let open = after(&one, Call::BeginCompact { fill: 4 });
        let begins = [Call::BeginCompact { fill: 4 }, Call::BeginOrder];
        let broken = |state: &State| {
            let mut state = state.clone();
            state.work[PAGES_BYTES - 1] = 1;
            state.store[PAGES_BYTES - 1] = 1;
            state
        };
        let unpointed = |state: &State| {
            let mut state = state.clone();
            put_page(&mut state.work, 62, 0, Body::Leaf(vec![row(70)]));
            put_page(&mut state.store, 62, 0, Body::Leaf(vec![row(70)]));
            state
        };
        let misfit = |state: &State| {
            let mut state = state.clone();
            put_page(&mut state.work, 9, 0, Body::Empty);
            put_page(&mut state.store, 9, 0, Body::Empty);
            state
        };
        let ahead = |state: &State| {
            let mut state = state.clone();
            put32(page_of_mut(&mut state.store, 63), 4, LAST);
            state
        };
        let tail = |state: &State| {
            let mut state = state.clone();
            state.log[LOG_BYTES - 1] = 1;
            state
        };
        let long = |state: &State| {
            let mut state = state.clone();
            state.log.push(0);
            state
        };
        let sixteen = Call::BeginCompact { fill: 16 };
        self.add("first-test", sixteen, &tail(&long(&one)));
        self.add("first-test", sixteen, &tail(&one));
        self.add("first-test", sixteen, &broken(&open));
        for begin in begins {
            self.add("first-test", begin, &tail(&broken(&open)));
            self.add("first-test", begin, &open);
            self.add("first-test", begin, &broken(&open));
            self.add("first-test", begin, &broken(&unpointed(&one)));
            let mut settled = State::built(&[10], 1, 1);
            settled.set_check(LAST, LAST, None);
            self.add("first-test", begin, &settled);
            self.add("first-test", begin, &unpointed(&settled));
        }
        self.add("first-test", Call::Step, &tail(&broken(&one)));
        self.add("first-test", Call::Step, &broken(&one));
        let mut late = one.clone();
        late.set_check(LAST - 1, 6, None);
        let late = append(&late, &[compact(7, 1, &[8, 9], 8)]);
        self.add("first-test", Call::Step, &misfit(&late));
        // Page 10 is to come and far too large, and the number would pass.
        let mut raw = one.clone();
        raw.set_check(LAST - 1, 6, None);
        let mut raw = append(&raw, &[compact(7, 1, &[8, 9, 10], 8)]);
        put16(page_of_mut(&mut raw.work, 10), 2, 600);
        self.add("first-test", Call::Step, &raw);
        self.add("first-test", Call::Step, &misfit(&raw));
        page_of_mut(&mut raw.work, 9)[8] = 1;
        self.add("first-test", Call::Step, &raw);
        self.add("first-test", Call::Recover, &long(&tail(&open)));
        self.add("first-test", Call::Recover, &tail(&broken(&open)));
        self.add("first-test", Call::Recover, &broken(&ahead(&open)));
        self.add("first-test", Call::Recover, &ahead(&misfit(&open)));
        self.add("first-test", Call::Recover, &misfit(&late));
        self.add("first-test", Call::Recover, &unpointed(&late));
        self.add("first-test", Call::Flush { page: 64 }, &tail(&one));
        for clear in [true, false] {
            let call = Call::Checkpoint { clear };
            self.add("first-test", call, &tail(&open));
            self.add("first-test", call, &stepped(&open, 1));
        }
        let mut last = one.clone();
        last.set_check(LAST, 0, None);
        last.store[99] = 9;
        let keep = Call::Checkpoint { clear: false };
        self.add("first-test", keep, &last);
        let mut no_tree = open.clone();
        no_tree.work.fill(0);
        self.add("first-test", Call::Find { key: 10 }, &no_tree);
        self.add("first-test", ALL, &no_tree);
        self.add("first-test", ALL, &broken(&unpointed(&one)));
        let mut records = State::zero();
        records.bytes = record_bytes(&(1..=8).collect::<Vec<u32>>());
        records.bytes[0] = 0;
        self.add("first-test", Call::Build { f: 1, g: 1 }, &records);
        self.add("first-test", Call::Build { f: 0, g: 1 }, &records);
        records.bytes.pop();
        self.add("first-test", Call::Build { f: 1, g: 1 }, &records);
        self.add("first-test", Call::Build { f: 0, g: 1 }, &long(&records));
    }

    /// Calls on small random trees after random calls.
    pub(super) fn random(&mut self) {
        let mut chance = Chance::new(SEED);
        let mut added = 0;
        while added < 60 {
            let tree = random_shape(&mut chance);
            let leaves: usize = tree.iter().map(|base| base.leaves.len()).sum();
            if !(2..=7).contains(&leaves) {
                continue;
            }
            let mut state = State::made(&tree, 5, 2, None);
            for _ in 0..chance.within(0, 12) {
                let fill = chance.within(0, 15) as u32;
                let call = match chance.within(1, 4) {
                    1 => Call::BeginCompact { fill },
                    2 => Call::BeginOrder,
                    _ => Call::Step,
                };
                call.on(&mut state);
                if chance.one_in(3) {
                    Call::Force.on(&mut state);
                    let page = chance.within(0, 20) as u32;
                    Call::Flush { page }.on(&mut state);
                }
            }
            let log = state.read_log();
            let forced = log
                .records
                .iter()
                .position(|placed| placed.end as u32 == state.numbers.forced);
            let least = forced.map_or(1, |at| at as u64 + 1);
            let kept = chance.within(least, log.records.len() as u64) as usize;
            self.add("random", Call::Recover, &cut(&state, kept));
            let call = match (log.open.is_some(), chance.within(1, 3)) {
                (true, _) => Call::Step,
                (false, 1) => COMPACT,
                (false, 2) => Call::BeginOrder,
                (false, _) => ALL,
            };
            state.bytes = vec![170; 50];
            self.add("random", call, &state);
            added += 2;
        }
    }
}
