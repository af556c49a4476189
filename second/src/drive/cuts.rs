//! Cuts. The plan:
//!
//! 1. the random runs of demand 3 (the plan is at the top of `runs`), each
//!    run a script, a dump after every recovery and now and then in between:
//!    any calls, cuts at any record and between calls, several in a row, and
//!    inside a recovery;
//! 2. each cut: of a compact in its place, the largest one into a new place,
//!    a move, a swap under one base page and under two, and a put and a delete
//!    of every shape, every number of records kept, with no page, all pages
//!    and all pages of half-way in the store; recovery, and a second cut that
//!    keeps half of what it appended; and a checkpoint of the whole unit;
//! 3. tidying: the largest trees compacted until nothing is left, then put in
//!    order until nothing is left, the log filled up, every page flushed and
//!    a checkpoint made where it is full, with cuts now and then.

use super::Made;
use crate::bench::Script;
use crate::bytes::PAGE_COUNT;
use crate::chance::Chance;
use crate::page::{Row, LEAVES, MOST_ROWS};
use crate::reply;
use crate::runs::{self, shape_with};
use crate::state::{shape, Answer, Call, ShortBase, State};
use std::cell::RefCell;

/// One call in so many is followed by a dump.
const DUMPED: u64 = 40;

pub fn run(seed: u64) -> Made {
    let script = RefCell::new(Script::default());
    let chance = RefCell::new(Chance::new(seed));
    let write = |call: &Call, state: &mut State| -> Answer {
        let mut script = script.borrow_mut();
        let answer = script.call(call, state);
        if matches!(call, Call::Recover) || chance.borrow_mut().one_in(DUMPED) {
            script.dump();
        }
        answer
    };
    let counts = runs::run(seed, &write).unwrap_or_else(|why| panic!("seed {seed}: {why}"));
    let cuts = counts.cuts;
    Made {
        kind: "cuts",
        seed,
        bytes: script.into_inner().into_bytes(),
        cuts,
    }
}

/// A script for each unit, with every cut of it.
pub fn scripts() -> Vec<Made> {
    let mut all = Vec::new();
    for (seed, (begin, start)) in (1..).zip(units()) {
        let mut script = Script::default();
        let cuts = each_cut(&mut script, begin, &start);
        all.push(Made {
            kind: "each-cut",
            seed,
            bytes: script.into_bytes(),
            cuts,
        });
    }
    all
}

/// A tree whose eight leaves are packed into a new place: 25 records.
pub const LARGEST_UNIT: &[ShortBase] = &[(
    7,
    &[
        (27, 0, &[0, 1]),
        (20, 3, &[4, 5]),
        (21, 6, &[6, 7]),
        (22, 8, &[8, 9]),
        (23, 10, &[10]),
        (26, 11, &[11, 12]),
        (24, 13, &[13, 14]),
        (25, 15, &[15, u32::MAX]),
    ],
)];

/// What begins a unit of each kind and shape, and where.
pub fn units() -> Vec<(Call, State)> {
    let mut units = tidying_units();
    units.extend(puts());
    units.extend(deletes());
    units
}

fn made(tree: &[ShortBase]) -> State {
    State::made(&shape(tree), 1, 0, Some(7))
}

fn tidying_units() -> Vec<(Call, State)> {
    let compact = Call::BeginCompact { fill: 15 };
    let trees: [(Call, &[ShortBase]); 5] = [
        (compact, &[(1, &[(8, 0, &[10, 20]), (9, 30, &[30])])]),
        (compact, LARGEST_UNIT),
        (Call::BeginOrder, &[(2, &[(63, 0, &[10, 20])])]),
        (
            Call::BeginOrder,
            &[(1, &[(9, 0, &[10, 20]), (8, 30, &[30])])],
        ),
        (
            Call::BeginOrder,
            &[(3, &[(9, 0, &[10, 20])]), (2, &[(8, 30, &[30])])],
        ),
    ];
    let start = |tree| State::made(&shape(tree), 1, 0, None);
    trees.map(|(begin, tree)| (begin, start(tree))).into()
}

/// The keys of a full leaf.
pub const FULL: &[u32] = &[
    10, 20, 30, 40, 50, 60, 70, 80, 90, 100, 110, 120, 130, 140, 150,
];

/// A put that replaces, one that adds, one that splits, the new record in the
/// lower half, its last, the upper half and at its end, and a first record.
fn puts() -> Vec<(Call, State)> {
    let thin = made(&[(1, &[(8, 0, &[10, 20]), (9, 30, &[30])])]);
    let low = made(&[(3, &[(20, 0, FULL), (21, 200, &[200])])]);
    let high = made(&[(7, &[(8, 0, FULL), (10, 151, &[u32::MAX])])]);
    let none = made(&[]);
    let keys = [
        (&thin, 20),
        (&thin, 25),
        (&thin, 0),
        (&thin, u32::MAX),
        (&low, 5),
        (&low, 75),
        (&high, 85),
        (&high, 150),
        (&high, 155),
        (&none, u32::MAX),
    ];
    let value = [0x5a; 10];
    let put = |(tree, key): (&State, u32)| (Call::Put, tree.lending(Row { key, value }));
    keys.map(put).into()
}

/// A delete that leaves a leaf, and those that empty one: with a neighbour on
/// its left, as the first entry, and as the only one of a base page with
/// another on its left, on its right, and of the last one.
fn deletes() -> Vec<(Call, State)> {
    let one_base: &[ShortBase] = &[(2, &[(9, 0, &[0]), (8, 30, &[30, 40]), (10, 50, &[55])])];
    let bases: &[ShortBase] = &[
        (5, &[(30, 0, &[3])]),
        (2, &[(9, 20, &[20]), (8, 30, &[30, 40])]),
        (7, &[(63, 50, &[u32::MAX])]),
    ];
    let last: &[ShortBase] = &[(4, &[(11, 0, &[9])])];
    let trees = [
        (one_base, 40),
        (one_base, 55),
        (one_base, 0),
        (bases, 20),
        (bases, u32::MAX),
        (bases, 3),
        (last, 9),
    ];
    let delete = |(tree, key)| (Call::Delete { key }, made(tree));
    trees.map(delete).into()
}

/// Every cut of the unit; returns how many.
fn each_cut(script: &mut Script, begin: Call, start: &State) -> u64 {
    let mut cuts = 0;
    // The states after each record, the start first.
    let mut states = vec![start.clone()];
    let mut state = start.clone();
    let mut call = begin;
    while script.call(&call, &mut state).reply == reply::DONE {
        script.dump();
        states.push(state.clone());
        call = Call::Step;
    }
    for (made, after) in states.iter().enumerate() {
        for flushed in [0, made / 2, made] {
            let mut state = after.clone();
            state.store.clone_from(&states[flushed].work);
            let found = state.read_log().records.len();
            cut_and_recover(script, &mut state, found);
            let after = state.read_log().records.len();
            cut_and_recover(script, &mut state, found + (after - found) / 2);
            cuts += 2;
        }
    }
    // All is in the store: the check record keeps LK.
    state.done(Call::Force);
    state.store.clone_from(&state.work);
    script.call(&Call::Checkpoint { clear: false }, &mut state);
    script.dump();
    cuts
}

/// What work pages and numbers are after a cut.
const RUBBISH: u8 = 0xd5;

fn cut_and_recover(script: &mut Script, state: &mut State, kept: usize) {
    state.cut(kept, |bytes| bytes.fill(RUBBISH));
    script.call(&Call::Recover, state);
    script.dump();
}

pub fn tidying(seed: u64) -> Made {
    let mut chance = Chance::new(seed);
    let state = largest(&mut chance);
    let mut tidy = Tidy {
        chance,
        script: Script::default(),
        state,
        cuts: 0,
    };
    let fill = tidy.chance.within(2, MOST_ROWS as u64) as u32;
    tidy.until_nothing(Call::BeginCompact { fill });
    // LK is cleared, and what was passed by comes again.
    tidy.settle(true);
    tidy.until_nothing(Call::BeginCompact { fill: 15 });
    tidy.until_nothing(Call::BeginOrder);
    tidy.settle(false);
    tidy.script.dump();
    Made {
        kind: "tidying",
        seed,
        bytes: tidy.script.into_bytes(),
        cuts: tidy.cuts,
    }
}

/// A tree with 56 leaves or nearly so, thin ones or of all sizes.
pub fn largest(chance: &mut Chance) -> State {
    let count = LEAVES.len() - chance.within(0, 3) as usize;
    let most = [1, 3, 8, MOST_ROWS as u64][chance.within(0, 3) as usize];
    let shape = shape_with(chance, count, LEAVES.len(), most);
    State::made(&shape, 1, 0, None)
}

pub struct Tidy {
    pub chance: Chance,
    pub script: Script,
    pub state: State,
    pub cuts: u64,
}

impl Tidy {
    pub fn call(&mut self, call: Call) -> u8 {
        let answer = self.script.call(&call, &mut self.state);
        if self.chance.one_in(DUMPED) {
            self.script.dump();
        }
        answer.reply
    }

    /// Units of this kind until there is none to choose.
    fn until_nothing(&mut self, begin: Call) {
        loop {
            match self.call(begin) {
                reply::DONE => self.finish(),
                reply::ROOM => self.settle(false),
                _ => return,
            }
        }
    }

    /// Steps to the unit's end, or a cut and a recovery that goes there.
    pub fn finish(&mut self) {
        while self.call(Call::Step) == reply::DONE {
            match self.chance.within(1, 60) {
                1..=3 => {
                    self.call(Call::Force);
                }
                4..=6 => {
                    let page = self.chance.within(0, PAGE_COUNT as u64 - 1) as u32;
                    self.call(Call::Flush { page });
                }
                7 => self.cut(),
                _ => {}
            }
        }
    }

    /// Keeps any whole number of records not below the forced ones.
    fn cut(&mut self) {
        let log = self.state.read_log();
        let forced = log
            .records
            .iter()
            .filter(|placed| placed.end as u32 <= self.state.numbers.forced);
        let (least, most) = (forced.count() as u64, log.records.len() as u64);
        let kept = self.chance.within(least, most) as usize;
        let chance = &mut self.chance;
        self.state.cut(kept, |bytes| chance.fill(bytes));
        self.cuts += 1;
        self.call(Call::Recover);
        self.script.dump();
    }

    /// Forces, flushes every page and makes a checkpoint.
    pub fn settle(&mut self, clear: bool) {
        self.call(Call::Force);
        for page in 0..PAGE_COUNT as u32 {
            self.call(Call::Flush { page });
        }
        self.call(Call::Checkpoint { clear });
    }
}
