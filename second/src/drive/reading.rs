//! Reading: build, find, list and the range reader alone. The plan, from a
//! seed:
//!
//! 1. a start: records built, up to 840; a tree made by hand on shuffled
//!    places under several base pages; or a small state after units, open or
//!    ended. Keys 0 and 4,294,967,295 are among them;
//! 2. finds of keys that are there, of their neighbours, of both ends of the
//!    range, and of any; lists with bounds crossed, equal, over all and any,
//!    with room for none, one, some, all, and no multiple of 16; walks of the
//!    range reader from such keys on, with such room;
//! 3. builds over it with fills and records in and out of range, marks and
//!    order broken;
//! 4. reads of the same with pages, log, numbers or a length harmed;
//! 5. a dump now and then: reading changes nothing.

use super::Made;
use crate::bench::{Script, MOST_BYTES};
use crate::chance::Chance;
use crate::harm::{harm_length, harm_log, harm_numbers, harm_pages, random_state};
use crate::page::{read_pages, LEAVES, MOST_ENTRIES, MOST_ROWS, ROW_BYTES};
use crate::reply;
use crate::runs::{random_shape, shape_with};
use crate::state::{record_bytes, Call, State};
use crate::tree;

/// Rounds of a script, each with some calls.
const ROUNDS: usize = 24;
const LAST: u32 = u32::MAX;

pub fn script(seed: u64) -> Made {
    let mut reader = Reader {
        chance: Chance::new(seed),
        script: Script::default(),
        state: State::zero(),
        keys: Vec::new(),
    };
    reader.start();
    for _ in 0..ROUNDS {
        reader.round();
    }
    reader.script.dump();
    Made {
        kind: "reading",
        seed,
        bytes: reader.script.into_bytes(),
        cuts: 0,
    }
}

struct Reader {
    chance: Chance,
    script: Script,
    state: State,
    /// The keys that are there, in order.
    keys: Vec<u32>,
}

impl Reader {
    fn start(&mut self) {
        let chance = &mut self.chance;
        match chance.within(1, 4) {
            1 => return self.build_whole(),
            2 => {
                let count = chance.within(0, LEAVES.len() as u64) as usize;
                let most = chance.within(1, MOST_ROWS as u64);
                let shape = shape_with(chance, count, LEAVES.len(), most);
                let (number, unit) = (chance.draw() as u32, chance.draw() as u32);
                self.state = State::made(&shape, number, unit, None);
            }
            3 => {
                let shape = random_shape(chance);
                let lk = Some(chance.draw() as u32);
                self.state = State::made(&shape, 1, 0, lk);
                self.state
                    .fill_log(4 * chance.within(0, 1000) as usize + 172);
            }
            _ => {
                self.state = random_state(chance);
                if !chance.one_in(4) {
                    // To the unit's end, if it can be reached.
                    while Call::Step.on(&mut self.state).reply == reply::DONE {}
                }
            }
        }
        self.learn();
    }

    /// Learns which keys are there.
    fn learn(&mut self) {
        let leaves = read_pages(&self.state.work).and_then(|pages| tree::leaves(&pages));
        let rows = leaves.into_iter().flatten().flat_map(|leaf| leaf.rows);
        self.keys = rows.map(|row| row.key).collect();
    }

    fn round(&mut self) {
        match self.chance.within(1, 10) {
            1..=4 => self.reads(24, None),
            5 => self.build(),
            _ => {
                let mut harmed = self.state.clone();
                self.harm(&mut harmed);
                self.reads(6, Some(harmed));
            }
        }
        if self.chance.one_in(4) {
            self.script.dump();
        }
    }

    fn harm(&mut self, state: &mut State) {
        let chance = &mut self.chance;
        match chance.within(1, 10) {
            1..=6 => harm_pages(chance, &mut state.work),
            7..=8 => harm_log(chance, state),
            9 => harm_numbers(chance, state),
            _ => harm_length(chance, state),
        }
    }

    /// Up to `most` reads of the whole state, or of a harmed one.
    fn reads(&mut self, most: u64, harmed: Option<State>) {
        let mut state = harmed.unwrap_or_else(|| self.state.clone());
        for _ in 0..self.chance.within(1, most) {
            let call = match self.chance.within(1, 6) {
                1..=2 => self.list(&mut state),
                3 => self.walk(&mut state),
                _ => Call::Find { key: self.key() },
            };
            self.script.call(&call, &mut state);
        }
    }

    /// A key that is there, or near one, or at an end, or any.
    fn key(&mut self) -> u32 {
        let chance = &mut self.chance;
        let there = match self.keys.len() as u64 {
            0 => chance.within(0, 9) as u32,
            count => self.keys[chance.within(0, count - 1) as usize],
        };
        match chance.within(1, 10) {
            1..=5 => there,
            6 => there.wrapping_add(1),
            7 => there.wrapping_sub(1),
            8 => 0,
            9 => LAST,
            _ => chance.draw() as u32,
        }
    }

    /// A list with its room in `state`.
    fn list(&mut self, state: &mut State) -> Call {
        let (low, high) = match self.chance.within(1, 6) {
            1 => (0, LAST),
            2 => {
                let key = self.key();
                (key, key)
            }
            3 => (0, self.key()),
            4 => (self.key(), LAST),
            _ => (self.key(), self.key()),
        };
        state.bytes = self.room(low, high);
        Call::List { low, high }
    }

    /// A walk with its room in `state`.
    fn walk(&mut self, state: &mut State) -> Call {
        let key = self.key();
        state.bytes = self.room(key, LAST);
        Call::Walk { key }
    }

    /// Room for none, one, some or all of the records from `low` to `high`.
    fn room(&mut self, low: u32, high: u32) -> Vec<u8> {
        let within = |key: &&u32| low <= **key && **key <= high;
        let all = ROW_BYTES * self.keys.iter().filter(within).count();
        let chance = &mut self.chance;
        let room = match chance.within(1, 8) {
            1 => 0,
            2 => ROW_BYTES,
            3 => chance.within(1, 40) as usize,
            4 => all,
            5 => all.saturating_sub(1),
            6 => all + chance.within(1, 40) as usize,
            7 => all / 2,
            _ => chance.within(0, 600) as usize,
        };
        vec![0; room.min(MOST_BYTES)]
    }

    /// Ascending keys, both ends of their range among them now and then.
    fn ascending(&mut self, count: u64) -> Vec<u32> {
        let chance = &mut self.chance;
        let wide = if chance.one_in(4) { 4_000_000 } else { 9 };
        let mut key = if chance.one_in(3) {
            0
        } else {
            chance.within(0, wide) as u32
        };
        let mut keys = Vec::new();
        for _ in 0..count {
            keys.push(key);
            key += chance.within(1, wide) as u32;
        }
        if let (Some(last), true) = (keys.last_mut(), chance.one_in(3)) {
            *last = LAST;
        }
        keys
    }

    /// A build that is accepted, of any number of records up to the most.
    fn build_whole(&mut self) {
        let f = match self.chance.within(1, 3) {
            1 => MOST_ROWS as u64,
            _ => self.chance.within(1, MOST_ROWS as u64),
        };
        let most = f * LEAVES.len() as u64;
        let count = match self.chance.within(1, 4) {
            1 => most,
            _ => self.chance.within(0, most),
        };
        let keys = self.ascending(count);
        let g = self.chance.within(8, MOST_ENTRIES as u64);
        self.state.bytes = record_bytes(&keys);
        let (f, g) = (f as u32, g as u32);
        self.script.call(&Call::Build { f, g }, &mut self.state);
        self.script.dump();
        self.keys = keys;
    }

    /// A build over what stands there, with anything wrong or nothing.
    fn build(&mut self) {
        let count = match self.chance.within(1, 3) {
            1 => self.chance.within(0, MOST_BYTES as u64 / 16),
            _ => self.chance.within(0, 60),
        };
        let keys = self.ascending(count);
        self.state.bytes = record_bytes(&keys);
        self.harm_records();
        let chance = &mut self.chance;
        let (mut f, mut g) = (chance.within(1, 15) as u32, chance.within(1, 30) as u32);
        match chance.within(1, 12) {
            1 => f = [0, 16, 256, LAST][chance.within(0, 3) as usize],
            2 => g = [0, 31, 256, LAST][chance.within(0, 3) as usize],
            3..=6 => (f, g) = (15, 30),
            _ => {}
        }
        self.script.call(&Call::Build { f, g }, &mut self.state);
        self.script.dump();
        self.learn();
    }

    /// Build's records with a wrong length, mark or order, as a rule none.
    fn harm_records(&mut self) {
        let (chance, bytes) = (&mut self.chance, &mut self.state.bytes);
        let records = bytes.len() / ROW_BYTES;
        if records < 2 {
            return;
        }
        let at = ROW_BYTES * chance.within(0, records as u64 - 2) as usize;
        match chance.within(1, 12) {
            1 => bytes.truncate(chance.within(0, bytes.len() as u64) as usize),
            2 => bytes[at + chance.within(0, 1) as usize] ^= 1 << chance.within(0, 7),
            3 => bytes[at..at + 2 * ROW_BYTES].rotate_left(ROW_BYTES),
            4 => bytes.copy_within(at..at + ROW_BYTES, at + ROW_BYTES),
            _ => {}
        }
    }
}
