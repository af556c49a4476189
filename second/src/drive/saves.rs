//! Saving. The plan, from a seed:
//!
//! 1. a start: no records, a small tree, or a crowded one;
//! 2. puts until there are enough or one is refused for want of a leaf: keys
//!    that ascend, that fall, or any, both ends of the range among them, one
//!    in four of them of a key that is there;
//! 3. a unit of tidying now and then;
//! 4. deletes in any order, on small trees until nothing is left, one in eight
//!    of a key that is not there; then puts again.
//!
//! Every unit goes to its end, by steps or by a cut and a recovery; where the
//! log is full every page is flushed and a checkpoint made.

use super::cuts::Tidy;
use super::Made;
use crate::bench::Script;
use crate::chance::Chance;
use crate::page::{read_pages, Row};
use crate::reply;
use crate::runs::{crowded_shape, random_shape};
use crate::state::{row_bytes, Call, State};
use crate::tree;

const LAST: u32 = u32::MAX;
/// Most puts in a row, and most deletes.
const MOST_PUTS: u64 = 260;
const MOST_DELETES: u64 = 120;

pub fn script(seed: u64) -> Made {
    let mut chance = Chance::new(seed);
    let state = match chance.within(1, 4) {
        1 => State::built(&[], 1, 1),
        2 => State::made(&crowded_shape(&mut chance), 1, 0, None),
        _ => State::made(&random_shape(&mut chance), 1, 0, Some(50)),
    };
    let mut saver = Saver(Tidy {
        chance,
        script: Script::default(),
        state,
        cuts: 0,
    });
    saver.puts();
    saver.deletes();
    saver.puts();
    saver.0.script.dump();
    Made {
        kind: "saving",
        seed,
        bytes: saver.0.script.into_bytes(),
        cuts: saver.0.cuts,
    }
}

struct Saver(Tidy);

impl Saver {
    /// The keys that are there.
    fn keys(&self) -> Vec<u32> {
        let leaves = read_pages(&self.0.state.work).and_then(|pages| tree::leaves(&pages));
        let rows = leaves.into_iter().flatten().flat_map(|leaf| leaf.rows);
        rows.map(|row| row.key).collect()
    }

    fn any_key(&mut self) -> Option<u32> {
        let keys = self.keys();
        let last = (keys.len() as u64).checked_sub(1)?;
        Some(keys[self.0.chance.within(0, last) as usize])
    }

    fn puts(&mut self) {
        let chance = &mut self.0.chance;
        let most = match chance.one_in(4) {
            true => MOST_PUTS,
            false => chance.within(1, 40),
        };
        let way = chance.within(1, 3);
        let mut key = chance.within(1000, 2000) as u32;
        for _ in 0..most {
            let step = self.0.chance.within(1, 3) as u32;
            key = match way {
                1 => key + step,
                2 => key - step,
                _ => self.0.chance.within(0, 2000) as u32,
            };
            let key = match self.0.chance.within(1, 40) {
                1 => 0,
                2 => LAST,
                3..=12 => self.any_key().unwrap_or(key),
                _ => key,
            };
            let mut value = [0; 10];
            self.0.chance.fill(&mut value);
            self.0.state.bytes = row_bytes(&[Row { key, value }]);
            if self.whole(Call::Put) == reply::CROWDED {
                return;
            }
            self.tidy();
        }
    }

    fn deletes(&mut self) {
        for _ in 0..MOST_DELETES {
            let Some(key) = self.any_key() else {
                return;
            };
            let off = self.0.chance.one_in(8) as u32;
            self.whole(Call::Delete {
                key: key.wrapping_add(off),
            });
            self.tidy();
        }
    }

    /// A whole unit, begun again where the log was full; returns the reply.
    fn whole(&mut self, begin: Call) -> u8 {
        let mut reply = self.0.call(begin);
        if reply == reply::ROOM {
            self.0.settle(false);
            reply = self.0.call(begin);
        }
        if reply == reply::DONE {
            self.0.finish();
        }
        reply
    }

    fn tidy(&mut self) {
        match self.0.chance.within(1, 50) {
            1 => self.whole(Call::BeginCompact { fill: 0 }),
            2 => self.whole(Call::BeginOrder),
            _ => return,
        };
    }
}
