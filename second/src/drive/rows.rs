//! Document 01's rows through the program. The plan:
//!
//! 1. each call of each row, in the rows' order, on the state that the row
//!    says, and a dump after it;
//! 2. where that leaves no unit open, the six keys are looked for, all
//!    records listed, and those from 30 on walked through;
//! 3. for build, find, list and the range reader alone: the same with rows 1,
//!    10 and 11.

use super::{allowed, numbered, Made, Parts};
use crate::bench::Script;
use crate::log::Log;
use crate::state::{Call, State};
use crate::vectors::{row_cases, Case};

const READING_ROWS: [&str; 3] = ["row-1", "row-10", "row-11"];
const KEYS: [u32; 6] = [10, 20, 30, 40, 50, 60];
/// Room for seven records and a byte.
const ROOM: usize = 113;

pub fn scripts(reading: bool) -> Vec<Made> {
    let mut parts = Parts::default();
    let cases = row_cases();
    let wanted = |case: &&Case| {
        let row = !reading || READING_ROWS.contains(&case.label.as_str());
        row && allowed(case.call.name(), reading)
    };
    for case in cases.iter().filter(wanted) {
        let script = parts.next();
        let mut state = case.state.clone();
        script.call(&case.call, &mut state);
        script.dump();
        if Log::read(&state.log).is_some_and(|log| log.open.is_none()) {
            read(script, &mut state);
        }
    }
    numbered("rows", parts.close())
}

/// The six keys, the whole list, and a walk.
fn read(script: &mut Script, state: &mut State) {
    for key in KEYS {
        script.call(&Call::Find { key }, state);
    }
    state.bytes = vec![0; ROOM];
    let all = Call::List {
        low: 0,
        high: u32::MAX,
    };
    script.call(&all, state);
    state.bytes = vec![0; ROOM];
    script.call(&Call::Walk { key: KEYS[2] }, state);
}
