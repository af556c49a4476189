//! Wrong lengths. The plan: each call, on a state that it accepts and on one
//! with nothing in it, with each of the three buffers lent empty, with one
//! byte, one byte short and one byte long, those that the call is not lent
//! too; and with all three wrong. A dump at these lengths after each call.

use super::{allowed, numbered, Made, Parts};
use crate::bytes::{LOG_BYTES, PAGES_BYTES};
use crate::state::{record_bytes, row, Call, State};

/// Each call with a state that it accepts.
fn accepted() -> Vec<(Call, State)> {
    let built = State::built(&[10, 20, 30, 40, 50, 60], 2, 30);
    let mut open = built.clone();
    open.done(Call::BeginCompact { fill: 4 });
    let mut gap = open.clone();
    gap.finish();
    let mut lent = built.clone();
    lent.bytes = record_bytes(&[1, 2, 3]);
    let all = Call::List {
        low: 0,
        high: u32::MAX,
    };
    vec![
        (Call::Build { f: 2, g: 30 }, lent.clone()),
        (Call::Recover, open.clone()),
        (Call::BeginCompact { fill: 4 }, built.clone()),
        (Call::BeginOrder, gap),
        (Call::Put, built.lending(row(25))),
        (Call::Delete { key: 30 }, built.clone()),
        (Call::Step, open),
        (Call::Flush { page: 8 }, built.clone()),
        (Call::Force, built.clone()),
        (Call::Checkpoint { clear: true }, built.clone()),
        (Call::Find { key: 40 }, built),
        (all, lent.clone()),
        (Call::Walk { key: 20 }, lent),
    ]
}

/// The lengths to lend, work, store and log.
fn wrong() -> Vec<[usize; 3]> {
    let right = [PAGES_BYTES, PAGES_BYTES, LOG_BYTES];
    let mut lengths = vec![right, [0, 0, 0], right.map(|length| length + 1)];
    for buffer in 0..right.len() {
        for length in [0, 1, right[buffer] - 1, right[buffer] + 1] {
            let mut wrong = right;
            wrong[buffer] = length;
            lengths.push(wrong);
        }
    }
    lengths
}

pub fn scripts(reading: bool) -> Vec<Made> {
    let mut parts = Parts::default();
    let calls = accepted();
    for (call, good) in calls
        .iter()
        .filter(|(call, _)| allowed(call.name(), reading))
    {
        for state in [good, &State::zero()] {
            for [work, store, log] in wrong() {
                let mut state = state.clone();
                state.work.resize(work, 0);
                state.store.resize(store, 0);
                state.log.resize(log, 0);
                let script = parts.next();
                script.call(call, &mut state);
                script.dump();
            }
        }
    }
    numbered("lengths", parts.close())
}
