//! Damaged input. The plan:
//!
//! 1. all vectors, a dump after each: every pair of call and reply, every
//!    field of every kind of record and of page broken by itself, the order
//!    of two tests that both fail; where the call is a list, a walk of the
//!    range reader from its lower bound on too;
//! 2. at random: a small state after some calls, then something harmed (a
//!    bit, a byte, a field, rows or records swapped, lost, doubled or cut,
//!    images of puts and deletes, zero fields, numbers, garbage after the end,
//!    lengths) and any calls on it; what is accepted stays for the calls to
//!    come.

use super::{allowed, numbered, Made, Parts};
use crate::bench::Script;
use crate::chance::Chance;
use crate::harm::{any_call, harm, random_state, some_bytes};
use crate::reply;
use crate::state::Call;
use crate::vectors::{cases, Case};

pub fn scripts(reading: bool) -> Vec<Made> {
    let mut parts = Parts::default();
    let cases = cases();
    let wanted = |case: &&Case| allowed(case.call.name(), reading);
    for case in cases.iter().filter(wanted) {
        let script = parts.next();
        script.call(&case.call, &mut case.state.clone());
        script.dump();
        if let Call::List { low: key, .. } = case.call {
            script.call(&Call::Walk { key }, &mut case.state.clone());
        }
    }
    numbered("vectors", parts.close())
}

/// Harms in a script, each with some calls.
const HARMS: usize = 20;

pub fn script(seed: u64) -> Made {
    let mut chance = Chance::new(seed);
    let mut script = Script::default();
    let mut state = random_state(&mut chance);
    for _ in 0..HARMS {
        let mut lent = state.clone();
        harm(&mut chance, &mut lent);
        for _ in 0..chance.within(1, 5) {
            let call = any_call(&mut chance);
            lent.bytes = some_bytes(&mut chance, &call);
            let answer = script.call(&call, &mut lent);
            if answer.reply == reply::DONE {
                state.clone_from(&lent);
            }
            if chance.one_in(4) {
                script.dump();
            }
        }
        if chance.one_in(4) {
            state = random_state(&mut chance);
        }
    }
    script.dump();
    Made {
        kind: "damage",
        seed,
        bytes: script.into_bytes(),
        cuts: 0,
    }
}
