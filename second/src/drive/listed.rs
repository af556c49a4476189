//! The listing program, compared with this one's listing. The plan:
//!
//! 1. the sample, and inputs of lengths that are wrong: none, one byte, one
//!    byte less or more than the right length, the store alone, twice all;
//! 2. a unit of each kind cut after each of its records, so that recovery
//!    finishes it before anything is listed;
//! 3. the largest trees, and none;
//! 4. what every vector of a recovery is lent: each of its replies;
//! 5. random states as they stand on the chip, every second one damaged.

use super::cuts;
use super::program::run;
use crate::chance::Chance;
use crate::harm::{harm, random_state};
use crate::listing::listing;
use crate::reply;
use crate::state::{Call, State};
use crate::vectors::{cases, Case};
use std::collections::BTreeMap;
use std::io;

/// Random states that are listed.
const RANDOM: u64 = 1500;
/// Largest trees that are listed.
const LARGEST: u64 = 20;

/// Runs the program on each image; true where it prints what it should.
pub fn drive_listing(program: &[String]) -> io::Result<bool> {
    let (mut passed, mut failed) = (0, 0);
    // How often each first word was wanted: a table's head, or a refusal.
    let mut first_lines: BTreeMap<String, u64> = BTreeMap::new();
    for (number, image) in images().iter().enumerate() {
        let expected = listing(image);
        let head = expected.lines().next().unwrap_or_default().to_string();
        *first_lines.entry(head).or_default() += 1;
        let got = run(program, image)?;
        if got.trouble.is_none() && got.output == expected.as_bytes() {
            passed += 1;
            continue;
        }
        failed += 1;
        let printed = String::from_utf8_lossy(&got.output);
        println!("image {number}: expected\n{expected}got\n{printed}");
    }
    println!("images {}:", passed + failed);
    for (head, times) in first_lines {
        println!("  {times} {head}");
    }
    println!("{passed} passed, {failed} failed");
    Ok(failed == 0)
}

/// Store then log after row 5 of "Numbers to try", every page flushed.
pub fn sample() -> Vec<u8> {
    let mut state = State::built(&[10, 20, 30, 40, 50, 60], 2, 30);
    state.done(Call::BeginCompact { fill: 4 });
    state.finish();
    state.done(Call::BeginOrder);
    state.finish();
    state.flush_all();
    image(&state)
}

fn image(state: &State) -> Vec<u8> {
    [&state.store[..], &state.log[..]].concat()
}

fn images() -> Vec<Vec<u8>> {
    let mut all = lengths();
    for (begin, start) in cuts::units() {
        all.extend(half_done(begin, start));
    }
    all.push(image(&State::built(&[], 1, 1)));
    for seed in 1..=LARGEST {
        all.push(image(&cuts::largest(&mut Chance::new(seed))));
    }
    let recovered = |case: &&Case| case.call == Call::Recover;
    all.extend(
        cases()
            .iter()
            .filter(recovered)
            .map(|case| image(&case.state)),
    );
    for seed in 1..=RANDOM {
        let mut chance = Chance::new(seed);
        let mut state = random_state(&mut chance);
        if seed.is_multiple_of(2) {
            harm(&mut chance, &mut state);
        }
        all.push(image(&state));
    }
    all
}

fn lengths() -> Vec<Vec<u8>> {
    let sample = sample();
    let (right, pages) = (sample.len(), State::zero().store.len());
    let twice = sample.repeat(2);
    let lengths = [right, 0, 1, right - 1, right + 1, pages, 2 * right];
    let cut = |&length: &usize| twice[..length].to_vec();
    lengths.iter().map(cut).collect()
}

/// The unit after each of its records, nothing of it flushed.
fn half_done(begin: Call, mut state: State) -> Vec<Vec<u8>> {
    let mut all = vec![image(&state)];
    let mut call = begin;
    while call.on(&mut state).reply == reply::DONE {
        all.push(image(&state));
        call = Call::Step;
    }
    all
}
