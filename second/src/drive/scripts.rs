//! Bad scripts: the program answers what stands before the bad command, then
//! 255, and nothing after it. The plan:
//!
//! 1. an empty script, and one that ends after a command;
//! 2. bytes that are no command, with commands after them;
//! 3. each command cut short after every byte, the long ones after some;
//! 4. numbers just out of their limits and far out; and just within;
//! 5. a script of some megabytes.

use super::{allowed, numbered, Made};
use crate::bench::{Command, Lengths, Script, MOST_BYTES, MOST_RECORD};
use crate::bytes::{put32, Numbers, LOG_BYTES, PAGES_BYTES};
use crate::state::{record_bytes, Call, State};

const NO_COMMANDS: [u8; 15] = [
    0, 1, b'\n', b' ', b'0', b'A', b'Y', b'b', b'd', b'r', b'x', 127, 128, 254, 255,
];
const LAST: u32 = u32::MAX;
/// Settings of all work pages in the script of some megabytes.
const MANY: usize = 250;

pub fn scripts(reading: bool) -> Vec<Made> {
    let mut all = vec![Vec::new(), before()];
    for byte in NO_COMMANDS {
        all.push(between(&[byte]));
    }
    for command in commands(reading) {
        let written = command.write();
        for length in cuts(written.len()) {
            all.push([before(), written[..length].to_vec()].concat());
        }
    }
    all.extend(limits(reading));
    all.push(many());
    numbered("scripts", all)
}

/// A good start: a small tree and one find.
fn before() -> Vec<u8> {
    let mut script = Script::default();
    let mut state = State::zero();
    state.bytes = record_bytes(&[10, 20, 30]);
    script.call(&Call::Build { f: 2, g: 2 }, &mut state);
    script.call(&Call::Find { key: 20 }, &mut state);
    script.into_bytes()
}

/// These bytes after the good start and before commands that would write.
fn between(bytes: &[u8]) -> Vec<u8> {
    let find = Command::Call(Call::Find { key: 30 }, Vec::new());
    let after = [find.write(), Command::Dump.write()].concat();
    [before(), bytes.to_vec(), after].concat()
}

/// A command of each letter that has bytes after it.
fn commands(reading: bool) -> Vec<Command> {
    let numbers = Numbers {
        used: 24,
        forced: 24,
    };
    let calls = [
        (Call::Build { f: 1, g: 1 }, record_bytes(&[1, 2])),
        (Call::BeginCompact { fill: 1 }, Vec::new()),
        (Call::Put, record_bytes(&[25])),
        (Call::Delete { key: 20 }, Vec::new()),
        (Call::Flush { page: 1 }, Vec::new()),
        (Call::Checkpoint { clear: true }, Vec::new()),
        (Call::Find { key: 1 }, Vec::new()),
        (Call::List { low: 1, high: 2 }, vec![0; 3]),
        (Call::Walk { key: 1 }, vec![0; 3]),
    ];
    let calls = calls
        .into_iter()
        .filter(|(call, _)| allowed(call.name(), reading))
        .map(|(call, bytes)| Command::Call(call, bytes));
    let mut all = vec![
        Command::Work(vec![1; PAGES_BYTES]),
        Command::Store(vec![1; PAGES_BYTES]),
        Command::Log(vec![1; LOG_BYTES]),
        Command::Numbers(numbers),
        Command::Lengths(Lengths::RIGHT),
    ];
    all.extend(calls);
    all
}

/// Where to cut a command of this length.
fn cuts(length: usize) -> Vec<usize> {
    if length < 100 {
        (1..length).collect()
    } else {
        vec![1, 2, length / 2, length - 1]
    }
}

/// Numbers at their limits and out of them.
fn limits(reading: bool) -> Vec<Vec<u8>> {
    let right = Lengths::RIGHT;
    let lengths = Command::Lengths(Lengths {
        work: right.work + 1,
        store: right.store + 1,
        log: right.log + 1,
    });
    let room = Command::Call(Call::List { low: 0, high: LAST }, vec![0; MOST_BYTES]);
    let walk = Command::Call(Call::Walk { key: 0 }, vec![0; MOST_BYTES]);
    let records = Command::Call(Call::Build { f: 1, g: 1 }, vec![0; MOST_BYTES]);
    // A command at its limits, and where the number stands that is changed.
    let mut at_limits = Vec::new();
    for (at, limit) in [(1, right.work), (5, right.store), (9, right.log)] {
        at_limits.push((lengths.write(), at, limit as u32 + 1));
    }
    at_limits.push((room.write(), 9, MOST_BYTES as u32));
    at_limits.push((walk.write(), 5, MOST_BYTES as u32));
    at_limits.push((records.write(), 9, MOST_BYTES as u32));
    if allowed("put", reading) {
        let put = Command::Call(Call::Put, record_bytes(&[5, 6, 7, 8]));
        at_limits.push((put.write(), 1, MOST_RECORD as u32));
    }
    let mut all = Vec::new();
    for (written, at, limit) in at_limits {
        all.push(between(&written));
        for number in [limit + 1, limit + 256, 0x8000_0000, LAST] {
            let mut changed = written.clone();
            put32(&mut changed, at, number);
            changed.push(0);
            all.push(between(&changed));
        }
    }
    if !reading {
        for clear in [0, 1, 2, 3, 128, 255] {
            all.push(between(&[b'K', clear]));
        }
    }
    all
}

/// The work pages set again and again, a find between.
fn many() -> Vec<u8> {
    let mut script = Script::default();
    let mut state = State::zero();
    state.bytes = record_bytes(&[10, 20, 30]);
    script.call(&Call::Build { f: 2, g: 2 }, &mut state);
    for key in 0..MANY {
        state.work[PAGES_BYTES - 1] = key as u8;
        script.call(&Call::Find { key: key as u32 }, &mut state);
    }
    script.dump();
    script.into_bytes()
}
