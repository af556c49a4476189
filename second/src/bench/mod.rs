//! The service bench: scripts of calls that a program reads from standard
//! input and answers on standard output, byte for byte. This file has the
//! commands and how they stand in a script; `service` answers them, `script`
//! writes them so that the bench stands where a caller wants it.
//!
//! | command | bytes after it |
//! |---|---|
//! | `w`, `s`, `g` | 16,384, 16,384, 8,192: work pages, store pages, log |
//! | `n` | used 4, forced 4 |
//! | `z` | lengths lent from now on: work 4, store 4, log 4 |
//! | `B` | leaf fill 4, base fill 4, length 4, that many bytes |
//! | `R`, `O`, `S`, `F`, `D` | none: recover, begin order, step, force, dump |
//! | `C`, `P`, `K`, `G` | fill 4; page 4; clear 1; key 4 |
//! | `L` | low 4, high 4, room 4 |
//! | `W` | key 4, room 4: a walk of the range reader |
//! | `U` | length 4, that many bytes: put |
//! | `X` | key 4: delete |
//!
//! A command that is unknown, cut short or out of its limits ends a script.

mod script;
mod service;

pub use script::Script;
pub use service::{serve, Service, BAD};

use crate::bytes::{Numbers, LOG_BYTES, PAGES_BYTES};
use crate::state::{Call, State};
use std::io::Read;

/// Most bytes of build's records, and of a room.
pub const MOST_BYTES: usize = 16_384;
/// Most bytes of a put's record.
pub const MOST_RECORD: usize = 64;
/// What a room is filled with before the call.
pub const ROOM_FILL: u8 = 170;

/// The lengths that the buffers are lent with, each at most one above the
/// right one.
#[derive(Clone, Copy, PartialEq, Eq, Debug)]
pub struct Lengths {
    pub work: usize,
    pub store: usize,
    pub log: usize,
}

impl Lengths {
    pub const RIGHT: Lengths = Lengths {
        work: PAGES_BYTES,
        store: PAGES_BYTES,
        log: LOG_BYTES,
    };

    pub fn of(state: &State) -> Lengths {
        Lengths {
            work: state.work.len(),
            store: state.store.len(),
            log: state.log.len(),
        }
    }

    fn allowed(&self) -> bool {
        let right = Lengths::RIGHT;
        self.work <= right.work + 1 && self.store <= right.store + 1 && self.log <= right.log + 1
    }
}

/// A command with all that stands after it.
#[derive(Clone, PartialEq, Eq, Debug)]
pub enum Command {
    Work(Vec<u8>),
    Store(Vec<u8>),
    Log(Vec<u8>),
    Numbers(Numbers),
    Lengths(Lengths),
    /// A call with the records of build or put, or with its room as it is
    /// before.
    Call(Call, Vec<u8>),
    Dump,
}

/// What stands next in a script.
pub enum Next {
    End,
    Command(Command),
    Bad,
}

impl Command {
    /// Reads the next command, and nothing after it.
    pub fn read(input: &mut impl Read) -> Next {
        let mut letter = [0];
        if input.read_exact(&mut letter).is_err() {
            return Next::End;
        }
        match Command::read_body(letter[0], input) {
            Some(command) => Next::Command(command),
            None => Next::Bad,
        }
    }

    fn read_body(letter: u8, input: &mut impl Read) -> Option<Command> {
        let plain = |call| Command::Call(call, Vec::new());
        Some(match letter {
            b'w' => Command::Work(take(input, PAGES_BYTES)?),
            b's' => Command::Store(take(input, PAGES_BYTES)?),
            b'g' => Command::Log(take(input, LOG_BYTES)?),
            b'n' => {
                let [used, forced] = take_numbers(input)?;
                Command::Numbers(Numbers { used, forced })
            }
            b'z' => {
                let [work, store, log] = take_numbers(input)?.map(|length| length as usize);
                let lengths = Lengths { work, store, log };
                Command::Lengths(Some(lengths).filter(Lengths::allowed)?)
            }
            b'B' => {
                let [f, g, length] = take_numbers(input)?;
                let records = take(input, within(length, MOST_BYTES)?)?;
                Command::Call(Call::Build { f, g }, records)
            }
            b'R' => plain(Call::Recover),
            b'C' => {
                let [fill] = take_numbers(input)?;
                plain(Call::BeginCompact { fill })
            }
            b'O' => plain(Call::BeginOrder),
            b'U' => {
                let [length] = take_numbers(input)?;
                let record = take(input, within(length, MOST_RECORD)?)?;
                Command::Call(Call::Put, record)
            }
            b'X' => {
                let [key] = take_numbers(input)?;
                plain(Call::Delete { key })
            }
            b'S' => plain(Call::Step),
            b'P' => {
                let [page] = take_numbers(input)?;
                plain(Call::Flush { page })
            }
            b'F' => plain(Call::Force),
            b'K' => match take(input, 1)?[0] {
                clear @ 0..=1 => plain(Call::Checkpoint { clear: clear == 1 }),
                _ => return None,
            },
            b'G' => {
                let [key] = take_numbers(input)?;
                plain(Call::Find { key })
            }
            b'L' => {
                let [low, high, room] = take_numbers(input)?;
                let room = vec![ROOM_FILL; within(room, MOST_BYTES)?];
                Command::Call(Call::List { low, high }, room)
            }
            b'W' => {
                let [key, room] = take_numbers(input)?;
                let room = vec![ROOM_FILL; within(room, MOST_BYTES)?];
                Command::Call(Call::Walk { key }, room)
            }
            b'D' => Command::Dump,
            _ => return None,
        })
    }

    /// The command as it stands in a script.
    pub fn write(&self) -> Vec<u8> {
        match self {
            Command::Work(pages) => written(b'w', &[], pages),
            Command::Store(pages) => written(b's', &[], pages),
            Command::Log(log) => written(b'g', &[], log),
            Command::Numbers(numbers) => written(b'n', &[numbers.used, numbers.forced], &[]),
            Command::Lengths(Lengths { work, store, log }) => {
                written(b'z', &[work, store, log].map(|&length| length as u32), &[])
            }
            Command::Call(call, bytes) => write_call(call, bytes),
            Command::Dump => written(b'D', &[], &[]),
        }
    }
}

fn write_call(call: &Call, bytes: &[u8]) -> Vec<u8> {
    let length = bytes.len() as u32;
    match *call {
        Call::Build { f, g } => written(b'B', &[f, g, length], bytes),
        Call::Recover => written(b'R', &[], &[]),
        Call::BeginCompact { fill } => written(b'C', &[fill], &[]),
        Call::BeginOrder => written(b'O', &[], &[]),
        Call::Put => written(b'U', &[length], bytes),
        Call::Delete { key } => written(b'X', &[key], &[]),
        Call::Step => written(b'S', &[], &[]),
        Call::Flush { page } => written(b'P', &[page], &[]),
        Call::Force => written(b'F', &[], &[]),
        Call::Checkpoint { clear } => written(b'K', &[], &[clear as u8]),
        Call::Find { key } => written(b'G', &[key], &[]),
        Call::List { low, high } => written(b'L', &[low, high, length], &[]),
        Call::Walk { key } => written(b'W', &[key, length], &[]),
    }
}

fn written(letter: u8, numbers: &[u32], bytes: &[u8]) -> Vec<u8> {
    let mut written = vec![letter];
    written.extend(numbers.iter().flat_map(|number| number.to_le_bytes()));
    written.extend(bytes);
    written
}

fn within(length: u32, most: usize) -> Option<usize> {
    Some(length as usize).filter(|&length| length <= most)
}

fn take(input: &mut impl Read, length: usize) -> Option<Vec<u8>> {
    let mut bytes = vec![0; length];
    input.read_exact(&mut bytes).ok()?;
    Some(bytes)
}

fn take_numbers<const N: usize>(input: &mut impl Read) -> Option<[u32; N]> {
    let mut numbers = [0; N];
    for number in &mut numbers {
        let mut bytes = [0; 4];
        input.read_exact(&mut bytes).ok()?;
        *number = u32::from_le_bytes(bytes);
    }
    Some(numbers)
}
