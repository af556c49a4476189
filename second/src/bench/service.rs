//! The service: one set of buffers, the commands on it, and what each writes.

use super::{Command, Lengths, Next};
use crate::runs::Program;
use crate::state::{Answer, Call, State, Values};
use std::io::{self, Read, Write};

/// What a bad command writes before the service ends.
pub const BAD: u8 = 255;

/// A buffer's bytes after those that are lent, up to one past its right
/// length.
#[derive(Default)]
struct Past {
    work: Vec<u8>,
    store: Vec<u8>,
    log: Vec<u8>,
}

/// The bench's buffers. `state` holds what is lent.
pub struct Service<'a> {
    program: &'a Program<'a>,
    state: State,
    past: Past,
}

impl<'a> Service<'a> {
    /// All buffers zero, numbers 0, lent with the right lengths.
    pub fn new(program: &'a Program<'a>) -> Service<'a> {
        let last = || vec![0];
        Service {
            program,
            state: State::zero(),
            past: Past {
                work: last(),
                store: last(),
                log: last(),
            },
        }
    }

    /// What the next call is lent.
    pub fn state(&self) -> &State {
        &self.state
    }

    /// Whole buffers, their first bytes those of `state`.
    pub fn whole(&self, state: &State) -> [Vec<u8>; 3] {
        let whole = |lent: &[u8], past: &[u8], right: usize| {
            let mut bytes = [lent, past].concat();
            bytes.truncate(right);
            bytes
        };
        let (past, right) = (&self.past, Lengths::RIGHT);
        [
            whole(&state.work, &past.work, right.work),
            whole(&state.store, &past.store, right.store),
            whole(&state.log, &past.log, right.log),
        ]
    }

    /// Makes one call; `bytes` are its records or its room.
    pub fn call(&mut self, call: &Call, bytes: Vec<u8>) -> Answer {
        self.state.bytes = bytes;
        (self.program)(call, &mut self.state)
    }

    /// Carries out a command and adds what it writes to `out`.
    pub fn run(&mut self, command: Command, out: &mut Vec<u8>) {
        let (state, past) = (&mut self.state, &mut self.past);
        match command {
            Command::Work(pages) => set(&mut state.work, &mut past.work, pages),
            Command::Store(pages) => set(&mut state.store, &mut past.store, pages),
            Command::Log(log) => set(&mut state.log, &mut past.log, log),
            Command::Numbers(numbers) => state.numbers = numbers,
            Command::Lengths(lengths) => {
                lend(&mut state.work, &mut past.work, lengths.work);
                lend(&mut state.store, &mut past.store, lengths.store);
                lend(&mut state.log, &mut past.log, lengths.log);
            }
            Command::Call(call, bytes) => {
                let answer = self.call(&call, bytes);
                write_answer(&answer, &self.state.bytes, out);
            }
            Command::Dump => write_dump(state, out),
        }
    }
}

/// Lends the first `length` bytes of a buffer from now on.
fn lend(lent: &mut Vec<u8>, past: &mut Vec<u8>, length: usize) {
    lent.append(past);
    *past = lent.split_off(length);
}

/// Sets a whole buffer; the byte past its end stays zero.
fn set(lent: &mut Vec<u8>, past: &mut Vec<u8>, bytes: Vec<u8>) {
    let length = lent.len();
    *lent = bytes;
    *past = vec![0];
    lend(lent, past, length);
}

fn write_answer(answer: &Answer, room: &[u8], out: &mut Vec<u8>) {
    out.push(answer.reply);
    match answer.values {
        Values::Nothing => {}
        Values::Count(count) => out.extend(count.to_le_bytes()),
        Values::Value(value) => out.extend(value),
        Values::Listed(count, more) => {
            out.extend(count.to_le_bytes());
            out.push(more as u8);
            out.extend(room);
        }
        Values::Walked(count) => {
            out.extend(count.to_le_bytes());
            out.extend(room);
        }
    }
}

fn write_dump(state: &State, out: &mut Vec<u8>) {
    for buffer in [&state.work, &state.store, &state.log] {
        out.extend(buffer);
    }
    out.extend(state.numbers.used.to_le_bytes());
    out.extend(state.numbers.forced.to_le_bytes());
}

/// Answers a whole script, command by command.
pub fn serve(mut input: impl Read, mut output: impl Write, program: &Program) -> io::Result<()> {
    let mut service = Service::new(program);
    let mut out = Vec::new();
    loop {
        out.clear();
        match Command::read(&mut input) {
            Next::End => return output.flush(),
            Next::Bad => {
                output.write_all(&[BAD])?;
                return output.flush();
            }
            Next::Command(command) => service.run(command, &mut out),
        }
        output.write_all(&out)?;
    }
}
