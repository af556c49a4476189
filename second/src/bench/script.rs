//! Writing scripts. A script is written call by call on states that its
//! writer keeps; the settings that bring the bench to such a state, and no
//! others, are put before the call.

use super::{Command, Lengths, Service, ROOM_FILL};
use crate::reply;
use crate::state::{Answer, Call, State};

/// A script, and the bench as it stands at its end.
pub struct Script {
    bytes: Vec<u8>,
    service: Service<'static>,
}

impl Default for Script {
    fn default() -> Script {
        Script {
            bytes: Vec::new(),
            service: Service::new(&Call::on),
        }
    }
}

impl Script {
    /// Sets what differs between the bench and `state`.
    pub fn bring(&mut self, state: &State) {
        let lengths = Lengths::of(state);
        if lengths != Lengths::of(self.service.state()) {
            self.put(Command::Lengths(lengths));
        }
        let [work, store, log] = self.service.whole(state);
        let now = self.service.state();
        let mut settings = Vec::new();
        if now.work != state.work {
            settings.push(Command::Work(work));
        }
        if now.store != state.store {
            settings.push(Command::Store(store));
        }
        if now.log != state.log {
            settings.push(Command::Log(log));
        }
        if now.numbers != state.numbers {
            settings.push(Command::Numbers(state.numbers));
        }
        for setting in settings {
            self.put(setting);
        }
    }

    fn put(&mut self, command: Command) {
        self.bytes.extend(command.write());
        self.service.run(command, &mut Vec::new());
    }

    /// Makes the call on `state`, and writes it so that the bench makes it on
    /// the same. A room is filled anew, as the bench does it; a byte lent past
    /// a buffer's right length must be zero.
    pub fn call(&mut self, call: &Call, state: &mut State) -> Answer {
        self.bring(state);
        let kept = std::mem::take(&mut state.bytes);
        let bytes = match call {
            call if call.has_records() => kept.clone(),
            call if call.has_room() => vec![ROOM_FILL; kept.len()],
            _ => Vec::new(),
        };
        let command = Command::Call(*call, bytes.clone());
        self.bytes.extend(command.write());
        let answer = self.service.call(call, bytes);
        state.clone_from(self.service.state());
        let written = call.has_room() && answer.reply == reply::DONE;
        if !written {
            state.bytes = kept;
        }
        answer
    }

    /// A dump of what the last call left.
    pub fn dump(&mut self) {
        self.put(Command::Dump);
    }

    pub fn len(&self) -> usize {
        self.bytes.len()
    }

    pub fn is_empty(&self) -> bool {
        self.bytes.is_empty()
    }

    pub fn into_bytes(self) -> Vec<u8> {
        self.bytes
    }
}
