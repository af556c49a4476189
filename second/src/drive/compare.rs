//! What the service answers to a script, part by part, and where another
//! answer first differs from it.

use crate::bench::{Command, Lengths, Next, Service, BAD};
use crate::bytes::PAGE_BYTES;
use crate::reply::Pair;
use crate::state::Call;
use std::fmt::Write;

/// What wrote a part of the answer.
#[derive(Clone, Copy, Debug)]
enum Writer {
    /// A call, with the length of its records or of its room.
    Call(Call, usize),
    Dump(Lengths),
    Bad,
}

struct Part {
    writer: Writer,
    /// Calls of the script up to here.
    calls: usize,
    from: usize,
}

/// The service's answer to a script.
pub struct Expected {
    output: Vec<u8>,
    parts: Vec<Part>,
}

/// Most bytes of a reply that are printed.
const MOST_PRINTED: usize = 16;

impl Expected {
    pub fn of(mut script: &[u8]) -> Expected {
        let mut service = Service::new(&Call::on);
        let mut answer = Expected {
            output: Vec::new(),
            parts: Vec::new(),
        };
        let mut calls = 0;
        loop {
            let from = answer.output.len();
            let writer = match Command::read(&mut script) {
                Next::End => return answer,
                Next::Bad => {
                    answer.output.push(BAD);
                    Writer::Bad
                }
                Next::Command(command) => {
                    let writer = writer(&command, &service);
                    service.run(command, &mut answer.output);
                    match writer {
                        Some(writer) => writer,
                        None => continue,
                    }
                }
            };
            calls += matches!(writer, Writer::Call(..)) as usize;
            answer.parts.push(Part {
                writer,
                calls,
                from,
            });
            if matches!(writer, Writer::Bad) {
                return answer;
            }
        }
    }

    /// Call and reply of each call.
    pub fn pairs(&self) -> impl Iterator<Item = Pair> + '_ {
        self.parts.iter().filter_map(|part| match part.writer {
            Writer::Call(call, _) => Some((call.name(), self.output[part.from])),
            _ => None,
        })
    }

    pub fn dumps(&self) -> usize {
        let dump = |part: &&Part| matches!(part.writer, Writer::Dump(_));
        self.parts.iter().filter(dump).count()
    }

    pub fn len(&self) -> usize {
        self.output.len()
    }

    /// Where another answer first differs, in words.
    pub fn difference(&self, got: &[u8]) -> Option<String> {
        let both = self.output.iter().zip(got);
        let at = match both.clone().position(|(expected, got)| expected != got) {
            Some(at) => at,
            None if self.output.len() == got.len() => return None,
            None => both.len(),
        };
        let next = self.parts.partition_point(|part| part.from <= at);
        if at >= self.output.len() || next == 0 {
            let more = got.len() - at;
            return Some(format!("{more} bytes after the last expected one"));
        }
        let part = &self.parts[next - 1];
        let to = self.parts.get(next).map_or(self.len(), |next| next.from);
        Some(match part.writer {
            Writer::Dump(lengths) => self.in_dump(part, &lengths, at, got),
            _ => self.in_reply(part, at, to, got),
        })
    }

    fn in_reply(&self, part: &Part, at: usize, to: usize, got: &[u8]) -> String {
        let what = match part.writer {
            Writer::Call(call, bytes) if call.lent().bytes => {
                format!("call {}, {call:?} with {bytes} bytes", part.calls)
            }
            Writer::Call(call, _) => format!("call {}, {call:?}", part.calls),
            _ => format!("a bad command after call {}", part.calls),
        };
        let printed = part.from..to.min(part.from + MOST_PRINTED);
        let expected = &self.output[printed.clone()];
        let got = &got[printed.start.min(got.len())..printed.end.min(got.len())];
        let offset = at - part.from;
        let mut text = format!("{what}: expected {expected:?}, got {got:?}");
        if offset >= MOST_PRINTED {
            // Writing to a string cannot fail.
            let _ = write!(text, ", first differing at byte {offset} of the reply");
        }
        text
    }

    fn in_dump(&self, part: &Part, lengths: &Lengths, at: usize, got: &[u8]) -> String {
        let mut offset = at - part.from;
        let buffers = [
            ("work", lengths.work),
            ("store", lengths.store),
            ("log", lengths.log),
            ("numbers", 8),
        ];
        let mut within = "numbers";
        for (name, length) in buffers {
            within = name;
            if offset < length {
                break;
            }
            offset -= length;
        }
        let page = match within {
            "work" | "store" => format!(
                " (page {}, byte {})",
                offset / PAGE_BYTES,
                offset % PAGE_BYTES
            ),
            _ => String::new(),
        };
        let last = self.last_call(part);
        let expected = self.output[at];
        let got = got.get(at).map_or("the end".to_string(), u8::to_string);
        format!("dump after call {last}: {within} offset {offset}{page}: expected {expected}, got {got}")
    }

    /// The call before a dump, with its number.
    fn last_call(&self, dump: &Part) -> String {
        let call = self.parts.iter().find_map(|part| match part.writer {
            Writer::Call(call, _) if part.calls == dump.calls => Some(call),
            _ => None,
        });
        match call {
            Some(call) => format!("{}, {call:?}", dump.calls),
            None => dump.calls.to_string(),
        }
    }
}

/// What the command is going to write, if anything.
fn writer(command: &Command, service: &Service) -> Option<Writer> {
    match command {
        Command::Call(call, bytes) => Some(Writer::Call(*call, bytes.len())),
        Command::Dump => Some(Writer::Dump(Lengths::of(service.state()))),
        _ => None,
    }
}
