//! Call vectors: each line has all that a call is lent and all that it
//! leaves, so that another program can compute the same and compare. Most
//! states are small, since the other program may pay for every byte.
//!
//! A line has 17 fields with `;` between them: label, call, arguments, used,
//! forced, work, store, log, bytes (build's and put's records, list's out), then reply,
//! values, and the two numbers and four buffers after the call. A buffer that
//! is not lent is `-`, one that the call left as it was is `=`; otherwise it
//! is chunks with spaces between them: `zN` N zero bytes, `eN` N empty pages
//! with number 0, and bytes in decimal with commas. An empty buffer is `z0`.

mod fields;
mod plain;
mod saves;
mod steps;
mod units;

use crate::bytes::{page_of_mut, put16, put32, Numbers, LOG_BYTES, PAGES_BYTES};
use crate::bytes::{PAGE_BYTES, PAGE_COUNT};
use crate::chance::Chance;
use crate::log::{Begin, Record, Type};
use crate::page::{Body, Entry, Row};
use crate::runs::random_shape;
use crate::state::{
    put_page, record_bytes, row, row_bytes, shape, BaseShape, Call, LeafShape, ShortBase, State,
    Values,
};

/// A call with the state it is made on.
pub struct Case {
    pub label: String,
    pub call: Call,
    pub state: State,
}

/// The last log number and the last unit number.
const LAST: u32 = u32::MAX;
/// The seed of the random vectors.
const SEED: u64 = 2026;

/// All vectors, as lines.
pub fn vectors() -> String {
    cases().iter().map(line).collect()
}

/// All cases, in a fixed order.
pub fn cases() -> Vec<Case> {
    let mut cases = Cases(Vec::new());
    cases.rows();
    cases.compact_choices();
    cases.last_keys();
    cases.order_choices();
    cases.room();
    cases.numbers();
    cases.swaps();
    cases.recoveries();
    cases.repeats();
    cases.steps();
    cases.log_fields();
    cases.log_ends();
    cases.page_fields();
    cases.tree_fields();
    cases.finds();
    cases.lists();
    cases.builds();
    cases.checkpoints();
    cases.flushes();
    cases.lengths();
    cases.first_tests();
    cases.saves();
    cases.saves_refused();
    cases.saves_cut();
    cases.saves_forged();
    cases.saves_images();
    cases.saves_fields();
    cases.random();
    cases.0
}

/// The cases of the rows of "Numbers to try", in their order, each labelled
/// with its row.
pub fn row_cases() -> Vec<Case> {
    let mut cases = Cases(Vec::new());
    cases.rows();
    cases.0
}

/// The vector of one case, with its line end.
pub fn line(case: &Case) -> String {
    let before = &case.state;
    let mut after = before.clone();
    let answer = case.call.on(&mut after);
    let lent = case.call.lent();
    let first = |is_lent: bool, bytes: &[u8]| match is_lent {
        true => chunks(bytes),
        false => "-".to_string(),
    };
    let then = |is_lent: bool, old: &[u8], new: &[u8]| match is_lent && old == new {
        true => "=".to_string(),
        false => first(is_lent, new),
    };
    let fields = [
        case.label.clone(),
        case.call.name().to_string(),
        arguments(&case.call),
        before.numbers.used.to_string(),
        before.numbers.forced.to_string(),
        first(lent.work, &before.work),
        first(lent.store, &before.store),
        first(lent.log, &before.log),
        first(lent.bytes, &before.bytes),
        answer.reply.to_string(),
        values(&answer.values),
        after.numbers.used.to_string(),
        after.numbers.forced.to_string(),
        then(lent.work, &before.work, &after.work),
        then(lent.store, &before.store, &after.store),
        then(lent.log, &before.log, &after.log),
        then(lent.bytes, &before.bytes, &after.bytes),
    ];
    fields.join(";") + "\n"
}

fn arguments(call: &Call) -> String {
    match *call {
        Call::Build { f, g } => format!("{f} {g}"),
        Call::BeginCompact { fill } => fill.to_string(),
        Call::Flush { page } => page.to_string(),
        Call::Checkpoint { clear } => (clear as u8).to_string(),
        Call::Find { key } => key.to_string(),
        Call::List { low, high } => format!("{low} {high}"),
        Call::Walk { key } | Call::Delete { key } => key.to_string(),
        Call::Recover | Call::BeginOrder | Call::Put | Call::Step | Call::Force => String::new(),
    }
}

fn values(values: &Values) -> String {
    match values {
        Values::Nothing => String::new(),
        Values::Count(count) => count.to_string(),
        Values::Value(value) => value.map(|byte| byte.to_string()).join(" "),
        Values::Listed(count, more) => format!("{count} {}", *more as u8),
        Values::Walked(count) => count.to_string(),
    }
}

/// Shortest run of zeros that becomes a chunk of its own.
const ZEROS: usize = 6;

/// A buffer as chunks.
fn chunks(bytes: &[u8]) -> String {
    let mut empty = [0; PAGE_BYTES];
    empty[..2].copy_from_slice(b"pe");
    let mut chunks = Vec::new();
    let mut literal: Vec<String> = Vec::new();
    let mut at = 0;
    while at < bytes.len() {
        let rest = &bytes[at..];
        let pages = rest.chunks(PAGE_BYTES).take_while(|page| **page == empty);
        let pages = if at % PAGE_BYTES == 0 {
            pages.count()
        } else {
            0
        };
        let zeros = rest.iter().take_while(|&&byte| byte == 0).count();
        if pages == 0 && zeros < ZEROS {
            literal.push(rest[0].to_string());
            at += 1;
            continue;
        }
        if !literal.is_empty() {
            chunks.push(literal.join(","));
            literal.clear();
        }
        if pages > 0 {
            chunks.push(format!("e{pages}"));
            at += pages * PAGE_BYTES;
        } else {
            chunks.push(format!("z{zeros}"));
            at += zeros;
        }
    }
    if !literal.is_empty() {
        chunks.push(literal.join(","));
    }
    if chunks.is_empty() {
        chunks.push("z0".to_string());
    }
    chunks.join(" ")
}

/// The tree of row 1: leaves 8, 9 and 10 with two records each.
fn row_one() -> State {
    State::built(&[10, 20, 30, 40, 50, 60], 2, 30)
}

/// The tree of row 8: (10, 20) on 9 and (30) on 8.
fn row_eight() -> State {
    made(&[(1, &[(9, 0, &[10, 20]), (8, 30, &[30])])])
}

/// The tree of row 9: two leaves of two on 11 and 12.
fn row_nine() -> State {
    made(&[(1, &[(11, 0, &[10, 20]), (12, 30, &[30, 40])])])
}

fn made(bases: &[ShortBase]) -> State {
    State::made(&shape(bases), 1, 0, None)
}

/// The state after a call that is accepted.
fn after(state: &State, call: Call) -> State {
    let mut state = state.clone();
    state.done(call);
    state
}

/// The state after `steps` steps.
fn stepped(state: &State, steps: usize) -> State {
    let mut state = state.clone();
    for _ in 0..steps {
        state.done(Call::Step);
    }
    state
}

/// Power is lost after the log's first `kept` records.
fn cut(state: &State, kept: usize) -> State {
    let mut state = state.clone();
    state.cut(kept, |bytes| bytes.fill(0));
    state
}

/// A compact begin record.
fn compact(unit: u32, base: u16, leaves: &[u16], destination: u16) -> Record {
    Record::Begin(Begin {
        unit,
        kind: Type::Compact,
        fill: 12,
        bases: vec![base],
        leaves: leaves.to_vec(),
        destination,
        row: None,
    })
}

fn out(org: u16, dest: u16, keys: &[u32]) -> Record {
    let rows: Vec<Row> = keys.iter().map(|&key| row(key)).collect();
    Record::Out { org, dest, rows }
}

fn into(org: u16, dest: u16, count: u16, out: u32) -> Record {
    Record::In {
        org,
        dest,
        count,
        out,
    }
}

fn point(base: u16, old: u16, new: u16, key: u32) -> Record {
    Record::Modify {
        base,
        old,
        new,
        old_key: key,
        new_key: key,
    }
}

fn remove(base: u16, old: u16, key: u32) -> Record {
    Record::Modify {
        base,
        old,
        new: 0,
        old_key: key,
        new_key: 0,
    }
}

/// Appends the records under the numbers that follow the log's last.
fn append(state: &State, records: &[Record]) -> State {
    let mut state = state.clone();
    let mut number = state.read_log().last();
    for record in records {
        number = number.wrapping_add(1);
        state.append(number, record);
    }
    state
}

const COMPACT: Call = Call::BeginCompact { fill: 0 };
const ALL: Call = Call::List { low: 0, high: LAST };

struct Cases(Vec<Case>);

impl Cases {
    fn add(&mut self, label: &str, call: Call, state: &State) {
        self.0.push(Case {
            label: label.to_string(),
            call,
            state: state.clone(),
        });
    }

    /// The call with its effect, for one that is to be followed by others.
    fn then(&mut self, label: &str, call: Call, state: &mut State) {
        self.add(label, call, state);
        call.on(state);
    }

    /// Begins and makes every step of the unit.
    fn unit(&mut self, label: &str, begin: Call, state: &State) -> State {
        let mut state = state.clone();
        self.then(label, begin, &mut state);
        while state.read_log().open.is_some() {
            self.then(label, Call::Step, &mut state);
        }
        state
    }
}
