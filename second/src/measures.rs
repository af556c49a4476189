//! What is measured of a bench: pairs of scripts that differ in one call, so
//! that the call's instructions are the difference; how much a whole tidying
//! writes; and what puts and deletes write.
//!
//! Two trees stand on the chip in falling order: the largest, 840 records in
//! 56 full leaves, and the same with 400 of its records left, drawn at random.
//! A short log has its check record alone. A log that is nearly full has whole
//! units, so many that the next does not fit; nothing of them is flushed. For
//! puts and deletes it has moves of page 8.

use crate::bench::Script;
use crate::bytes::{get32, LOG_BYTES, PAGE_BYTES, PAGE_COUNT};
use crate::chance::Chance;
use crate::drive::LARGEST_UNIT;
use crate::log::CHECK_BYTES;
use crate::page::{Row, LEAVES, MOST_ROWS, ROW_BYTES};
use crate::reply;
use crate::state::{record_bytes, row_bytes, shape, BaseShape, Call, LeafShape, ShortBase, State};
use std::fmt;
use std::io;
use std::path::Path;

const RECORDS: usize = 840;
const LEFT: usize = 400;
/// Leaves below one base page.
const UNDER: usize = 8;

/// Bytes free in a log that is nearly full of moves, where a compact unit must
/// still fit.
const FREE: usize = 1000;

/// A call on a state.
pub struct Measure {
    pub name: String,
    state: State,
    call: Call,
}

/// Writes the two scripts of each measure, `NUMBER.before` and
/// `NUMBER.after`, and the names, a line each, in `names`.
pub fn write_measures(place: &Path) -> io::Result<()> {
    let mut names = String::new();
    for (number, measure) in measures().into_iter().enumerate() {
        let mut before = Script::default();
        before.bring(&measure.state);
        let mut after = Script::default();
        let mut state = measure.state;
        let reply = after.call(&measure.call, &mut state).reply;
        std::fs::write(place.join(format!("{number}.before")), before.into_bytes())?;
        std::fs::write(place.join(format!("{number}.after")), after.into_bytes())?;
        names.push_str(&measure.name);
        if reply != reply::DONE {
            names.push_str(&format!(", refused with {reply}"));
        }
        names.push('\n');
    }
    std::fs::write(place.join("names"), names)
}

/// The tree of 840 records on the chip in falling order, with so many of them
/// left.
fn falling(left: usize) -> Vec<BaseShape> {
    let mut keys: Vec<u32> = (1..=RECORDS as u32).map(|key| 10 * key).collect();
    Chance::new(1).shuffle(&mut keys);
    keys.truncate(left);
    keys.sort();
    let mut shape: Vec<BaseShape> = Vec::new();
    for (place, page) in LEAVES.rev().enumerate() {
        let first = 10 * (MOST_ROWS * place) as u32;
        let here = first + 10..=first + 10 * MOST_ROWS as u32;
        let keys: Vec<u32> = keys
            .iter()
            .copied()
            .filter(|key| here.contains(key))
            .collect();
        if keys.is_empty() {
            continue;
        }
        if shape.last().is_none_or(|base| base.leaves.len() == UNDER) {
            shape.push(BaseShape {
                page: shape.len() as u16 + 1,
                leaves: Vec::new(),
            });
        }
        let base = shape.len() - 1;
        let entry = if place == 0 { 0 } else { keys[0] };
        shape[base].leaves.push(LeafShape { page, entry, keys });
    }
    shape
}

/// Packs where there is something to pack, else puts in order.
fn begin_any(state: &mut State) -> u8 {
    match (Call::BeginCompact { fill: 0 }).on(state).reply {
        reply::NOTHING => Call::BeginOrder.on(state).reply,
        reply => reply,
    }
}

/// The same tree with a log nearly full; and as it was before the last unit.
fn nearly_full(mut state: State) -> (State, State) {
    let mut before = state.clone();
    loop {
        let now = state.clone();
        if begin_any(&mut state) != reply::DONE {
            return (state, before);
        }
        before = now;
        state.finish();
    }
}

fn measures() -> Vec<Measure> {
    let mut all = Vec::new();
    for records in [RECORDS, LEFT] {
        let mut add = |name: &str, log: &str, state: &State, call: Call| {
            all.push(Measure {
                name: format!("{name}, {records} records, log {log}"),
                state: state.clone(),
                call,
            })
        };
        let start = State::made(&falling(records), 1, 0, None);
        let (full, last) = nearly_full(start.clone());
        let keys: Vec<u32> = (1..=records as u32).map(|key| 10 * key).collect();
        let mut unbuilt = State::zero();
        unbuilt.bytes = record_bytes(&keys);
        add("build", "none", &unbuilt, Call::Build { f: 15, g: 30 });
        let compact = Call::BeginCompact { fill: 0 };
        add("begin_compact", "short", &start, compact);
        let mut filled = start.clone();
        filled.fill_log(FREE);
        add("begin_compact", "nearly full", &filled, compact);
        for (log, state, fresh) in [("short", &start, &start), ("nearly full", &full, &last)] {
            add("begin_order", log, fresh, Call::BeginOrder);
            let mut begun = fresh.clone();
            begin_any(&mut begun);
            for (name, state) in steps_of(begun) {
                add(&name, log, &state, Call::Step);
            }
            add("force", log, state, Call::Force);
            let mut forced = state.clone();
            forced.done(Call::Force);
            add("flush", log, &forced, Call::Flush { page: 30 });
            forced.flush_all();
            add(
                "checkpoint",
                log,
                &forced,
                Call::Checkpoint { clear: false },
            );
            add("find", log, state, Call::Find { key: 4200 });
            let mut roomy = state.clone();
            roomy.bytes = vec![0; 16 * RECORDS];
            let (low, high) = (0, u32::MAX);
            add("list", log, &roomy, Call::List { low, high });
            add("recover", log, state, Call::Recover);
            add(
                "recover, a unit half done",
                log,
                &half_done(fresh),
                Call::Recover,
            );
        }
        for (log, state) in [("short", &start), ("nearly full", &filled)] {
            for (name, state, call) in saves_on(state) {
                add(&name, log, &state, call);
            }
        }
        let puts = full_of_puts(&start);
        add("find", "full of puts", &puts, Call::Find { key: 4200 });
        add("recover", "full of puts", &puts, Call::Recover);
    }
    all.push(Measure {
        name: "recover, the largest unit half done, 15 records, log short".to_string(),
        state: half_done(&State::made(&shape(LARGEST_UNIT), 1, 0, None)),
        call: Call::Recover,
    });
    all.extend(split_measures());
    all
}

/// A put that splits one of 55 full leaves.
fn split_measures() -> Vec<Measure> {
    let mut tree = falling(RECORDS);
    tree[0].leaves.pop();
    let split = State::made(&tree, 1, 0, None).lending(some_row(15));
    let mut open = split.clone();
    open.done(Call::Put);
    let steps = steps_of(open);
    let steps = steps.into_iter().map(|(step, state)| {
        let name = format!("put that splits, {step}");
        (name, state, Call::Step)
    });
    std::iter::once(("put that splits".to_string(), split, Call::Put))
        .chain(steps)
        .map(|(name, state, call)| Measure {
            name: format!("{name}, 825 records, log short"),
            state,
            call,
        })
        .collect()
}

/// The open unit before each kind of step comes first, each named by the mark
/// of the record that the step appends.
fn steps_of(mut state: State) -> Vec<(String, State)> {
    let mut kinds: Vec<(String, State)> = Vec::new();
    while state.read_log().open.is_some() {
        let before = state.clone();
        state.done(Call::Step);
        let at = before.numbers.used as usize;
        let name = format!("step {}", String::from_utf8_lossy(&state.log[at..at + 2]));
        if kinds.iter().all(|(kind, _)| *kind != name) {
            kinds.push((name, before));
        }
    }
    kinds
}

/// A record with a value of its own.
fn some_row(key: u32) -> Row {
    let value = *b"some value";
    Row { key, value }
}

/// The first key from 4,200 on.
fn middle_key(state: &State) -> u32 {
    let mut listed = state.clone();
    listed.set_check(1, 0, None);
    listed.bytes = vec![0; ROW_BYTES];
    listed.done(Call::List {
        low: 4200,
        high: u32::MAX,
    });
    get32(&listed.bytes, 2)
}

/// Puts and deletes in the midst of this tree, and the steps of the put that
/// replaces.
fn saves_on(state: &State) -> Vec<(String, State, Call)> {
    let key = middle_key(state);
    let replaces = state.lending(some_row(key));
    let adds = state.lending(some_row(key + 1));
    let mut open = replaces.clone();
    open.done(Call::Put);
    let mut saves = vec![
        ("put that replaces".to_string(), replaces, Call::Put),
        ("put that adds".to_string(), adds, Call::Put),
        ("delete".to_string(), state.clone(), Call::Delete { key }),
    ];
    for (step, state) in steps_of(open) {
        saves.push((format!("put that replaces, {step}"), state, Call::Step));
    }
    saves
}

/// The same tree with a log full of puts that replace one record, nothing of
/// them flushed.
fn full_of_puts(state: &State) -> State {
    let mut state = state.lending(some_row(middle_key(state)));
    while Call::Put.on(&mut state).reply == reply::DONE {
        state.finish();
    }
    state
}

/// The unit that begins here with half of its records, nothing flushed.
fn half_done(fresh: &State) -> State {
    let mut whole = fresh.clone();
    begin_any(&mut whole);
    let steps = whole.clone().finish();
    for _ in 0..steps / 2 {
        whole.done(Call::Step);
    }
    whole
}

/// What tidying has written.
#[derive(Default)]
pub struct Written {
    units: u64,
    records: u64,
    log: u64,
    pages: u64,
    checkpoints: u64,
}

/// Tidies 400 records left of 840 to the end: packs until nothing is left,
/// then puts in order until nothing is left. Where the log is full, and at the
/// end, it is forced, the pages that differ are flushed, and a checkpoint is
/// made. Returns the script too, with a dump at its end.
pub fn tidied() -> (Written, Vec<u8>) {
    let mut tidying = Tidying::on(State::made(&falling(LEFT), 1, 0, None));
    for begin in [Call::BeginCompact { fill: 0 }, Call::BeginOrder] {
        loop {
            match tidying.call(begin) {
                reply::DONE => tidying.finish(),
                reply::ROOM => tidying.settle(),
                _ => break,
            }
        }
    }
    tidying.settle();
    tidying.script.dump();
    (tidying.written, tidying.script.into_bytes())
}

struct Tidying {
    state: State,
    script: Script,
    written: Written,
}

impl Tidying {
    fn on(state: State) -> Tidying {
        Tidying {
            state,
            script: Script::default(),
            written: Written::default(),
        }
    }

    fn call(&mut self, call: Call) -> u8 {
        let used = self.state.numbers.used;
        let reply = self.script.call(&call, &mut self.state).reply;
        let grown = self.state.numbers.used.saturating_sub(used);
        self.written.log += grown as u64;
        self.written.records += (grown > 0) as u64;
        reply
    }

    fn finish(&mut self) {
        self.written.units += 1;
        while self.call(Call::Step) == reply::DONE {}
    }

    fn settle(&mut self) {
        self.call(Call::Force);
        for page in 0..PAGE_COUNT {
            let at = PAGE_BYTES * page..PAGE_BYTES * (page + 1);
            if self.state.work[at.clone()] != self.state.store[at] {
                self.call(Call::Flush { page: page as u32 });
                self.written.pages += 1;
            }
        }
        self.call(Call::Checkpoint { clear: false });
        self.written.checkpoints += 1;
        self.written.log += CHECK_BYTES as u64;
    }
}

impl Written {
    /// All bytes, to the log and to the store.
    fn bytes(&self) -> u64 {
        self.log + self.pages * PAGE_BYTES as u64
    }
}

impl fmt::Display for Written {
    fn fmt(&self, f: &mut fmt::Formatter) -> fmt::Result {
        let (units, records) = (self.units, self.records);
        writeln!(f, "units {units}, records appended {records}")?;
        let (log, checkpoints) = (self.log, self.checkpoints);
        writeln!(f, "bytes to the log {log}, checkpoints {checkpoints}")?;
        let pages = self.pages;
        let bytes = pages * PAGE_BYTES as u64;
        write!(f, "pages flushed {pages}, bytes to the store {bytes}")
    }
}

/// A full leaf's keys, and trees on which a put or a delete has each shape.
const FULL: &[u32] = &[1, 2, 3, 4, 5, 6, 7, 8, 9, 10, 11, 12, 13, 14, 15];
const THIN: &[ShortBase] = &[(1, &[(8, 0, &[10, 20]), (9, 30, &[30])])];
const BASES: &[ShortBase] = &[(1, &[(8, 0, &[10])]), (2, &[(9, 30, &[30])])];

/// What each shape writes: a put of the key, or a delete of it.
const SHAPES: [(&str, bool, u32, &[ShortBase]); 9] = [
    ("put that replaces", true, 20, THIN),
    ("put that adds", true, 25, THIN),
    ("put that splits", true, 16, &[(1, &[(8, 0, FULL)])]),
    ("put of a first record", true, 20, &[]),
    ("delete", false, 20, THIN),
    ("delete that empties a leaf", false, 30, THIN),
    ("delete that empties a base page", false, 30, BASES),
    ("delete that empties the first base page", false, 10, BASES),
    (
        "delete of the last record",
        false,
        5,
        &[(1, &[(8, 0, &[5])])],
    ),
];

/// What puts and deletes write, a line each.
pub fn saved() -> String {
    let mut text = String::new();
    for (name, put, key, tree) in SHAPES {
        let mut saving = Tidying::on(State::made(&shape(tree), 1, 0, None));
        saving.state.bytes = row_bytes(&[some_row(key)]);
        saving.call(if put { Call::Put } else { Call::Delete { key } });
        saving.finish();
        let log = saving.written.log;
        saving.settle();
        let (records, pages) = (saving.written.records, saving.written.pages);
        let fit = (LOG_BYTES - CHECK_BYTES) as u64 / log;
        text += &format!(
            "{name}: records {records}, bytes to the log {log}, so {fit} in an empty log; \
             with a checkpoint after it {pages} pages and {} bytes in all\n",
            saving.written.bytes()
        );
    }
    text += &format!(
        "{PUTS} puts, 400 records left of 840, any keys:\n{}",
        many_puts()
    );
    text
}

/// Puts whose average is taken.
const PUTS: u64 = 1000;

/// Puts of any keys of the 840, each forced; a checkpoint where the log is
/// full, and at the end.
fn many_puts() -> Written {
    let mut saving = Tidying::on(State::made(&falling(LEFT), 1, 0, None));
    let mut chance = Chance::new(1);
    while saving.written.units < PUTS {
        let key = 10 * chance.within(1, RECORDS as u64) as u32;
        saving.state.bytes = row_bytes(&[some_row(key)]);
        match saving.call(Call::Put) {
            reply::DONE => saving.finish(),
            reply::ROOM => saving.settle(),
            // No leaf page is empty: a leaf that is full takes no other key.
            _ => {}
        }
        saving.call(Call::Force);
    }
    saving.settle();
    saving.written
}
