//! One set of buffers, the calls on it as values, and trees made by hand:
//! what runs, vectors and tests are written in.

use crate::bytes::{get32, page_of_mut, Numbers, LOG_BYTES, PAGES_BYTES, PAGE_COUNT};
use crate::calls;
use crate::log::{Begin, Log, Record, Type, CHECK_BYTES};
use crate::page::{Body, Entry, Page, Row, MOST_ROWS, ROW_BYTES};

/// A call with its arguments; `Walk` is the range reader, walked from a key
/// on. A build's records, and a put's, are lent.
#[derive(Clone, Copy, PartialEq, Eq, Debug)]
pub enum Call {
    Build { f: u32, g: u32 },
    Recover,
    BeginCompact { fill: u32 },
    BeginOrder,
    Put,
    Delete { key: u32 },
    Step,
    Flush { page: u32 },
    Force,
    Checkpoint { clear: bool },
    Find { key: u32 },
    List { low: u32, high: u32 },
    Walk { key: u32 },
}

/// What a call returns beside its reply.
#[derive(Clone, PartialEq, Eq, Debug)]
pub enum Values {
    Nothing,
    Count(u32),
    Value([u8; 10]),
    Listed(u32, bool),
    Walked(u32),
}

#[derive(Clone, PartialEq, Eq, Debug)]
pub struct Answer {
    pub reply: u8,
    pub values: Values,
}

/// The buffers that a call is lent. `bytes` is the records of build and of
/// put, or the room of list and of a walk.
#[derive(Clone, PartialEq, Eq, Debug)]
pub struct State {
    pub numbers: Numbers,
    pub work: Vec<u8>,
    pub store: Vec<u8>,
    pub log: Vec<u8>,
    pub bytes: Vec<u8>,
}

/// Which buffers a call is lent.
#[derive(Clone, Copy, PartialEq, Eq, Debug)]
pub struct Lent {
    pub work: bool,
    pub store: bool,
    pub log: bool,
    pub bytes: bool,
}

impl Call {
    pub fn name(&self) -> &'static str {
        match self {
            Call::Build { .. } => "build",
            Call::Recover => "recover",
            Call::BeginCompact { .. } => "begin_compact",
            Call::BeginOrder => "begin_order",
            Call::Put => "put",
            Call::Delete { .. } => "delete",
            Call::Step => "step",
            Call::Flush { .. } => "flush",
            Call::Force => "force",
            Call::Checkpoint { .. } => "checkpoint",
            Call::Find { .. } => "find",
            Call::List { .. } => "list",
            Call::Walk { .. } => "walk",
        }
    }

    /// The buffers lent; the numbers go along wherever the log does.
    pub fn lent(&self) -> Lent {
        let store = matches!(
            self,
            Call::Build { .. } | Call::Recover | Call::Flush { .. } | Call::Checkpoint { .. }
        );
        Lent {
            work: !matches!(self, Call::Force),
            store,
            log: !matches!(self, Call::Walk { .. }),
            bytes: self.has_records() || self.has_room(),
        }
    }

    /// Whether the call is lent records.
    pub fn has_records(&self) -> bool {
        matches!(self, Call::Build { .. } | Call::Put)
    }

    /// Whether the call writes records into a room.
    pub fn has_room(&self) -> bool {
        matches!(self, Call::List { .. } | Call::Walk { .. })
    }

    pub fn on(&self, state: &mut State) -> Answer {
        let State {
            numbers,
            work,
            store,
            log,
            bytes,
        } = state;
        let plain = |reply| Answer {
            reply,
            values: Values::Nothing,
        };
        match *self {
            Call::Build { f, g } => plain(calls::build(numbers, work, store, log, bytes, f, g)),
            Call::Recover => {
                let (reply, count) = calls::recover(numbers, work, store, log);
                let values = Values::Count(count);
                Answer { reply, values }
            }
            Call::BeginCompact { fill } => plain(calls::begin_compact(numbers, work, log, fill)),
            Call::BeginOrder => plain(calls::begin_order(numbers, work, log)),
            Call::Put => plain(calls::put(numbers, work, log, bytes)),
            Call::Delete { key } => plain(calls::delete(numbers, work, log, key)),
            Call::Step => plain(calls::step(numbers, work, log)),
            Call::Flush { page } => plain(calls::flush(numbers, work, store, log, page)),
            Call::Force => plain(calls::force(numbers, log)),
            Call::Checkpoint { clear } => {
                plain(calls::checkpoint(numbers, work, store, log, clear))
            }
            Call::Find { key } => {
                let (reply, value) = calls::find(numbers, work, log, key);
                let values = Values::Value(value);
                Answer { reply, values }
            }
            Call::List { low, high } => {
                let (reply, count, more) = calls::list(numbers, work, log, bytes, low, high);
                let values = Values::Listed(count, more);
                Answer { reply, values }
            }
            Call::Walk { key } => {
                let (reply, count) = calls::walk(work, bytes, key);
                let values = Values::Walked(count);
                Answer { reply, values }
            }
        }
    }
}

/// A leaf of a tree made by hand.
#[derive(Clone, PartialEq, Eq, Debug)]
pub struct LeafShape {
    pub page: u16,
    /// The key of the entry that points to it.
    pub entry: u32,
    pub keys: Vec<u32>,
}

/// A base page of a tree made by hand, with its leaves.
#[derive(Clone, PartialEq, Eq, Debug)]
pub struct BaseShape {
    pub page: u16,
    pub leaves: Vec<LeafShape>,
}

/// A record whose value is told by its key.
pub fn row(key: u32) -> Row {
    let mut value = [0; 10];
    for (i, byte) in (1u8..).zip(&mut value) {
        *byte = (key as u8).wrapping_add(i);
    }
    Row { key, value }
}

/// Such records as build takes them.
pub fn record_bytes(keys: &[u32]) -> Vec<u8> {
    let rows: Vec<Row> = keys.iter().map(|&key| row(key)).collect();
    row_bytes(&rows)
}

/// Any records as build and put take them and list gives them.
pub fn row_bytes(rows: &[Row]) -> Vec<u8> {
    let mut bytes = vec![0; ROW_BYTES * rows.len()];
    for (row, at) in rows.iter().zip(bytes.chunks_mut(ROW_BYTES)) {
        row.write(at);
    }
    bytes
}

/// The pages of a tree made by hand, all with this number.
pub fn pages_of(shape: &[BaseShape], number: u32) -> Vec<u8> {
    let mut pages = vec![0; PAGES_BYTES];
    for place in 1..PAGE_COUNT as u16 {
        put_page(&mut pages, place, number, Body::Empty);
    }
    let mut root = Vec::new();
    for base in shape {
        root.push(Entry {
            key: base.leaves[0].entry,
            page: base.page,
        });
        let mut entries = Vec::new();
        for leaf in &base.leaves {
            entries.push(Entry {
                key: leaf.entry,
                page: leaf.page,
            });
            let rows = leaf.keys.iter().map(|&key| row(key)).collect();
            put_page(&mut pages, leaf.page, number, Body::Leaf(rows));
        }
        put_page(&mut pages, base.page, number, Body::Base(entries));
    }
    put_page(&mut pages, 0, number, Body::Root(root));
    pages
}

/// Writes one page.
pub fn put_page(pages: &mut [u8], place: u16, number: u32, body: Body) {
    page_of_mut(pages, place).copy_from_slice(&Page { number, body }.write());
}

impl State {
    /// All buffers of the right length and zero.
    pub fn zero() -> State {
        State {
            numbers: Numbers::default(),
            work: vec![0; PAGES_BYTES],
            store: vec![0; PAGES_BYTES],
            log: vec![0; LOG_BYTES],
            bytes: Vec::new(),
        }
    }

    /// What build leaves of records with these keys.
    pub fn built(keys: &[u32], f: u32, g: u32) -> State {
        let mut state = State::zero();
        state.bytes = record_bytes(keys);
        let answer = Call::Build { f, g }.on(&mut state);
        assert_eq!(answer.reply, 0, "build of {} records", keys.len());
        state.bytes.clear();
        state
    }

    /// A tree made by hand with a log of this check record.
    pub fn made(shape: &[BaseShape], number: u32, unit: u32, lk: Option<u32>) -> State {
        let mut state = State::zero();
        state.work = pages_of(shape, 0);
        state.store = state.work.clone();
        state.set_check(number, unit, lk);
        state
    }

    /// Replaces the log by this check record.
    pub fn set_check(&mut self, number: u32, unit: u32, lk: Option<u32>) {
        self.log = vec![0; LOG_BYTES];
        self.log[..CHECK_BYTES].copy_from_slice(&Record::Check { unit, lk }.write(number));
        self.numbers = Numbers {
            used: CHECK_BYTES as u32,
            forced: CHECK_BYTES as u32,
        };
    }

    /// Writes a record after the log's end, whatever log form says of it.
    pub fn append(&mut self, number: u32, record: &Record) {
        let at = self.numbers.used as usize;
        let bytes = record.write(number);
        self.log[at..at + bytes.len()].copy_from_slice(&bytes);
        self.numbers.used += bytes.len() as u32;
    }

    /// Appends moves in log form, whatever the pages hold, until exactly
    /// `free` bytes are left.
    pub fn fill_log(&mut self, free: usize) {
        let log = self.read_log();
        let mut bytes = LOG_BYTES - log.end() - free;
        let (mut number, mut unit) = (log.last(), log.unit);
        // A move of `rows` records takes 132 bytes and 16 for each of them.
        let fits = |moves: usize, bytes: usize| {
            let least = 132 * moves;
            bytes >= least
                && (bytes - least).is_multiple_of(ROW_BYTES)
                && (moves..=MOST_ROWS * moves).contains(&((bytes - least) / ROW_BYTES))
        };
        let mut moves = (0..).find(|&moves| fits(moves, bytes)).unwrap_or(0);
        while moves > 0 {
            moves -= 1;
            let most = (1..=MOST_ROWS).rev();
            let size = |rows: usize| 132 + ROW_BYTES * rows;
            let rows = most
                .clone()
                .find(|&rows| bytes >= size(rows) && fits(moves, bytes - size(rows)))
                .unwrap_or(1);
            bytes -= size(rows);
            unit += 1;
            for record in a_move(unit, number + 2, rows as u32) {
                number += 1;
                self.append(number, &record);
            }
        }
        assert_eq!(self.numbers.used as usize + free, LOG_BYTES);
    }

    /// The same with this record lent to a put.
    pub fn lending(&self, row: Row) -> State {
        let bytes = row_bytes(&[row]);
        State {
            bytes,
            ..self.clone()
        }
    }

    /// Puts a record whose value is told by its key, to the unit's end; returns
    /// how many steps that took.
    pub fn put(&mut self, key: u32) -> usize {
        *self = self.lending(row(key));
        self.done(Call::Put);
        self.bytes.clear();
        self.finish()
    }

    /// Deletes a record, to the unit's end; returns how many steps that took.
    pub fn delete(&mut self, key: u32) -> usize {
        self.done(Call::Delete { key });
        self.finish()
    }

    /// Makes a call that must be accepted.
    pub fn done(&mut self, call: Call) {
        let answer = call.on(self);
        assert_eq!(answer.reply, 0, "{call:?}");
    }

    /// Steps until the open unit ends; returns how many steps that took.
    pub fn finish(&mut self) -> usize {
        let mut steps = 0;
        while self.read_log().open.is_some() {
            self.done(Call::Step);
            steps += 1;
        }
        steps
    }

    /// Forces the log and flushes every page.
    pub fn flush_all(&mut self) {
        self.done(Call::Force);
        for page in 0..PAGE_COUNT as u32 {
            self.done(Call::Flush { page });
        }
    }

    pub fn read_log(&self) -> Log {
        Log::read(&self.log).expect("a log in form")
    }

    /// Cuts the log to its first `kept` records. Work pages and numbers are
    /// lost with the power: they become `rubbish`.
    pub fn cut(&mut self, kept: usize, mut rubbish: impl FnMut(&mut [u8])) {
        let end = self.read_log().records[kept - 1].end;
        self.log[end..].fill(0);
        rubbish(&mut self.work);
        let mut numbers = [0; 8];
        rubbish(&mut numbers);
        self.numbers = Numbers {
            used: get32(&numbers, 0),
            forced: get32(&numbers, 4),
        };
    }
}

/// A whole move from page 8 to 9 with records of keys 1 and up, its out
/// record under the number `out`.
fn a_move(unit: u32, out: u32, rows: u32) -> [Record; 5] {
    let (org, dest) = (8, 9);
    let value = [0; 10];
    [
        Record::Begin(Begin {
            unit,
            kind: Type::Move,
            fill: 0,
            bases: vec![1],
            leaves: vec![org],
            destination: dest,
            row: None,
        }),
        Record::Out {
            org,
            dest,
            rows: (1..=rows).map(|key| Row { key, value }).collect(),
        },
        Record::In {
            org,
            dest,
            count: rows as u16,
            out,
        },
        Record::Modify {
            base: 1,
            old: org,
            new: dest,
            old_key: 0,
            new_key: 0,
        },
        Record::End { unit },
    ]
}

/// A leaf in short: page, entry key, keys.
pub type ShortLeaf<'a> = (u16, u32, &'a [u32]);
/// A base page in short: page, leaves.
pub type ShortBase<'a> = (u16, &'a [ShortLeaf<'a>]);

/// A tree written in short.
pub fn shape(bases: &[ShortBase]) -> Vec<BaseShape> {
    bases
        .iter()
        .map(|&(page, leaves)| BaseShape {
            page,
            leaves: leaves
                .iter()
                .map(|&(page, entry, keys)| LeafShape {
                    page,
                    entry,
                    keys: keys.to_vec(),
                })
                .collect(),
        })
        .collect()
}
