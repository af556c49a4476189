//! Random runs of demand 3. A run starts from a build, or from a tree made by
//! hand that an accepted recovery over one check record lets in. Then:
//!
//! 1. any calls with any arguments, refused ones and wrong lengths too;
//! 2. cuts that keep any whole number of records not below the forced ones,
//!    several in a row; work pages and numbers become rubbish;
//! 3. recovery, with and without a cut, and cuts inside a recovery: some of
//!    the records it appended are kept.
//!
//! Every second run saves: most of its calls are puts and deletes, of keys
//! that are there, near them and at the ends of the range. Some trees are
//! crowded, some have a record or two or none; some numbers start near the
//! last one.
//!
//! After each recovery every clause of demand 3 is tested: reply 0, a
//! well-formed tree, the records of the start after the surviving begun puts
//! and deletes, every begun unit complete, work pages and log equal to those
//! of an uncut run of the surviving log from its check record, and a count
//! that is the log's growth, at most 25. In the uncut run puts and deletes are
//! calls: what the log holds of them is what they write.

use crate::bytes::{page_of_mut, Numbers, PAGE_COUNT};
use crate::chance::Chance;
use crate::log::{Begin, Log, Placed, Record, Type, CHECK_BYTES};
use crate::page::{read_pages, Row, BASES, LEAVES, MOST_ENTRIES, MOST_ROWS, ROW_BYTES};
use crate::state::{
    record_bytes, row, row_bytes, Answer, BaseShape, Call, LeafShape, State, Values,
};
use crate::{reply, tree, unit};
use std::collections::BTreeMap;
use std::fmt;

/// What makes the calls: the second program, or one with a planted fault.
pub type Program<'a> = dyn Fn(&Call, &mut State) -> Answer + 'a;

/// What says which records there are, from those at the check record and the
/// log.
pub type Judge<'a> = dyn Fn(&[Row], &Log) -> Vec<Row> + 'a;

/// Most records that a recovery may append: 25, of a put 4, of a delete 5.
fn most_appended(found: &Log) -> u32 {
    match found.open.as_ref().map(|open| open.begin.kind) {
        None => 0,
        Some(Type::Put) => 4,
        Some(Type::Delete) => 5,
        Some(_) => 25,
    }
}

/// What runs have done.
#[derive(Clone, Default, Debug, PartialEq, Eq)]
pub struct Counts {
    pub runs: u64,
    pub calls: u64,
    pub refused: u64,
    pub cuts: u64,
    pub recoveries: u64,
    pub appended: u64,
    pub compacts: u64,
    pub swaps: u64,
    pub moves: u64,
    pub puts: u64,
    pub deletes: u64,
    pub checkpoints: u64,
    pub pairs: BTreeMap<(&'static str, u8), u64>,
}

impl Counts {
    pub fn add(&mut self, other: &Counts) {
        self.runs += other.runs;
        self.calls += other.calls;
        self.refused += other.refused;
        self.cuts += other.cuts;
        self.recoveries += other.recoveries;
        self.appended += other.appended;
        self.compacts += other.compacts;
        self.swaps += other.swaps;
        self.moves += other.moves;
        self.puts += other.puts;
        self.deletes += other.deletes;
        self.checkpoints += other.checkpoints;
        for (pair, times) in &other.pairs {
            *self.pairs.entry(*pair).or_default() += times;
        }
    }
}

impl fmt::Display for Counts {
    fn fmt(&self, f: &mut fmt::Formatter) -> fmt::Result {
        writeln!(f, "runs {} calls {}", self.runs, self.calls)?;
        writeln!(f, "refused {} cuts {}", self.refused, self.cuts)?;
        writeln!(
            f,
            "recoveries {} appended {} checkpoints {}",
            self.recoveries, self.appended, self.checkpoints
        )?;
        writeln!(
            f,
            "units begun: compact {} swap {} move {} put {} delete {}",
            self.compacts, self.swaps, self.moves, self.puts, self.deletes
        )?;
        write!(f, "pairs of call and reply {}", self.pairs.len())
    }
}

/// Makes `count` runs from this seed on; a failure names the run's own seed.
pub fn runs(count: u64, seed: u64, program: &Program) -> Result<Counts, String> {
    let mut counts = Counts::default();
    for seed in (0..count).map(|i| seed.wrapping_add(i)) {
        let done = run(seed, program).map_err(|why| format!("seed {seed}: {why}"))?;
        counts.add(&done);
    }
    Ok(counts)
}

/// The records after all begun puts and deletes of this log, over those at its
/// check record, both in key order.
pub fn after_saves(rows: &[Row], log: &Log) -> Vec<Row> {
    let mut records: BTreeMap<u32, Row> = rows.iter().map(|row| (row.key, *row)).collect();
    for placed in &log.records {
        match &placed.record {
            Record::Begin(Begin {
                kind: Type::Put,
                row: Some(row),
                ..
            }) => records.insert(row.key, *row),
            Record::Begin(Begin {
                kind: Type::Delete,
                row: Some(row),
                ..
            }) => records.remove(&row.key),
            _ => None,
        };
    }
    records.into_values().collect()
}

/// One run.
pub fn run(seed: u64, program: &Program) -> Result<Counts, String> {
    judged_run(seed, program, &after_saves)
}

/// One run whose records this judge tells.
pub fn judged_run(seed: u64, program: &Program, judge: &Judge) -> Result<Counts, String> {
    let mut world = World {
        chance: Chance::new(seed),
        program,
        judge,
        saving: seed.is_multiple_of(2),
        counts: Counts::default(),
        state: State::zero(),
        origin: Vec::new(),
        rows: Vec::new(),
        forced: 0,
    };
    world.counts.runs = 1;
    world.start()?;
    for _ in 0..world.chance.within(20, 300) {
        world.act()?;
    }
    world.power()?;
    Ok(world.counts)
}

struct World<'a> {
    chance: Chance,
    program: &'a Program<'a>,
    judge: &'a Judge<'a>,
    /// Whether most calls are puts and deletes.
    saving: bool,
    counts: Counts,
    state: State,
    /// The pages when the log's check record was written.
    origin: Vec<u8>,
    /// The records at that moment, in key order.
    rows: Vec<Row>,
    /// How many of the log's records a call has forced.
    forced: usize,
}

fn ensure(good: bool, why: impl FnOnce() -> String) -> Result<(), String> {
    if good {
        Ok(())
    } else {
        Err(why())
    }
}

impl World<'_> {
    /// Makes one call, counts it, and tests that a refusal changes nothing.
    fn call(&mut self, call: Call) -> Result<Answer, String> {
        let before = self.state.clone();
        let answer = (self.program)(&call, &mut self.state);
        self.counts.calls += 1;
        let pair = (call.name(), answer.reply);
        *self.counts.pairs.entry(pair).or_default() += 1;
        if answer.reply != reply::DONE {
            self.counts.refused += 1;
            let lost = matches!(call, Call::Recover) && answer.reply != reply::LENGTH;
            let same = State {
                work: if lost {
                    vec![0; before.work.len()]
                } else {
                    before.work
                },
                ..before
            };
            ensure(self.state == same, || format!("{call:?} refused, changed"))?;
        }
        Ok(answer)
    }

    /// Sets the start: a build, or a tree made by hand and recovered.
    fn start(&mut self) -> Result<(), String> {
        if self.chance.one_in(3) {
            return self.build();
        }
        let shape = match self.chance.within(1, 8) {
            1 => crowded_shape(&mut self.chance),
            2 => {
                let count = self.chance.within(0, 2) as usize;
                shape_with(&mut self.chance, count, 4, 1)
            }
            _ => random_shape(&mut self.chance),
        };
        let number = self.early_or_late();
        let unit = self.early_or_late();
        let lk = self
            .chance
            .one_in(3)
            .then(|| self.chance.within(0, 200) as u32);
        self.state = State::made(&shape, number, unit, lk);
        for place in 0..PAGE_COUNT as u16 {
            let stamp = self.chance.within(0, number as u64) as u32;
            let page = page_of_mut(&mut self.state.store, place);
            page[4..8].copy_from_slice(&stamp.to_le_bytes());
        }
        self.origin = self.state.store.clone();
        let leaves = shape.iter().flat_map(|base| &base.leaves);
        self.rows = leaves
            .flat_map(|leaf| &leaf.keys)
            .map(|&k| row(k))
            .collect();
        self.forced = 1;
        self.rubbish();
        self.recover()
    }

    /// A log or unit number, now and then one near the last.
    fn early_or_late(&mut self) -> u32 {
        match self.chance.one_in(12) {
            true => u32::MAX - self.chance.within(0, 200) as u32,
            false => self.chance.within(0, 1000) as u32,
        }
    }

    /// A build, accepted or refused.
    fn build(&mut self) -> Result<(), String> {
        let few = self.chance.within(0, 40);
        let count = match self.chance.within(1, 20) {
            1 => self.chance.within(0, 841),
            _ => few,
        };
        let mut key = self.chance.within(0, 5) as u32;
        let mut keys = Vec::new();
        for _ in 0..count {
            keys.push(key);
            key += self.chance.within(1, 9) as u32;
        }
        let f = self.chance.within(1, 6) as u32;
        let g = self.chance.within(1, 9) as u32;
        self.state.bytes = record_bytes(&keys);
        let answer = self.call(Call::Build { f, g })?;
        if answer.reply == reply::DONE {
            self.origin = self.state.work.clone();
            self.rows = keys.iter().map(|&key| row(key)).collect();
            self.forced = 1;
        } else if self.origin.is_empty() {
            // A run needs a start: the smallest build is never refused.
            self.state.bytes.clear();
            self.call(Call::Build { f: 1, g: 1 })?;
            self.origin = self.state.work.clone();
            self.forced = 1;
        }
        Ok(())
    }

    /// One of the things that may happen.
    fn act(&mut self) -> Result<(), String> {
        if self.saving && self.chance.one_in(3) {
            return self.save();
        }
        match self.chance.within(1, 100) {
            1..=11 => {
                let fill = self.chance.within(0, 17) as u32;
                self.begin(Call::BeginCompact { fill }).map(|_| ())
            }
            12..=19 => self.begin(Call::BeginOrder).map(|_| ()),
            20..=22 => self.save(),
            23..=60 => self.call(Call::Step).map(|_| ()),
            61..=66 => self.force(),
            67..=76 => {
                let page = self.chance.within(0, 65) as u32;
                self.call(Call::Flush { page }).map(|_| ())
            }
            77..=78 => self.checkpoint(),
            79..=80 => self.settle(),
            81..=83 => self.find(),
            84..=85 => self.list(),
            86 => self.walk(),
            87..=89 => self.wrong_length(),
            90..=91 => self.wrong_numbers(),
            92 => {
                if self.chance.one_in(10) {
                    self.build()?;
                }
                Ok(())
            }
            _ => self.power(),
        }
    }

    /// A begin, counted; returns its reply.
    fn begin(&mut self, call: Call) -> Result<u8, String> {
        let reply = self.call(call)?.reply;
        if reply == reply::DONE {
            let log = self.log()?;
            match log.open.map(|open| open.begin.kind) {
                Some(Type::Compact) => self.counts.compacts += 1,
                Some(Type::Swap) => self.counts.swaps += 1,
                Some(Type::Move) => self.counts.moves += 1,
                Some(Type::Put) => self.counts.puts += 1,
                Some(Type::Delete) => self.counts.deletes += 1,
                None => return Err(format!("{call:?} accepted, no unit open")),
            }
        }
        Ok(reply)
    }

    /// Begins a put or a delete, and as a rule steps to its end. Where the log
    /// is full a checkpoint is made, as a rule.
    fn save(&mut self) -> Result<(), String> {
        let call = match self.chance.one_in(2) {
            true => Call::Delete { key: self.key()? },
            false => {
                self.lend_record()?;
                Call::Put
            }
        };
        match self.begin(call)? {
            reply::ROOM if !self.chance.one_in(3) => self.settle(),
            reply::DONE if !self.chance.one_in(4) => self.finish(),
            _ => Ok(()),
        }
    }

    /// Steps to the open unit's end: none is refused.
    fn finish(&mut self) -> Result<(), String> {
        while self.log()?.open.is_some() {
            let reply = self.call(Call::Step)?.reply;
            ensure(reply == reply::DONE, || format!("step refused: {reply}"))?;
        }
        Ok(())
    }

    /// The records that there are once the open unit has ended.
    fn records(&self) -> Result<Vec<Row>, String> {
        Ok((self.judge)(&self.rows, &self.log()?))
    }

    /// A key that is there, or near one, or at an end of the range.
    fn key(&mut self) -> Result<u32, String> {
        let rows = self.records()?;
        let chance = &mut self.chance;
        let there = match rows.len() as u64 {
            0 => chance.within(0, 9) as u32,
            count => rows[chance.within(0, count - 1) as usize].key,
        };
        Ok(match chance.within(1, 12) {
            1..=6 => there,
            7..=9 => there.wrapping_add(chance.within(1, 4) as u32),
            10 => chance.within(0, 400) as u32,
            11 => 0,
            _ => u32::MAX,
        })
    }

    /// Lends a put a record with any value.
    fn lend_record(&mut self) -> Result<(), String> {
        let key = self.key()?;
        let mut value = [0; 10];
        self.chance.fill(&mut value);
        self.state.bytes = row_bytes(&[Row { key, value }]);
        match self.chance.within(1, 40) {
            1 => self.state.bytes.truncate(15),
            2 => self.state.bytes.resize(2 * ROW_BYTES, 0),
            3 => self.state.bytes[1] = b'd',
            _ => {}
        }
        Ok(())
    }

    fn log(&self) -> Result<Log, String> {
        Log::read(&self.state.log).ok_or("log form broken".to_string())
    }

    fn force(&mut self) -> Result<(), String> {
        if self.call(Call::Force)?.reply == reply::DONE {
            self.forced = self.log()?.records.len();
        }
        Ok(())
    }

    fn checkpoint(&mut self) -> Result<(), String> {
        let clear = self.chance.one_in(2);
        let rows = self.records()?;
        if self.call(Call::Checkpoint { clear })?.reply == reply::DONE {
            self.counts.checkpoints += 1;
            self.origin = self.state.store.clone();
            self.rows = rows;
            self.forced = 1;
        }
        Ok(())
    }

    /// Forces, flushes every page and makes a checkpoint.
    fn settle(&mut self) -> Result<(), String> {
        self.force()?;
        for page in 0..PAGE_COUNT as u32 {
            self.call(Call::Flush { page })?;
        }
        self.checkpoint()
    }

    fn find(&mut self) -> Result<(), String> {
        let key = match self.chance.one_in(2) {
            true => self.key()?,
            false => self.chance.within(0, 400) as u32,
        };
        let answer = self.call(Call::Find { key })?;
        let rows = self.records()?;
        let row = rows.iter().find(|row| row.key == key);
        let right = match (answer.reply, row) {
            (reply::OPEN, _) => true,
            (reply::DONE, Some(row)) => answer.values == Values::Value(row.value),
            (reply::ABSENT, None) => true,
            _ => false,
        };
        ensure(right, || format!("find {key} gave {answer:?}"))
    }

    fn list(&mut self) -> Result<(), String> {
        let low = self.chance.within(0, 300) as u32;
        let high = self.chance.within(0, 400) as u32;
        let room = self.chance.within(0, 200) as usize;
        self.state.bytes = vec![0xaa; room];
        let answer = self.call(Call::List { low, high })?;
        if answer.reply == reply::OPEN {
            return Ok(());
        }
        let within = |row: &Row| low <= row.key && row.key <= high;
        let wanted: Vec<Row> = self.records()?.into_iter().filter(within).collect();
        let count = wanted.len().min(room / ROW_BYTES);
        let mut out = row_bytes(&wanted[..count]);
        out.resize(room, 0xaa);
        let values = Values::Listed(count as u32, wanted.len() > count);
        let right = answer.reply == reply::DONE && answer.values == values;
        ensure(right && self.state.bytes == out, || {
            format!("list {low} to {high} gave {answer:?}")
        })
    }

    /// A walk of the range reader gives the records; with a unit open the
    /// pages may be no tree.
    fn walk(&mut self) -> Result<(), String> {
        let key = self.chance.within(0, 400) as u32;
        let room = self.chance.within(0, 200) as usize;
        self.state.bytes = vec![0xaa; room];
        let answer = self.call(Call::Walk { key })?;
        if self.log()?.open.is_some() {
            return Ok(());
        }
        let mut wanted = self.records()?;
        wanted.retain(|row| key <= row.key);
        wanted.truncate(room / ROW_BYTES);
        let mut out = row_bytes(&wanted);
        out.resize(room, 0xaa);
        let values = Values::Walked(wanted.len() as u32);
        let right = answer.reply == reply::DONE && answer.values == values;
        ensure(right && self.state.bytes == out, || {
            format!("walk from {key} gave {answer:?}")
        })
    }

    /// Any call with any arguments; a put's record is lent.
    fn any_call(&mut self) -> Result<Call, String> {
        let number = match self.chance.within(1, 3) {
            1 => self.chance.draw() as u32,
            _ => self.chance.within(0, 70) as u32,
        };
        let other = self.chance.within(0, 70) as u32;
        Ok(match self.chance.within(1, 13) {
            1 => Call::Build {
                f: number,
                g: other,
            },
            2 => Call::Recover,
            3 => Call::BeginCompact { fill: number },
            4 => Call::BeginOrder,
            5 => Call::Step,
            6 => Call::Flush { page: number },
            7 => Call::Force,
            8 => Call::Checkpoint {
                clear: number % 2 == 1,
            },
            9 => Call::Find { key: number },
            10 => Call::Walk { key: number },
            11 => Call::Delete { key: number },
            12 => {
                self.lend_record()?;
                Call::Put
            }
            _ => Call::List {
                low: number,
                high: other,
            },
        })
    }

    /// Lends one buffer with a wrong length: the call is refused as 1.
    fn wrong_length(&mut self) -> Result<(), String> {
        let call = self.any_call()?;
        let kept = self.state.clone();
        let lent = call.lent();
        let buffer = loop {
            match self.chance.within(1, 3) {
                1 if lent.work => break &mut self.state.work,
                2 if lent.store => break &mut self.state.store,
                3 if lent.log => break &mut self.state.log,
                _ => {}
            }
        };
        let right = buffer.len();
        let wrong = match self.chance.within(1, 4) {
            1 => 0,
            2 => right + 1,
            3 => right - 1,
            _ => self.chance.within(0, right as u64 - 1) as usize,
        };
        buffer.resize(wrong, 0);
        let answer = self.call(call)?;
        self.state = kept;
        ensure(answer.reply == reply::LENGTH, || {
            format!("{call:?} with a wrong length gave {answer:?}")
        })
    }

    /// Lends numbers that do not fit the log: refused as 2, but for the two
    /// calls that set them and the one that is not lent any.
    fn wrong_numbers(&mut self) -> Result<(), String> {
        let call = self.any_call()?;
        if matches!(call, Call::Build { .. } | Call::Recover) || !call.lent().log {
            return Ok(());
        }
        let kept = self.state.numbers;
        let ends: Vec<u32> = self.log()?.records.iter().map(|r| r.end as u32).collect();
        let fits =
            |numbers: Numbers| ends.last() == Some(&numbers.used) && ends.contains(&numbers.forced);
        let numbers = &mut self.state.numbers;
        match self.chance.within(1, 4) {
            1 => numbers.used = numbers.used.wrapping_add(4),
            2 => numbers.forced = self.chance.within(0, 8200) as u32,
            3 => numbers.used = ends[self.chance.within(0, ends.len() as u64 - 1) as usize],
            _ => numbers.forced = self.chance.draw() as u32,
        }
        if fits(*numbers) {
            self.state.numbers = kept;
            return Ok(());
        }
        let answer = self.call(call)?;
        self.state.numbers = kept;
        ensure(answer.reply == reply::LOG, || {
            format!("{call:?} with wrong numbers gave {answer:?}")
        })
    }

    /// Fills work pages and numbers with rubbish.
    fn rubbish(&mut self) {
        let chance = &mut self.chance;
        chance.fill(&mut self.state.work);
        self.state.numbers = Numbers {
            used: chance.draw() as u32,
            forced: chance.draw() as u32,
        };
    }

    /// Keeps any whole number of records not below `least`.
    fn cut(&mut self, least: usize) -> Result<(), String> {
        let records = self.log()?.records.len();
        let kept = self.chance.within(least as u64, records as u64) as usize;
        let chance = &mut self.chance;
        self.state.cut(kept, |bytes| chance.fill(bytes));
        self.counts.cuts += 1;
        Ok(())
    }

    /// Cuts, perhaps several or none, then a recovery, perhaps cut itself.
    fn power(&mut self) -> Result<(), String> {
        for _ in 0..self.chance.within(0, 2) {
            self.cut(self.forced)?;
        }
        self.recover()?;
        while self.chance.one_in(3) {
            // Cut inside the recovery: what it found is forced, of what it
            // has appended any part is kept.
            self.cut(self.forced)?;
            if self.chance.one_in(3) {
                self.cut(self.forced)?;
            }
            self.recover()?;
        }
        Ok(())
    }

    /// A recovery, with every clause of demand 3 tested.
    fn recover(&mut self) -> Result<(), String> {
        let found = self.log()?;
        let uncut = self.uncut(&found)?;
        let store = self.state.store.clone();
        let answer = self.call(Call::Recover)?;
        let why = |what: &str| format!("recovery gave {answer:?}: {what}");
        ensure(answer.reply == reply::DONE, || why("refused"))?;
        let after = self.log()?;
        let growth = after.records.len().checked_sub(found.records.len());
        let growth = growth.ok_or_else(|| why("records of the log lost"))? as u32;
        ensure(answer.values == Values::Count(growth), || why("count"))?;
        ensure(growth <= most_appended(&found), || why("too many"))?;
        ensure(after.open.is_none(), || why("a unit is open"))?;
        let pages = read_pages(&self.state.work).ok_or_else(|| why("page form"))?;
        let leaves = tree::leaves(&pages).ok_or_else(|| why("tree"))?;
        let rows = leaves.iter().flat_map(|leaf| &leaf.rows);
        let wanted = (self.judge)(&self.rows, &found);
        ensure(rows.eq(&wanted), || why("records lost or made"))?;
        let numbers = Numbers {
            used: after.end() as u32,
            forced: found.end() as u32,
        };
        ensure(self.state.numbers == numbers, || why("numbers"))?;
        ensure(self.state.work == uncut.work, || why("work pages"))?;
        ensure(self.state.log == uncut.log, || why("log"))?;
        ensure(self.state.store == store, || why("store changed"))?;
        self.forced = found.records.len();
        self.counts.recoveries += 1;
        self.counts.appended += growth as u64;
        Ok(())
    }

    /// The surviving log run forward over the pages of its check record, its
    /// last unit finished by steps. Tidying is repeated record by record, puts
    /// and deletes are called again.
    fn uncut(&self, found: &Log) -> Result<State, String> {
        let mut state = State::zero();
        state.work = self.origin.clone();
        state.log[..CHECK_BYTES].copy_from_slice(&self.state.log[..CHECK_BYTES]);
        state.numbers = Numbers {
            used: CHECK_BYTES as u32,
            forced: CHECK_BYTES as u32,
        };
        let mut save = false;
        for placed in &found.records[1..] {
            if let Record::Begin(begin) = &placed.record {
                save = begin.row.is_some();
            }
            let forward = match save {
                true => called_again(&mut state, &placed.record),
                false => self.repeated(&mut state, found, placed),
            };
            forward.map_err(|reply| format!("record {} forward: {reply}", placed.number))?;
        }
        let mut open = found.open.is_some();
        while open {
            let reply = Call::Step.on(&mut state).reply;
            ensure(reply == reply::DONE, || format!("uncut step: {reply}"))?;
            let log = Log::read(&state.log).ok_or("uncut log")?;
            let last = log.records.last().map(|placed| &placed.record);
            open = !matches!(last, Some(Record::End { .. }));
        }
        Ok(state)
    }

    /// A record of the log as it stands there, and its page change.
    fn repeated(&self, state: &mut State, found: &Log, placed: &Placed) -> Result<(), u8> {
        let bytes = state.numbers.used as usize..placed.end;
        state.log[bytes.clone()].copy_from_slice(&self.state.log[bytes]);
        state.numbers.used = placed.end as u32;
        unit::apply(found, &mut state.work, placed.number, &placed.record)
    }
}

/// The call that writes this record of a put or a delete.
fn called_again(state: &mut State, record: &Record) -> Result<(), u8> {
    let call = match record {
        Record::Begin(Begin {
            kind: Type::Put,
            row: Some(row),
            ..
        }) => {
            state.bytes = row_bytes(&[*row]);
            Call::Put
        }
        Record::Begin(Begin { row: Some(row), .. }) => Call::Delete { key: row.key },
        _ => Call::Step,
    };
    match call.on(state).reply {
        reply::DONE => Ok(()),
        reply => Err(reply),
    }
}

/// A tree that is full or nearly so: no more than two leaf pages are empty, or
/// one base page has 29 or 30 entries; leaves of all sizes.
pub fn crowded_shape(chance: &mut Chance) -> Vec<BaseShape> {
    let most = MOST_ROWS as u64;
    if chance.one_in(2) {
        let count = LEAVES.len() - chance.within(0, 2) as usize;
        return shape_with(chance, count, LEAVES.len(), most);
    }
    let count = MOST_ENTRIES - chance.within(0, 1) as usize;
    let bases = shape_with(chance, count, LEAVES.len(), most);
    vec![BaseShape {
        page: bases[0].page,
        leaves: bases.into_iter().flat_map(|base| base.leaves).collect(),
    }]
}

/// A well-formed tree: thin leaves mostly, on shuffled places, under one or
/// several base pages.
pub fn random_shape(chance: &mut Chance) -> Vec<BaseShape> {
    let count = match chance.within(1, 20) {
        1 => 0,
        2 => chance.within(1, 56),
        3..=6 => chance.within(1, 24),
        _ => chance.within(1, 9),
    } as usize;
    let spread = match chance.within(1, 3) {
        1 => LEAVES.len(),
        _ => (count + chance.within(0, 6) as usize).min(LEAVES.len()),
    };
    let most = if chance.one_in(5) {
        MOST_ROWS as u64
    } else {
        4
    };
    shape_with(chance, count, spread, most)
}

/// A well-formed tree of `count` leaves, `most` records at most in each, on
/// the first `spread` leaf pages, shuffled as a rule; entry keys anywhere that
/// the tree allows.
pub fn shape_with(chance: &mut Chance, count: usize, spread: usize, most: u64) -> Vec<BaseShape> {
    let mut places: Vec<u16> = LEAVES.take(spread).collect();
    let mut bases: Vec<u16> = BASES.collect();
    if !chance.one_in(4) {
        chance.shuffle(&mut places);
    }
    chance.shuffle(&mut bases);
    let mut shape: Vec<BaseShape> = Vec::new();
    let mut next = chance.within(0, 3) as u32;
    for (i, &page) in places.iter().take(count).enumerate() {
        let least = next;
        let mut keys = Vec::new();
        for _ in 0..chance.within(1, most) {
            keys.push(next + chance.within(0, 6) as u32);
            next = keys[keys.len() - 1] + 1;
        }
        if i + 1 == count && chance.one_in(10) {
            keys.pop();
            keys.push(u32::MAX);
        }
        let entry = match i {
            0 => 0,
            _ => chance.within(least as u64, keys[0] as u64) as u32,
        };
        let leaf = LeafShape { page, entry, keys };
        // The bases left must be able to take the leaves left.
        let full = shape
            .last()
            .is_none_or(|base| base.leaves.len() == MOST_ENTRIES);
        let fits = count - i <= MOST_ENTRIES * (BASES.len() - shape.len());
        let another = fits && chance.one_in(6);
        if full || another {
            let page = bases[shape.len()];
            let leaves = vec![leaf];
            shape.push(BaseShape { page, leaves });
        } else if let Some(base) = shape.last_mut() {
            base.leaves.push(leaf);
        }
    }
    shape
}
