//! Log form: how a record stands in bytes, the steps that a begin record
//! gives, and reading a whole log record by record. A `Log` is always one in
//! form.

use crate::bytes::{all_zero, get16, get32, put16, put32, LOG_BYTES, PAGE_COUNT};
use crate::page::{read_rows, Page, Row, BASES, LEAVES, MOST_ROWS, ROW_BYTES};

const HEADER: usize = 12;
pub const CHECK_BYTES: usize = 24;
/// A begin record's bytes before the record that a put or a delete carries.
pub const BEGIN_BYTES: usize = 44;
/// An out record's bytes before its records.
pub const OUT_BYTES: usize = 20;
pub const IN_BYTES: usize = 24;
pub const MODIFY_BYTES: usize = 28;
pub const IMAGE_BYTES: usize = 272;
pub const END_BYTES: usize = 16;

/// A kind of log record.
struct Kind {
    mark: &'static [u8; 2],
    /// Its whole length, without the records that it carries.
    length: usize,
    /// Bytes of each record that it carries, 0 where it carries none.
    carried: usize,
}

/// The table of record kinds: all lengths, written and read, come from it.
const KINDS: [Kind; 7] = [
    kind(b"LC", CHECK_BYTES, 0),
    kind(b"LB", BEGIN_BYTES, ROW_BYTES),
    kind(b"LO", OUT_BYTES, ROW_BYTES),
    kind(b"LI", IN_BYTES, 0),
    kind(b"LM", MODIFY_BYTES, 0),
    kind(b"LG", IMAGE_BYTES, 0),
    kind(b"LE", END_BYTES, 0),
];

const fn kind(mark: &'static [u8; 2], length: usize, carried: usize) -> Kind {
    Kind {
        mark,
        length,
        carried,
    }
}

impl Kind {
    fn of(mark: &[u8]) -> Option<&'static Kind> {
        KINDS.iter().find(|kind| kind.mark == mark)
    }

    /// How many records a record of this kind and length carries.
    fn rows_in(&self, length: usize) -> Option<usize> {
        let more = length.checked_sub(self.length)?;
        match self.carried {
            0 => (more == 0).then_some(0),
            each => more.is_multiple_of(each).then_some(more / each),
        }
    }
}

const MOST_BASES: usize = 2;
const MOST_LEAVES: usize = 8;

/// The types of a unit, by their number in the begin record.
#[derive(Clone, Copy, PartialEq, Eq, Debug)]
pub enum Type {
    Compact = 1,
    Swap = 2,
    Move = 3,
    Put = 4,
    Delete = 5,
}

/// The body of a begin record: all that a unit is going to do.
#[derive(Clone, PartialEq, Eq, Debug)]
pub struct Begin {
    pub unit: u32,
    pub kind: Type,
    pub fill: u8,
    pub bases: Vec<u16>,
    pub leaves: Vec<u16>,
    /// 0 for a swap, a put and a delete.
    pub destination: u16,
    /// The record that a put or a delete carries, a delete's without a value.
    pub row: Option<Row>,
}

/// One step after the begin record, as the begin record gives it.
#[derive(Clone, Copy, PartialEq, Eq, Debug)]
pub enum Step {
    Out {
        org: u16,
        dest: u16,
    },
    /// Puts in what the out step at place `out` of the steps took.
    In {
        org: u16,
        dest: u16,
        out: usize,
    },
    /// Points an entry elsewhere, never the one that step `except` changed.
    Point {
        base: u16,
        old: u16,
        new: u16,
        except: Option<usize>,
    },
    Remove {
        base: u16,
        old: u16,
    },
    End,
}

impl Step {
    /// The page that the step changes.
    pub fn changed(&self) -> Option<u16> {
        match *self {
            Step::Out { org, .. } => Some(org),
            Step::In { dest, .. } => Some(dest),
            Step::Point { base, .. } | Step::Remove { base, .. } => Some(base),
            Step::End => None,
        }
    }
}

impl Begin {
    /// The begin record of a put or a delete: all page fields are zero.
    pub fn of_row(unit: u32, kind: Type, row: Row) -> Begin {
        Begin {
            unit,
            kind,
            fill: 0,
            bases: Vec::new(),
            leaves: Vec::new(),
            destination: 0,
            row: Some(row),
        }
    }

    /// The steps of the unit, in order, without the begin record itself; none
    /// for a put or a delete, whose steps follow from the pages.
    pub fn steps(&self) -> Vec<Step> {
        let mut steps = Vec::new();
        let Some(&base) = self.bases.first() else {
            return steps;
        };
        match self.kind {
            Type::Put | Type::Delete => return steps,
            Type::Compact => {
                let dest = self.destination;
                for &org in self.leaves.iter().filter(|&&leaf| leaf != dest) {
                    let out = steps.len();
                    steps.push(Step::Out { org, dest });
                    steps.push(Step::In { org, dest, out });
                }
                let first = self.leaves[0];
                if first != dest {
                    steps.push(Step::Point {
                        base,
                        old: first,
                        new: dest,
                        except: None,
                    });
                }
                for &old in &self.leaves[1..] {
                    steps.push(Step::Remove { base, old });
                }
            }
            Type::Move => {
                let (org, dest) = (self.leaves[0], self.destination);
                steps.push(Step::Out { org, dest });
                steps.push(Step::In { org, dest, out: 0 });
                steps.push(Step::Point {
                    base,
                    old: org,
                    new: dest,
                    except: None,
                });
            }
            Type::Swap => {
                let (a, b) = (self.leaves[0], self.leaves[1]);
                steps.push(Step::Out { org: a, dest: b });
                steps.push(Step::Out { org: b, dest: a });
                steps.push(Step::In {
                    org: b,
                    dest: a,
                    out: 1,
                });
                steps.push(Step::In {
                    org: a,
                    dest: b,
                    out: 0,
                });
                let one_base = self.bases.len() == 1;
                steps.push(Step::Point {
                    base: if one_base { base } else { self.bases[1] },
                    old: b,
                    new: a,
                    except: None,
                });
                steps.push(Step::Point {
                    base,
                    old: a,
                    new: b,
                    except: one_base.then_some(4),
                });
            }
        }
        steps.push(Step::End);
        steps
    }

    /// Whether the fields are those that a unit of this type may have.
    fn formed(&self) -> bool {
        let distinct = |pages: &[u16]| (1..pages.len()).all(|i| !pages[..i].contains(&pages[i]));
        let listed = self.bases.iter().all(|page| BASES.contains(page))
            && self.leaves.iter().all(|page| LEAVES.contains(page))
            && distinct(&self.bases)
            && distinct(&self.leaves);
        let (bases, leaves) = (self.bases.len(), self.leaves.len());
        let to_leaf = LEAVES.contains(&self.destination);
        let no_pages = (bases, leaves, self.fill, self.destination) == (0, 0, 0, 0);
        listed
            && match self.kind {
                Type::Put => no_pages && self.row.is_some(),
                Type::Delete => no_pages && self.row.is_some_and(|row| all_zero(&row.value)),
                _ if self.row.is_some() => false,
                Type::Compact => {
                    bases == 1
                        && (2..=MOST_LEAVES).contains(&leaves)
                        && (1..=MOST_ROWS).contains(&(self.fill as usize))
                        && to_leaf
                        && !self.leaves[1..].contains(&self.destination)
                }
                Type::Swap => {
                    (1..=MOST_BASES).contains(&bases)
                        && leaves == 2
                        && self.fill == 0
                        && self.destination == 0
                }
                Type::Move => {
                    bases == 1
                        && leaves == 1
                        && self.fill == 0
                        && to_leaf
                        && self.destination != self.leaves[0]
                }
            }
    }
}

/// A log record without its header.
#[derive(Clone, PartialEq, Eq, Debug)]
pub enum Record {
    Check {
        unit: u32,
        lk: Option<u32>,
    },
    Begin(Begin),
    Out {
        org: u16,
        dest: u16,
        rows: Vec<Row>,
    },
    In {
        org: u16,
        dest: u16,
        count: u16,
        out: u32,
    },
    Modify {
        base: u16,
        old: u16,
        new: u16,
        old_key: u32,
        new_key: u32,
    },
    /// A whole page as its put or delete is going to leave it.
    Image {
        page: u16,
        image: Page,
    },
    End {
        unit: u32,
    },
}

impl Record {
    /// The page that the record changes; the end of a put or a delete changes
    /// the pages of its images.
    pub fn changed(&self) -> Option<u16> {
        match *self {
            Record::Out { org, .. } => Some(org),
            Record::In { dest, .. } => Some(dest),
            Record::Modify { base, .. } => Some(base),
            _ => None,
        }
    }

    /// The record's kind in the table, and how many records it carries.
    fn kind(&self) -> (&'static Kind, usize) {
        let [check, begin, out, into, modify, image, end] = &KINDS;
        match self {
            Record::Check { .. } => (check, 0),
            Record::Begin(body) => (begin, body.row.iter().len()),
            Record::Out { rows, .. } => (out, rows.len()),
            Record::In { .. } => (into, 0),
            Record::Modify { .. } => (modify, 0),
            Record::Image { .. } => (image, 0),
            Record::End { .. } => (end, 0),
        }
    }

    /// The record's bytes under this log number.
    pub fn write(&self, number: u32) -> Vec<u8> {
        let (kind, rows) = self.kind();
        let length = kind.length + kind.carried * rows;
        let mut bytes = vec![0; length];
        bytes[..2].copy_from_slice(kind.mark);
        put16(&mut bytes, 2, length as u16);
        put32(&mut bytes, 4, number);
        if !matches!(self, Record::Check { .. } | Record::Begin(_)) {
            put32(&mut bytes, 8, number.saturating_sub(1));
        }
        let body = &mut bytes[HEADER..];
        match self {
            Record::Check { unit, lk } => {
                put32(body, 0, *unit);
                body[4] = lk.is_some() as u8;
                put32(body, 8, lk.unwrap_or(0));
            }
            Record::Begin(begin) => {
                put32(body, 0, begin.unit);
                body[4] = begin.kind as u8;
                body[5] = begin.fill;
                body[6] = begin.bases.len() as u8;
                body[7] = begin.leaves.len() as u8;
                for (i, &page) in begin.bases.iter().enumerate() {
                    put16(body, 8 + 2 * i, page);
                }
                for (i, &page) in begin.leaves.iter().enumerate() {
                    put16(body, 12 + 2 * i, page);
                }
                put16(body, 28, begin.destination);
                if let Some(row) = &begin.row {
                    row.write(&mut body[32..]);
                }
            }
            Record::Out { org, dest, rows } => {
                put16(body, 0, *org);
                put16(body, 2, *dest);
                put16(body, 4, rows.len() as u16);
                for (row, at) in rows.iter().zip(body[8..].chunks_mut(ROW_BYTES)) {
                    row.write(at);
                }
            }
            Record::In {
                org,
                dest,
                count,
                out,
            } => {
                put16(body, 0, *org);
                put16(body, 2, *dest);
                put16(body, 4, *count);
                put32(body, 8, *out);
            }
            Record::Modify {
                base,
                old,
                new,
                old_key,
                new_key,
            } => {
                put16(body, 0, *base);
                put16(body, 2, *old);
                put16(body, 4, *new);
                put32(body, 8, *old_key);
                put32(body, 12, *new_key);
            }
            Record::Image { page, image } => {
                put16(body, 0, *page);
                body[4..].copy_from_slice(&image.write());
            }
            Record::End { unit } => put32(body, 0, *unit),
        }
        bytes
    }
}

/// A record's header beside its mark.
struct Header {
    length: usize,
    number: u32,
    previous: u32,
}

/// The record at the start of `rest`, field by field. What the place in its
/// unit asks of it is tested later, by `Log::may_follow`.
fn read_record(rest: &[u8]) -> Option<(Header, Record)> {
    if rest.len() < HEADER {
        return None;
    }
    let header = Header {
        length: get16(rest, 2) as usize,
        number: get32(rest, 4),
        previous: get32(rest, 8),
    };
    if header.length < HEADER || header.length > rest.len() {
        return None;
    }
    let kind = Kind::of(&rest[..2])?;
    let rows = kind.rows_in(header.length)?;
    let body = &rest[HEADER..header.length];
    let record = match kind.mark {
        b"LC" => read_check(body)?,
        b"LB" => Record::Begin(read_begin(body, rows)?),
        b"LO" => {
            let counted = get16(body, 4) as usize == rows;
            if !counted || !(1..=MOST_ROWS).contains(&rows) || !all_zero(&body[6..8]) {
                return None;
            }
            Record::Out {
                org: get16(body, 0),
                dest: get16(body, 2),
                rows: read_rows(&body[8..], rows)?,
            }
        }
        b"LI" if all_zero(&body[6..8]) => Record::In {
            org: get16(body, 0),
            dest: get16(body, 2),
            count: get16(body, 4),
            out: get32(body, 8),
        },
        b"LM" if all_zero(&body[6..8]) => Record::Modify {
            base: get16(body, 0),
            old: get16(body, 2),
            new: get16(body, 4),
            old_key: get32(body, 8),
            new_key: get32(body, 12),
        },
        b"LG" if all_zero(&body[2..4]) => {
            let page = get16(body, 0);
            if page as usize >= PAGE_COUNT {
                return None;
            }
            let image = Page::read(page, &body[4..])?;
            Record::Image { page, image }
        }
        b"LE" => Record::End {
            unit: get32(body, 0),
        },
        _ => return None,
    };
    Some((header, record))
}

fn read_check(body: &[u8]) -> Option<Record> {
    let key = get32(body, 8);
    let lk = match body[4] {
        0 if key == 0 => None,
        1 => Some(key),
        _ => return None,
    };
    let unit = get32(body, 0);
    all_zero(&body[5..8]).then_some(Record::Check { unit, lk })
}

/// A begin record that carries so many records.
fn read_begin(body: &[u8], rows: usize) -> Option<Begin> {
    let kind = match body[4] {
        1 => Type::Compact,
        2 => Type::Swap,
        3 => Type::Move,
        4 => Type::Put,
        5 => Type::Delete,
        _ => return None,
    };
    let row = match rows {
        0 => None,
        1 => Some(Row::read(&body[32..])?),
        _ => return None,
    };
    let (bases, leaves) = (body[6] as usize, body[7] as usize);
    if bases > MOST_BASES || leaves > MOST_LEAVES {
        return None;
    }
    let unused = [&body[8 + 2 * bases..12], &body[12 + 2 * leaves..28]];
    if !unused.into_iter().all(all_zero) || !all_zero(&body[30..32]) {
        return None;
    }
    let begin = Begin {
        unit: get32(body, 0),
        kind,
        fill: body[5],
        bases: (0..bases).map(|i| get16(body, 8 + 2 * i)).collect(),
        leaves: (0..leaves).map(|i| get16(body, 12 + 2 * i)).collect(),
        destination: get16(body, 28),
        row,
    };
    begin.formed().then_some(begin)
}

/// A record of a log with its number and the offset at which it ends.
#[derive(Clone, Debug)]
pub struct Placed {
    pub number: u32,
    pub end: usize,
    pub record: Record,
}

/// A unit that the log begins and does not end.
#[derive(Clone, Debug)]
pub struct Open {
    pub begin: Begin,
    /// The steps that the begin record gives: none for a put or a delete.
    pub steps: Vec<Step>,
    /// How many records of the unit the log holds after the begin record.
    pub done: usize,
}

impl Open {
    /// The steps that the begin record gives and the log does not hold yet.
    pub fn remaining(&self) -> &[Step] {
        self.steps.get(self.done..).unwrap_or_default()
    }
}

/// A log in form.
#[derive(Clone, Debug)]
pub struct Log {
    /// The check record, then the records of all units.
    pub records: Vec<Placed>,
    /// Number of the last unit.
    pub unit: u32,
    pub lk: Option<u32>,
    pub open: Option<Open>,
}

impl Log {
    /// The log in these 8,192 bytes, if they keep log form.
    pub fn read(bytes: &[u8]) -> Option<Log> {
        let (header, record) = read_record(bytes)?;
        let Record::Check { unit, lk } = record else {
            return None;
        };
        if header.previous != 0 {
            return None;
        }
        let mut log = Log {
            records: vec![Placed {
                number: header.number,
                end: CHECK_BYTES,
                record,
            }],
            unit,
            lk,
            open: None,
        };
        while log.end() < LOG_BYTES && bytes[log.end()] != 0 {
            let (header, record) = read_record(&bytes[log.end()..])?;
            if !log.may_follow(&header, &record) {
                return None;
            }
            log.take(Placed {
                number: header.number,
                end: log.end() + header.length,
                record,
            });
        }
        all_zero(&bytes[log.end()..]).then_some(log)
    }

    /// Offset of the first byte after the last record.
    pub fn end(&self) -> usize {
        self.records.last().map_or(0, |placed| placed.end)
    }

    /// Number of the last record.
    pub fn last(&self) -> u32 {
        self.records.last().map_or(0, |placed| placed.number)
    }

    /// Number of the record that ends at `offset`.
    pub fn number_at(&self, offset: u32) -> Option<u32> {
        self.records
            .iter()
            .find(|placed| placed.end as u64 == offset as u64)
            .map(|placed| placed.number)
    }

    /// What the out record with this number took.
    pub fn rows_of(&self, number: u32) -> Option<&[Row]> {
        let at = number.checked_sub(self.records[0].number)?;
        match &self.records.get(at as usize)?.record {
            Record::Out { rows, .. } => Some(rows),
            _ => None,
        }
    }

    /// The images of the put or delete that the record with this number ends.
    pub fn images_of(&self, number: u32) -> impl Iterator<Item = (u16, &Page)> {
        let at = number.saturating_sub(self.records[0].number) as usize;
        self.images_before(at.min(self.records.len()))
    }

    /// The images that the open put or delete holds.
    pub fn open_images(&self) -> impl Iterator<Item = (u16, &Page)> {
        self.images_before(self.records.len())
    }

    /// The images right before place `at` of the records, each with its page.
    fn images_before(&self, at: usize) -> impl Iterator<Item = (u16, &Page)> {
        let before = &self.records[..at];
        let is_image = |placed: &Placed| matches!(placed.record, Record::Image { .. });
        let from = before.iter().rposition(|placed| !is_image(placed));
        before[from.map_or(0, |at| at + 1)..]
            .iter()
            .filter_map(|placed| match &placed.record {
                Record::Image { page, image } => Some((*page, image)),
                _ => None,
            })
    }

    /// The record that step `step` of the open unit has written.
    pub fn of_step(&self, step: usize) -> Option<&Placed> {
        let open = self.open.as_ref().filter(|open| step < open.done)?;
        self.records.get(self.records.len() - open.done + step)
    }

    /// Writes the record after the last one; the caller has tested the room
    /// and the number, and that the record is the one to come next.
    pub fn append(&mut self, bytes: &mut [u8], record: Record) {
        let number = self.last() + 1;
        let written = record.write(number);
        let end = self.end() + written.len();
        bytes[self.end()..end].copy_from_slice(&written);
        self.take(Placed {
            number,
            end,
            record,
        });
    }

    /// Whether the record is exactly one that may come next.
    fn may_follow(&self, header: &Header, record: &Record) -> bool {
        let next = self.last() as u64 + 1 == header.number as u64;
        next && match (&self.open, record) {
            (None, Record::Begin(begin)) => {
                header.previous == 0 && begin.unit as u64 == self.unit as u64 + 1
            }
            (Some(open), _) => {
                header.previous as u64 + 1 == header.number as u64
                    && match open.begin.row {
                        Some(_) => self.follows_images(header.number, record),
                        None => self.follows(open.steps[open.done], record),
                    }
            }
            (None, _) => false,
        }
    }

    /// Takes in a record that may come next.
    fn take(&mut self, placed: Placed) {
        match (&mut self.open, &placed.record) {
            (None, Record::Begin(begin)) => {
                self.unit = begin.unit;
                self.open = Some(Open {
                    steps: begin.steps(),
                    begin: begin.clone(),
                    done: 0,
                });
            }
            (_, Record::End { .. }) => self.close(),
            (Some(open), _) => open.done += 1,
            (None, _) => {}
        }
        self.records.push(placed);
    }

    /// Whether the record is one that the step may write.
    fn follows(&self, step: Step, record: &Record) -> bool {
        match (step, record) {
            (
                Step::Out { org, dest },
                Record::Out {
                    org: o, dest: d, ..
                },
            ) => org == *o && dest == *d,
            (
                Step::In { org, dest, out },
                Record::In {
                    org: o,
                    dest: d,
                    count,
                    out: number,
                },
            ) => {
                let its_out = self.of_step(out).is_some_and(|placed| {
                    placed.number == *number
                        && matches!(&placed.record, Record::Out { rows, .. }
                            if rows.len() == *count as usize)
                });
                org == *o && dest == *d && its_out
            }
            (
                Step::Point { base, old, new, .. },
                Record::Modify {
                    base: b,
                    old: o,
                    new: n,
                    old_key,
                    new_key,
                },
            ) => base == *b && old == *o && new == *n && old_key == new_key,
            (
                Step::Remove { base, old },
                Record::Modify {
                    base: b,
                    old: o,
                    new,
                    new_key,
                    ..
                },
            ) => base == *b && old == *o && *new == 0 && *new_key == 0,
            (Step::End, Record::End { unit }) => *unit == self.unit,
            _ => false,
        }
    }

    /// Whether the record may stand under this number in the open put or
    /// delete: images whose pages ascend, then the end, whose number all of
    /// them bear.
    fn follows_images(&self, number: u32, record: &Record) -> bool {
        let mut images = self.open_images().peekable();
        match record {
            Record::Image { page, .. } => images.all(|(before, _)| before < *page),
            Record::End { unit } => {
                *unit == self.unit
                    && images.peek().is_some()
                    && images.all(|(_, image)| image.number == number)
            }
            _ => false,
        }
    }

    /// Ends the open unit; a compact unit sets LK to the largest key it moved.
    fn close(&mut self) {
        let Some(open) = self.open.take() else {
            return;
        };
        if open.begin.kind == Type::Compact {
            let first = self.records.len() - open.done;
            let moved = self.records[first..].iter().flat_map(|placed| {
                let rows: &[Row] = match &placed.record {
                    Record::Out { rows, .. } => rows,
                    _ => &[],
                };
                rows.iter().map(|row| row.key)
            });
            self.lk = moved.max();
        }
    }
}
