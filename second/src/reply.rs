//! The replies by number (document 01, "Replies by number", and no. 1 of
//! document 02).

pub const DONE: u8 = 0;
/// A lent buffer has the wrong length.
pub const LENGTH: u8 = 1;
/// Log form broken, or the two numbers do not fit the log.
pub const LOG: u8 = 2;
/// A page read breaks page form.
pub const FORM: u8 = 3;
/// A store page's number exceeds the log's last.
pub const AHEAD: u8 = 4;
/// A record does not fit its page.
pub const MISFIT: u8 = 5;
/// The log cannot hold the whole unit.
pub const ROOM: u8 = 6;
/// A log or unit number would pass the last one.
pub const NUMBER: u8 = 7;
/// Tree not well formed.
pub const TREE: u8 = 8;
/// A unit is open.
pub const OPEN: u8 = 9;
/// No unit is open.
pub const CLOSED: u8 = 10;
/// No leaf to choose.
pub const NOTHING: u8 = 11;
/// Fill or page number out of range, or record bytes not a multiple of 16;
/// a put's record is not of 16 bytes.
pub const RANGE: u8 = 12;
/// The page's number exceeds the last forced record's.
pub const UNFORCED: u8 = 13;
/// Some work page differs from the store.
pub const DIFFERS: u8 = 14;
/// Key absent.
pub const ABSENT: u8 = 15;
/// Build record mark wrong or keys not ascending; a put's record mark wrong.
pub const RECORDS: u8 = 16;
/// Build needs over 56 leaves or 7 base pages.
pub const LARGE: u8 = 17;
/// A put needs a new leaf, and no leaf page is empty or the base page is full.
pub const CROWDED: u8 = 18;

/// The replies of each call, in the order of its tests ("Order of tests"); a
/// walk of the range reader has list's tests of the pages. A step of a put or
/// a delete, in recovery too, tests 8, 18 and 15 between 3 and 5.
pub const ORDER: [(&str, &[u8]); 13] = [
    ("build", &[1, 12, 16, 17, 0]),
    ("recover", &[1, 2, 3, 4, 18, 15, 5, 6, 7, 8, 0]),
    ("begin_compact", &[1, 2, 12, 9, 3, 8, 11, 6, 7, 0]),
    ("begin_order", &[1, 2, 9, 3, 8, 11, 6, 7, 0]),
    ("put", &[1, 2, 12, 16, 9, 3, 8, 18, 6, 7, 0]),
    ("delete", &[1, 2, 9, 3, 8, 15, 6, 7, 0]),
    ("step", &[1, 2, 10, 3, 8, 18, 15, 5, 6, 7, 0]),
    ("flush", &[1, 2, 12, 13, 0]),
    ("force", &[1, 2, 0]),
    ("checkpoint", &[1, 2, 9, 14, 7, 0]),
    ("find", &[1, 2, 9, 3, 15, 0]),
    ("list", &[1, 2, 9, 3, 8, 0]),
    ("walk", &[1, 3, 8, 0]),
];

/// A call by its name, and a reply.
pub type Pair = (&'static str, u8);

/// Every pair of call and reply that there is.
pub fn pairs() -> impl Iterator<Item = Pair> {
    ORDER
        .into_iter()
        .flat_map(|(name, replies)| replies.iter().map(move |&reply| (name, reply)))
}
