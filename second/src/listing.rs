//! The listing: recovers a store and a log and prints the leaves in order
//! (document 01, the last part of "Numbers to try").

use crate::bytes::{Numbers, LOG_BYTES, PAGES_BYTES};
use crate::calls;
use crate::page::{read_pages, Page};
use crate::reply;
use crate::tree::{self, Leaf};
use std::fmt::Write;

/// The listing of these bytes, store then log.
pub fn listing(image: &[u8]) -> String {
    match leaves(image) {
        Ok((pages, leaves)) => table(&pages, &leaves),
        Err(reply) => format!("refused {reply}\n"),
    }
}

fn leaves(image: &[u8]) -> Result<(Vec<Page>, Vec<Leaf>), u8> {
    if image.len() != PAGES_BYTES + LOG_BYTES {
        return Err(reply::LENGTH);
    }
    let mut store = image[..PAGES_BYTES].to_vec();
    let mut log = image[PAGES_BYTES..].to_vec();
    let mut work = vec![0; PAGES_BYTES];
    let (reply, _) = calls::recover(&mut Numbers::default(), &mut work, &mut store, &mut log);
    if reply != reply::DONE {
        return Err(reply);
    }
    let pages = read_pages(&work).ok_or(reply::FORM)?;
    let leaves = tree::leaves(&pages).ok_or(reply::TREE)?;
    Ok((pages, leaves))
}

fn table(pages: &[Page], leaves: &[Leaf]) -> String {
    let mut text = String::from("leaf page base count first last number\n");
    let mut records = 0;
    for (order, leaf) in leaves.iter().enumerate() {
        let (page, base, count) = (leaf.page, leaf.base, leaf.rows.len());
        let (first, last) = (leaf.rows[0].key, leaf.rows[count - 1].key);
        let number = pages[page as usize].number;
        // Writing to a string cannot fail.
        let _ = writeln!(
            text,
            "{order} {page} {base} {count} {first} {last} {number}"
        );
        records += count;
    }
    let levels = if records == 0 { 1 } else { 3 };
    let _ = writeln!(text, "records {records} levels {levels}");
    text
}
