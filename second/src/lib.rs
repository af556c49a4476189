//! The second program: documents 01 and 02, as far as no. 1, written a second
//! time, from the documents alone, over lent buffers of any length. What
//! another program answers can be compared with it, reply by reply and byte by
//! byte.
//!
//! `bytes`, `reply`, `page`, `log`, `tree`, `save`, `unit` and `calls` are the
//! product, lowest first; `listing` is the program of that name. `bench` is
//! the service bench over these calls and `drive` compares a program with it.
//! `chance`, `state`, `runs`, `harm`, `faults` and `vectors` make what tests
//! run on, `measures` what is measured.

pub mod bench;
pub mod bytes;
pub mod calls;
pub mod chance;
pub mod drive;
pub mod faults;
pub mod harm;
pub mod listing;
pub mod log;
pub mod measures;
pub mod page;
pub mod reply;
pub mod runs;
pub mod save;
pub mod state;
pub mod tree;
pub mod unit;
pub mod vectors;
