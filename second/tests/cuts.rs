//! Random runs with cuts, demand 3 tested after each recovery (the plan is at
//! the top of `runs`), planted faults that the runs must catch, and judges that
//! count begun puts and deletes otherwise, which the runs must contradict.

use second::faults::fault;
use second::log::{Log, Record, Type};
use second::page::Row;
use second::runs::{after_saves, judged_run, runs, Judge};
use second::state::Call;

const RUNS: u64 = 2_000;
const SEED: u64 = 1;
/// Runs within which a planted fault must show.
const PLANTED_RUNS: u64 = 200;
/// Those faults that break demand 3 itself.
const FAULTS: [&str; 20] = [
    "in-repeated",
    "swap-by-pointer",
    "early-flush",
    "repeats-all",
    "count-wrong",
    "log-forgotten",
    "forces-too-much",
    "stamp-forgotten",
    "refusal-changes",
    "neighbour-not-lowered",
    "base-not-lowered",
    "root-not-lowered",
    "joins-right",
    "split-at-seven",
    "image-own-number",
    "image-at-once",
    "images-copied-last",
    "end-forgets-page",
    "begun-not-counted",
    "begun-counted-twice",
];

#[test]
fn no_cut_loses_anything() {
    let counts = runs(RUNS, SEED, &Call::on).unwrap_or_else(|why| panic!("{why}"));
    println!("{counts}");
    assert!(counts.cuts > 20_000 && counts.recoveries > 20_000);
    assert!(counts.compacts > 1000 && counts.swaps > 500 && counts.moves > 1000);
    assert!(counts.puts > 5000 && counts.deletes > 5000);
}

/// The records at the check record, whatever was begun since.
fn none_counted(rows: &[Row], _: &Log) -> Vec<Row> {
    rows.to_vec()
}

/// Puts and deletes counted when they have ended, not when they have begun.
fn ended_counted(rows: &[Row], log: &Log) -> Vec<Row> {
    let mut log = log.clone();
    if let Some(open) = &log.open {
        let ended = log.records.len() - open.done - 1;
        log.records.truncate(ended);
    }
    after_saves(rows, &log)
}

/// Deletes not counted.
fn puts_counted(rows: &[Row], log: &Log) -> Vec<Row> {
    let mut log = log.clone();
    log.records.retain(
        |placed| !matches!(&placed.record, Record::Begin(begin) if begin.kind == Type::Delete),
    );
    after_saves(rows, &log)
}

#[test]
fn a_judge_that_counts_otherwise_is_contradicted() {
    let judges: [(&str, &Judge); 3] = [
        ("none", &none_counted),
        ("ended", &ended_counted),
        ("puts", &puts_counted),
    ];
    for (name, judge) in judges {
        let failed =
            (SEED..SEED + PLANTED_RUNS).find_map(|seed| judged_run(seed, &Call::on, judge).err());
        match failed {
            None => panic!("not contradicted: {name}"),
            Some(why) => println!("contradicted: {name}: {why}"),
        }
    }
}

#[test]
fn planted_faults_are_caught() {
    for name in FAULTS {
        let program = fault(name).expect("a fault");
        match runs(PLANTED_RUNS, SEED, program) {
            Ok(_) => panic!("not caught: {name}"),
            Err(why) => println!("caught: {name}: {why}"),
        }
    }
}
