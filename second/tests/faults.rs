//! Planted faults that the driver must find: each fault is served by `second
//! bench --fault NAME` and driven with a small number of calls. The bench
//! without a fault, driven alike, must show no difference, and a program that
//! answers nothing must fail.

use second::faults::{FAULTS, SAVE_FAULTS};
use std::fs;
use std::path::PathBuf;
use std::process::{Command, Output};

/// Calls to make: those of the scripts made by hand, and some hundreds more.
const CALLS: &str = "4600";
/// The faults that build, find, list and the range reader alone can show.
const READING_FAULTS: [&str; 9] = [
    "longer-lent",
    "tail-unread",
    "find-reads-all",
    "find-entry-strict",
    "list-below-high",
    "list-more-when-full",
    "walk-past-key",
    "build-first-key",
    "build-keeps-store",
];

/// Drives a program from a folder of its own, which goes with the scripts
/// that are kept there.
fn drive(folder: &str, options: &[&str], program: &[&str]) -> Output {
    let folder = options.concat() + folder;
    let folder: PathBuf = [env!("CARGO_TARGET_TMPDIR"), &folder].iter().collect();
    fs::create_dir_all(&folder).expect("a folder");
    let output = Command::new(env!("CARGO_BIN_EXE_second"))
        .args(["drive", "--calls", CALLS])
        .args(options)
        .args(program)
        .current_dir(&folder)
        .output()
        .expect("the driver runs");
    fs::remove_dir_all(&folder).expect("the folder goes");
    output
}

/// The driver's last line as passed and failed.
fn counts(output: &Output) -> (u64, u64) {
    let text = String::from_utf8_lossy(&output.stdout);
    let last = text.lines().last().expect("a last line");
    let words: Vec<&str> = last.split([' ', ',']).collect();
    let number = |at: usize| words[at].parse().expect("a count");
    assert_eq!((words[1], words[4]), ("passed", "failed"), "{last}");
    (number(0), number(3))
}

fn caught(name: &str, options: &[&str]) {
    let bench = env!("CARGO_BIN_EXE_second");
    let output = drive(name, options, &[bench, "bench", "--fault", name]);
    let (passed, failed) = counts(&output);
    assert!(!output.status.success() && failed > 0, "not caught: {name}");
    println!(
        "caught: {name} {options:?}: {failed} of {}",
        passed + failed
    );
    let text = String::from_utf8_lossy(&output.stdout);
    assert!(text.contains("script kept in target/drive/"), "{name}");
}

#[test]
fn planted_faults_are_found() {
    for fault in &FAULTS {
        caught(fault.name, &[]);
    }
}

#[test]
fn planted_faults_of_puts_and_deletes_are_found() {
    for fault in &SAVE_FAULTS {
        caught(fault.name, &[]);
    }
}

#[test]
fn faults_in_reading_are_found_by_reading_alone() {
    for name in READING_FAULTS {
        caught(name, &["--reading"]);
    }
}

#[test]
fn the_bench_does_not_differ_from_itself() {
    let bench = env!("CARGO_BIN_EXE_second");
    for options in [&[][..], &["--reading"], &["--seed", "77"]] {
        let output = drive("none", options, &[bench, "bench"]);
        let (passed, failed) = counts(&output);
        assert!(output.status.success() && failed == 0 && passed > 100);
    }
}

#[test]
fn a_program_that_answers_nothing_fails() {
    let output = drive("nothing", &["--reading"], &["true"]);
    let (passed, failed) = counts(&output);
    // The empty script alone is answered rightly.
    assert!(!output.status.success() && passed == 1 && failed > 100);
}
