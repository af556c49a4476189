//! The outside tests' driver: makes scripts, runs a program on each through
//! its standard input and output, and compares what it writes with the
//! service's answer, byte for byte.
//!
//! A kind of scripts is named after the trouble it looks for, and its plan
//! stands at the top of its file. Rows, lengths, bad scripts, and the cuts and
//! the damage made by hand are always the same; the random kinds go on until
//! the wanted number of calls is made. For a program that has build, find,
//! list and the range reader alone, no other call stands in a script.

mod compare;
mod counts;
mod cuts;
mod damage;
mod lengths;
mod listed;
mod program;
mod reading;
mod rows;
mod saves;
mod scripts;

pub use cuts::LARGEST_UNIT;
pub use listed::{drive_listing, sample};

use crate::bench::Script;
use compare::Expected;
use counts::Counts;
use program::run;
use std::path::Path;
use std::{fs, io, thread};

/// What to drive, and how much.
#[derive(Clone, Debug)]
pub struct Plan {
    /// Build, find, list and the range reader alone.
    pub reading: bool,
    pub calls: u64,
    pub seed: u64,
    /// The program and its arguments.
    pub program: Vec<String>,
}

/// Calls that are made where no number is given.
pub const READING_CALLS: u64 = 30_000;
pub const ALL_CALLS: u64 = 200_000;

/// Where scripts that failed are kept, below the current directory.
const KEPT: &str = "target/drive";
/// Most of them that are kept.
const MOST_KEPT: u64 = 20;

/// A script to be run.
struct Made {
    kind: &'static str,
    /// Number of the script among those made by hand, or its seed.
    seed: u64,
    bytes: Vec<u8>,
    cuts: u64,
}

/// Makes a random script from a seed.
type Maker = fn(seed: u64) -> Made;

/// Drives the program; true where it answers as the service does.
pub fn drive(plan: &Plan) -> io::Result<bool> {
    let mut driver = Driver {
        plan,
        counts: Counts::default(),
    };
    for made in by_hand(plan.reading) {
        driver.try_script(&made)?;
    }
    let left = plan.calls.saturating_sub(driver.counts.calls());
    for &(maker, percent) in shares(plan.reading) {
        driver.try_random(maker, left * percent / 100)?;
    }
    driver.counts.close(plan.reading);
    println!("{}", driver.counts);
    Ok(driver.counts.failed == 0)
}

/// The scripts that are the same in every run.
fn by_hand(reading: bool) -> Vec<Made> {
    let mut all = rows::scripts(reading);
    all.extend(damage::scripts(reading));
    all.extend(lengths::scripts(reading));
    all.extend(scripts::scripts(reading));
    if !reading {
        all.extend(cuts::scripts());
    }
    all
}

/// The random kinds with their share of the calls, in percent.
fn shares(reading: bool) -> &'static [(Maker, u64)] {
    if reading {
        &[(reading::script, 100)]
    } else {
        &[
            (cuts::run, 40),
            (cuts::tidying, 12),
            (saves::script, 15),
            (damage::script, 20),
            (reading::script, 13),
        ]
    }
}

/// Whether the call of this name may stand in a script.
fn allowed(name: &str, reading: bool) -> bool {
    !reading || ["build", "find", "list", "walk"].contains(&name)
}

struct Driver<'a> {
    plan: &'a Plan,
    counts: Counts,
}

impl Driver<'_> {
    /// Random scripts until so many calls are made.
    fn try_random(&mut self, maker: Maker, calls: u64) -> io::Result<()> {
        let goal = self.counts.calls() + calls;
        let mut seed = self.plan.seed;
        while self.counts.calls() < goal {
            self.try_script(&maker(seed))?;
            seed = seed.wrapping_add(1);
        }
        Ok(())
    }

    /// Runs the program on one script and compares.
    fn try_script(&mut self, made: &Made) -> io::Result<()> {
        let (expected, got) = thread::scope(|scope| {
            let program = scope.spawn(|| run(&self.plan.program, &made.bytes));
            (Expected::of(&made.bytes), program.join())
        });
        let got = got.map_err(|_| io::Error::other("the program's thread failed"))??;
        self.counts.add(made, &expected);
        let difference = expected.difference(&got.output);
        let wrong: Vec<String> = got.trouble.into_iter().chain(difference).collect();
        if wrong.is_empty() {
            self.counts.passed += 1;
            return Ok(());
        }
        self.counts.failed += 1;
        let kept = self.keep(made)?;
        let (kind, seed, wrong) = (made.kind, made.seed, wrong.join("; "));
        println!("{kind} seed {seed}: {wrong}\n  {kept}");
        Ok(())
    }

    /// Keeps a script that failed; says where.
    fn keep(&self, made: &Made) -> io::Result<String> {
        if self.counts.failed > MOST_KEPT {
            return Ok("script not kept".to_string());
        }
        fs::create_dir_all(KEPT)?;
        let path = Path::new(KEPT).join(format!("{}-{}", made.kind, made.seed));
        fs::write(&path, &made.bytes)?;
        Ok(format!("script kept in {}", path.display()))
    }
}

/// Numbers the scripts of a kind made by hand.
fn numbered(kind: &'static str, scripts: Vec<Vec<u8>>) -> Vec<Made> {
    (1..)
        .zip(scripts)
        .map(|(seed, bytes)| Made {
            kind,
            seed,
            bytes,
            cuts: 0,
        })
        .collect()
}

/// A script, begun anew and put aside where it has grown long.
#[derive(Default)]
struct Parts {
    done: Vec<Vec<u8>>,
    script: Script,
}

/// Bytes after which a script made by hand is long.
const LONG: usize = 400_000;

impl Parts {
    /// The script to go on with.
    fn next(&mut self) -> &mut Script {
        if self.script.len() > LONG {
            let script = std::mem::take(&mut self.script);
            self.done.push(script.into_bytes());
        }
        &mut self.script
    }

    fn close(mut self) -> Vec<Vec<u8>> {
        if !self.script.is_empty() {
            self.done.push(self.script.into_bytes());
        }
        self.done
    }
}
