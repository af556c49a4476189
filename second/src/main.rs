//! The programs: `second listing`, `second sample`, `second runs`, `second
//! vectors`, `second bench`, `second drive`, `second measures`, `second
//! tidied` and `second saved`.

use second::drive::{drive, drive_listing, sample, Plan, ALL_CALLS, READING_CALLS};
use second::state::Call;
use second::{bench, faults, listing, measures, runs, vectors};
use std::io::{self, BufReader, BufWriter, Read, Write};
use std::path::Path;
use std::process::ExitCode;

const USE: &str = "second listing            lists a store and a log read from standard input
second sample             writes a sample store and log
second runs [COUNT] [SEED] makes random runs with cuts
second vectors            prints calls with all that they leave
second bench [--fault NAME] answers a script read from standard input
second drive [--reading] [--calls N] [--seed S] PROGRAM [ARGS..]
                          compares a program with the bench, script by script
second drive --listing PROGRAM [ARGS..]
                          compares a program with the listing, image by image
second measures PLACE     writes pairs of scripts that differ in one call
second tidied [--script]  says how much a whole tidying writes
second saved              says how much puts and deletes write";

/// Runs that `second runs` makes where no count is given.
const USUAL_RUNS: u64 = 20_000;

fn main() -> ExitCode {
    let words: Vec<String> = std::env::args().skip(1).collect();
    let words: Vec<&str> = words.iter().map(String::as_str).collect();
    let done = match words[..] {
        ["listing"] => print_listing(),
        ["sample"] => write_out(&sample()),
        ["runs", ref numbers @ ..] if numbers.len() <= 2 => print_runs(numbers),
        ["vectors"] => write_out(vectors::vectors().as_bytes()),
        ["measures", place] => {
            measures::write_measures(Path::new(place)).map_err(|why| why.to_string())
        }
        ["tidied"] => write_out(format!("{}\n", measures::tidied().0).as_bytes()),
        ["tidied", "--script"] => write_out(&measures::tidied().1),
        ["saved"] => write_out(format!("{}\n", measures::saved()).as_bytes()),
        ["bench"] => serve(&Call::on),
        ["bench", "--fault", name] => serve_fault(name),
        ["drive", "--listing", ref words @ ..] if !words.is_empty() => {
            return compare_listing(words)
        }
        ["drive", ref words @ ..] => return compare(words),
        _ => Err(USE.to_string()),
    };
    match done {
        Ok(()) => ExitCode::SUCCESS,
        Err(why) => failed(&why),
    }
}

fn failed(why: &str) -> ExitCode {
    eprintln!("{why}");
    ExitCode::FAILURE
}

fn write_out(bytes: &[u8]) -> Result<(), String> {
    io::stdout().write_all(bytes).map_err(|why| why.to_string())
}

fn serve(program: &runs::Program) -> Result<(), String> {
    let (input, output) = (BufReader::new(io::stdin()), BufWriter::new(io::stdout()));
    bench::serve(input, output, program).map_err(|why| why.to_string())
}

fn serve_fault(name: &str) -> Result<(), String> {
    let names: Vec<&str> = faults::all().map(|fault| fault.name).collect();
    match faults::fault(name) {
        Some(program) => serve(program),
        None => Err(format!("faults: {}", names.join(" "))),
    }
}

/// Drives a program; fails where the program does.
fn compare(words: &[&str]) -> ExitCode {
    match plan(words) {
        Some(plan) => ended(drive(&plan)),
        None => failed(USE),
    }
}

/// The same of the listing program.
fn compare_listing(words: &[&str]) -> ExitCode {
    let program: Vec<String> = words.iter().map(|word| word.to_string()).collect();
    ended(drive_listing(&program))
}

fn ended(drive: io::Result<bool>) -> ExitCode {
    match drive {
        Ok(true) => ExitCode::SUCCESS,
        Ok(false) => ExitCode::FAILURE,
        Err(why) => failed(&why.to_string()),
    }
}

fn plan(words: &[&str]) -> Option<Plan> {
    let (mut reading, mut calls, mut seed) = (false, None, 1);
    let mut words = words.iter();
    let first = loop {
        match *words.next()? {
            "--reading" => reading = true,
            "--calls" => calls = Some(words.next()?.parse().ok()?),
            "--seed" => seed = words.next()?.parse().ok()?,
            word => break word,
        }
    };
    let usual = if reading { READING_CALLS } else { ALL_CALLS };
    let program = std::iter::once(first).chain(words.copied());
    Some(Plan {
        reading,
        calls: calls.unwrap_or(usual),
        seed,
        program: program.map(str::to_string).collect(),
    })
}

fn print_listing() -> Result<(), String> {
    let mut image = Vec::new();
    let read = io::stdin().read_to_end(&mut image);
    read.map_err(|why| why.to_string())?;
    write_out(listing::listing(&image).as_bytes())
}

fn print_runs(numbers: &[&str]) -> Result<(), String> {
    let number = |at: usize, usual: u64| match numbers.get(at) {
        Some(word) => word.parse().map_err(|_| USE.to_string()),
        None => Ok(usual),
    };
    let (count, seed) = (number(0, USUAL_RUNS)?, number(1, 1)?);
    let counts = runs::runs(count, seed, &Call::on)?;
    write_out(format!("{counts}\n").as_bytes())
}
