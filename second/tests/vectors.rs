//! The vectors: enough of them, every label and every pair of call and reply
//! there, and each line, read back, gives the call that it stands for.

use second::bytes::Numbers;
use second::reply;
use second::state::{Answer, Call, State, Values};
use second::vectors::{cases, line};
use std::collections::{BTreeMap, BTreeSet};

const LABELS: [&str; 44] = [
    "dest-L",
    "dest-L-other-base",
    "dest-new",
    "lk-stops",
    "lk-ended",
    "group-base-edge",
    "group-8",
    "room-exact",
    "room-less",
    "number-last",
    "number-past",
    "swap-one-base",
    "swap-two-base",
    "recover-row2-flushed",
    "recover-row2-unflushed",
    "recover-row8-flushed",
    "recover-row8-unflushed",
    "recover-row9-flushed",
    "recover-row9-unflushed",
    "recover-again",
    "repeat-lo-differs",
    "log-field",
    "page-field",
    "check-zero",
    "put-replaces",
    "put-adds",
    "put-same",
    "put-splits",
    "put-freed",
    "put-first",
    "put-again",
    "put-length",
    "put-mark",
    "put-crowded",
    "delete",
    "delete-base",
    "delete-last",
    "delete-absent",
    "save-open",
    "recover-save",
    "forged-crowded",
    "image-differs",
    "image-ended",
    "end-number",
];

fn number(word: &str) -> u32 {
    word.parse().expect("a number")
}

/// A buffer of a line; `before` is what `=` stands for.
fn buffer(field: &str, before: &[u8]) -> Vec<u8> {
    let mut bytes = Vec::new();
    match field {
        "=" => bytes.extend_from_slice(before),
        "-" => {}
        _ => {
            for chunk in field.split(' ') {
                let count = || number(&chunk[1..]) as usize;
                match chunk.as_bytes()[0] {
                    b'z' => bytes.resize(bytes.len() + count(), 0),
                    b'e' => {
                        for _ in 0..count() {
                            bytes.extend_from_slice(b"pe");
                            bytes.resize(bytes.len() + 254, 0);
                        }
                    }
                    _ => bytes.extend(chunk.split(',').map(|word| number(word) as u8)),
                }
            }
        }
    }
    bytes
}

fn call(name: &str, arguments: &[u32]) -> Call {
    match (name, arguments) {
        ("build", &[f, g]) => Call::Build { f, g },
        ("recover", []) => Call::Recover,
        ("begin_compact", &[fill]) => Call::BeginCompact { fill },
        ("begin_order", []) => Call::BeginOrder,
        ("put", []) => Call::Put,
        ("delete", &[key]) => Call::Delete { key },
        ("step", []) => Call::Step,
        ("flush", &[page]) => Call::Flush { page },
        ("force", []) => Call::Force,
        ("checkpoint", &[clear @ 0..=1]) => Call::Checkpoint { clear: clear == 1 },
        ("find", &[key]) => Call::Find { key },
        ("list", &[low, high]) => Call::List { low, high },
        _ => panic!("no call {name} with {arguments:?}"),
    }
}

fn words(field: &str) -> Vec<u32> {
    field.split_whitespace().map(number).collect()
}

fn values(name: &str, field: &str) -> Values {
    match (name, &words(field)[..]) {
        ("recover", &[count]) => Values::Count(count),
        ("list", &[count, more @ 0..=1]) => Values::Listed(count, more == 1),
        ("find", ten) if ten.len() == 10 => {
            let mut value = [0; 10];
            for (byte, word) in value.iter_mut().zip(ten) {
                *byte = *word as u8;
            }
            Values::Value(value)
        }
        (_, []) => Values::Nothing,
        _ => panic!("no values of {name}: {field}"),
    }
}

#[test]
fn every_line_reads_back_as_its_call() {
    for case in cases() {
        let text = line(&case);
        let fields: Vec<&str> = text.trim_end_matches('\n').split(';').collect();
        assert_eq!(fields.len(), 17);
        let made = call(fields[1], &words(fields[2]));
        assert_eq!(made, case.call);
        let numbers = |at: usize| Numbers {
            used: number(fields[at]),
            forced: number(fields[at + 1]),
        };
        let before = State {
            numbers: numbers(3),
            work: buffer(fields[5], &[]),
            store: buffer(fields[6], &[]),
            log: buffer(fields[7], &[]),
            bytes: buffer(fields[8], &[]),
        };
        let after = State {
            numbers: numbers(11),
            work: buffer(fields[13], &before.work),
            store: buffer(fields[14], &before.store),
            log: buffer(fields[15], &before.log),
            bytes: buffer(fields[16], &before.bytes),
        };
        let expected = Answer {
            reply: number(fields[9]) as u8,
            values: values(fields[1], fields[10]),
        };
        let mut state = before;
        assert_eq!(made.on(&mut state), expected, "{}", fields[0]);
        assert!(state == after, "{}: {made:?}", fields[0]);
    }
}

#[test]
fn every_label_and_every_pair_is_there() {
    let cases = cases();
    let labels: BTreeSet<&str> = cases.iter().map(|case| case.label.as_str()).collect();
    for label in LABELS {
        assert!(labels.contains(label), "no vector {label}");
    }
    let mut pairs: BTreeMap<(&str, u8), u32> = BTreeMap::new();
    for case in &cases {
        let reply = case.call.on(&mut case.state.clone()).reply;
        *pairs.entry((case.call.name(), reply)).or_default() += 1;
    }
    // The vectors are of the twelve calls: the range reader has none.
    for (name, reply) in reply::pairs().filter(|(name, _)| *name != "walk") {
        let times = pairs.get(&(name, reply)).copied().unwrap_or(0);
        assert!(times >= 2, "{name} {reply}: {times} vectors");
    }
    assert_eq!(pairs.len(), 92);
    assert!(cases.len() >= 900);
    println!("{} vectors, {} pairs", cases.len(), pairs.len());
}
