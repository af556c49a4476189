//! The service bench, with scripts and answers written out by hand: what each
//! command writes, what the lengths lent do, and how a bad script ends.

use second::bench::{serve, Command, Lengths, Next};
use second::bytes::{Numbers, LOG_BYTES, PAGES_BYTES};
use second::state::Call;

fn answer(script: &[u8]) -> Vec<u8> {
    let mut output = Vec::new();
    serve(script, &mut output, &Call::on).expect("a vector takes all");
    output
}

/// Builds keys 10, 20 and 30, two to a leaf.
fn build() -> Vec<u8> {
    let mut script = b"B\x02\0\0\0\x1e\0\0\0\x30\0\0\0".to_vec();
    for key in [10, 20, 30] {
        script.extend([b'r', b'c', key, 0, 0, 0]);
        script.extend([key; 10]);
    }
    script
}

fn after_build(more: &[u8]) -> Vec<u8> {
    [build(), more.to_vec()].concat()
}

#[test]
fn nothing_in_nothing_out() {
    assert_eq!(answer(b""), []);
    assert_eq!(answer(b"n\x18\0\0\0\x18\0\0\0"), []);
}

#[test]
fn a_find_writes_its_value() {
    let found = answer(&after_build(b"G\x14\0\0\0G\x15\0\0\0"));
    let expected = [&[0, 0][..], &[20; 10], &[15], &[0; 10]].concat();
    assert_eq!(found, expected);
}

#[test]
fn a_list_writes_its_count_and_its_room() {
    let listed = answer(&after_build(b"L\x0b\0\0\0\xff\0\0\0\x12\0\0\0"));
    let mut expected = vec![0, 0, 1, 0, 0, 0, 1];
    expected.extend(b"rc\x14\0\0\0");
    expected.extend([20; 10]);
    expected.extend([170; 2]);
    assert_eq!(listed, expected);
}

#[test]
fn a_walk_writes_its_count_and_its_room() {
    let record = |key: u8| [&[b'r', b'c', key, 0, 0, 0][..], &[key; 10]].concat();
    // From 20 on with room for three records and a byte: two are there.
    let walked = answer(&after_build(b"W\x14\0\0\0\x31\0\0\0"));
    let two = [
        &[0, 0, 2, 0, 0, 0][..],
        &record(20),
        &record(30),
        &[170; 17],
    ]
    .concat();
    assert_eq!(walked, two);
    // From 11 on with room for one record and a half.
    let walked = answer(&after_build(b"W\x0b\0\0\0\x18\0\0\0"));
    let one = [&[0, 0, 1, 0, 0, 0][..], &record(20), &[170; 8]].concat();
    assert_eq!(walked, one);
    // None behind the last, and none where there is no room.
    let none = answer(&after_build(b"W\x1f\0\0\0\x02\0\0\0W\0\0\0\0\0\0\0\0"));
    assert_eq!(none, [0, 0, 0, 0, 0, 0, 170, 170, 0, 0, 0, 0, 0]);
}

#[test]
fn a_walk_is_lent_the_work_pages_alone() {
    let script = b"z\xff\x3f\0\0\0\x40\0\0\0\x20\0\0W\0\0\0\0\x01\0\0\0";
    let refused = answer(&after_build(script));
    assert_eq!(refused, [0, 1, 0, 0, 0, 0, 170]);
    // Neither store nor log, nor the numbers: with these all wrong it walks.
    let script = b"z\0\x40\0\0\0\0\0\0\0\0\0\0n\x01\0\0\0\x02\0\0\0W\x1e\0\0\0\x11\0\0\0";
    let walked = answer(&after_build(script));
    assert_eq!(walked[..6], [0, 0, 1, 0, 0, 0]);
    // Pages of zeros break page form; a unit's LO leaves no tree.
    assert_eq!(answer(b"W\0\0\0\0\0\0\0\0"), [3, 0, 0, 0, 0]);
    let open = answer(&after_build(
        b"C\x04\0\0\0W\0\0\0\0\0\0\0\0SW\0\0\0\0\0\0\0\0",
    ));
    assert_eq!(open, [0, 0, 0, 0, 0, 0, 0, 0, 8, 0, 0, 0, 0]);
}

#[test]
fn units_and_a_recovery_write_replies_and_a_count() {
    let said = answer(&after_build(b"C\x04\0\0\0SFP\x09\0\0\0RK\0OS"));
    // Build, begin, step, force, flush; recovery appends three records, so
    // the checkpoint finds a difference; nothing is misplaced, none is open.
    assert_eq!(said, [0, 0, 0, 0, 0, 0, 3, 0, 0, 0, 14, 11, 10]);
}

#[test]
fn puts_and_deletes_write_their_replies() {
    let put = |key: u8| [b"U\x10\0\0\0rc", &[key, 0, 0, 0][..], &[7; 10]].concat();
    let script = [
        &put(20)[..],
        b"SSG\x14\0\0\0X\x1e\0\0\0G\x14\0\0\0SSSX\x1e\0\0\0U\x02\0\0\0rcU\x10\0\0\0",
        &[0; 16],
    ]
    .concat();
    let said = answer(&after_build(&script));
    // Build, put, its image and end, the new value; the delete of 30 takes
    // page 9 and its entry, so two images; meanwhile a unit is open. Then 30
    // is absent, two bytes are no record, and 16 zeros bear no mark.
    let expected = [
        &[0, 0, 0, 0, 0][..],
        &[7; 10],
        &[0, 9],
        &[0; 10],
        &[0, 0, 0, 15, 12, 16],
    ]
    .concat();
    assert_eq!(said, expected);
}

#[test]
fn a_dump_has_the_lent_lengths() {
    let whole = answer(&after_build(b"D"));
    assert_eq!(whole.len(), 1 + 2 * PAGES_BYTES + LOG_BYTES + 8);
    assert_eq!(whole[1..5], *b"pr\x01\0");
    let ends = &whole[whole.len() - 8..];
    assert_eq!(ends, b"\x18\0\0\0\x18\0\0\0");
    // Work empty, store two bytes, log one more than it has; then right again.
    let lent =
        b"z\0\0\0\0\x02\0\0\0\x01\x20\0\0DG\x0a\0\0\0z\0\x40\0\0\0\x40\0\0\0\x20\0\0DG\x0a\0\0\0";
    let said = answer(&after_build(lent));
    let mut expected = b"\0pr".to_vec();
    expected.extend(&whole[1 + 2 * PAGES_BYTES..][..LOG_BYTES]);
    expected.push(0);
    expected.extend(ends);
    expected.push(1);
    expected.extend([0; 10]);
    expected.extend(&whole[1..]);
    expected.push(0);
    expected.extend([10; 10]);
    assert_eq!(said, expected);
}

#[test]
fn a_bad_command_writes_255_and_ends_the_service() {
    let bad: [&[u8]; 18] = [
        b"x",
        b"\0",
        b"G",
        b"G\0\0\0",
        b"K",
        b"K\x02",
        b"w",
        b"z\x02\x40\0\0\0\x40\0\0\0\x20\0\0DD",
        b"z\0\x40\0\0\x02\x40\0\0\0\x20\0\0DD",
        b"z\0\x40\0\0\0\x40\0\0\x02\x20\0\0DD",
        b"L\0\0\0\0\0\0\0\0\x01\x40\0\0DD",
        b"W\0\0\0\0\x01\x40\0\0DD",
        b"W\0\0\0\0\0\0\0",
        b"U\x41\0\0\0DDDDDDDDDDDDDDDDDDDDDDDDDDDDDDDDDDDDDDDDDDDDDDDDDDDDDDDDDDDDDDDDDD",
        b"U\x10\0\0\0rc",
        b"U\x10\0\0",
        b"X\x10\0\0",
        b"B\x01\0\0\0\x01\0\0\0\x10\0\0\0rc",
    ];
    for script in bad {
        assert_eq!(answer(&after_build(script)), [0, 255], "{script:?}");
    }
    let long = [
        b"B\x01\0\0\0\x01\0\0\0\x01\x40\0\0".to_vec(),
        vec![0; 16_385],
    ]
    .concat();
    assert_eq!(answer(&[long, b"D".to_vec()].concat()), [255]);
    assert_eq!(answer(b"xFFFF"), [255]);
}

#[test]
fn commands_read_back_as_they_were_written() {
    let numbers = Numbers { used: 7, forced: 9 };
    let lengths = Lengths {
        work: 1,
        store: 2,
        log: 3,
    };
    let plain = |call| Command::Call(call, Vec::new());
    let commands = [
        Command::Work(vec![1; PAGES_BYTES]),
        Command::Store(vec![2; PAGES_BYTES]),
        Command::Log(vec![3; LOG_BYTES]),
        Command::Numbers(numbers),
        Command::Lengths(lengths),
        Command::Call(Call::Build { f: 1, g: 2 }, vec![5; 17]),
        plain(Call::Recover),
        plain(Call::BeginCompact { fill: 300 }),
        plain(Call::BeginOrder),
        Command::Call(Call::Put, vec![6; 64]),
        Command::Call(Call::Put, Vec::new()),
        plain(Call::Delete { key: 300 }),
        plain(Call::Step),
        plain(Call::Flush { page: 70_000 }),
        plain(Call::Force),
        plain(Call::Checkpoint { clear: true }),
        plain(Call::Find { key: u32::MAX }),
        Command::Call(Call::List { low: 1, high: 0 }, vec![170; 3]),
        Command::Call(Call::Walk { key: 7 }, vec![170; 5]),
        Command::Dump,
    ];
    let script: Vec<u8> = commands.iter().flat_map(Command::write).collect();
    let mut rest = &script[..];
    for command in commands {
        match Command::read(&mut rest) {
            Next::Command(read) => assert_eq!(read, command),
            _ => panic!("{command:?} does not read back"),
        }
    }
    assert!(matches!(Command::read(&mut rest), Next::End));
}
