//! The listing program on the sample, on damaged input and on wrong lengths.

use second::listing::listing;
use second::state::{Call, State};
use std::io::Write;
use std::process::{Command, Output, Stdio};

const SAMPLE: &str = "leaf page base count first last number
0 8 1 4 10 40 4
1 9 1 2 50 60 9
records 6 levels 3
";

fn second(word: &str, input: &[u8]) -> Output {
    let mut program = Command::new(env!("CARGO_BIN_EXE_second"))
        .arg(word)
        .stdin(Stdio::piped())
        .stdout(Stdio::piped())
        .spawn()
        .expect("the program starts");
    let mut stdin = program.stdin.take().expect("an input");
    stdin.write_all(input).expect("the input is read");
    drop(stdin);
    program.wait_with_output().expect("the program ends")
}

#[test]
fn the_sample_comes_out_as_the_document_prints_it() {
    let sample = second("sample", &[]).stdout;
    assert_eq!(sample.len(), 24_576);
    let listed = second("listing", &sample);
    assert!(listed.status.success());
    assert_eq!(String::from_utf8_lossy(&listed.stdout), SAMPLE);
}

#[test]
fn the_sample_is_the_image_that_the_proved_listing_is_run_on() {
    let sample = second("sample", &[]).stdout;
    let kept = concat!(env!("CARGO_MANIFEST_DIR"), "/../crates/listing/stdin");
    assert!(sample == std::fs::read(kept).expect("the image"), "{kept}");
}

#[test]
fn an_open_unit_is_finished_before_it_is_listed() {
    let mut state = State::built(&[10, 20, 30, 40, 50, 60], 2, 30);
    state.done(Call::BeginCompact { fill: 4 });
    state.done(Call::Step);
    let image = [state.store, state.log].concat();
    let expected = "leaf page base count first last number
0 8 1 4 10 40 4
1 10 1 2 50 60 0
records 6 levels 3
";
    assert_eq!(listing(&image), expected);
}

#[test]
fn no_records_have_one_level() {
    let state = State::built(&[], 2, 30);
    let image = [state.store, state.log].concat();
    let expected = "leaf page base count first last number\nrecords 0 levels 1\n";
    assert_eq!(listing(&image), expected);
}

#[test]
fn refusals_say_their_number() {
    let state = State::built(&[10, 20], 2, 30);
    let mut image = [state.store, state.log].concat();
    assert_eq!(listing(&image[1..]), "refused 1\n");
    assert_eq!(listing(&[]), "refused 1\n");
    image[8] = 1;
    let listed = second("listing", &image).stdout;
    assert_eq!(listed, b"refused 3\n");
    image[16_384] = 0;
    assert_eq!(listing(&image), "refused 2\n");
}
