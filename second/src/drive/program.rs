//! One run of the program: the script to its standard input, all of its
//! standard output back. Input and output go at the same time, so that no
//! pipe fills up and blocks.

use std::io::{self, Read, Write};
use std::process::{Command, ExitStatus, Stdio};
use std::sync::mpsc;
use std::thread;
use std::time::Duration;

/// A program that takes longer over one script does not end.
const LIMIT: Duration = Duration::from_secs(120);

pub struct Got {
    pub output: Vec<u8>,
    /// What went wrong beside the output.
    pub trouble: Option<String>,
}

/// Runs the program on a script.
pub fn run(program: &[String], script: &[u8]) -> io::Result<Got> {
    let mut child = Command::new(&program[0])
        .args(&program[1..])
        .stdin(Stdio::piped())
        .stdout(Stdio::piped())
        .spawn()
        .map_err(|why| io::Error::new(why.kind(), format!("{}: {why}", program[0])))?;
    let (stdin, stdout) = (child.stdin.take(), child.stdout.take());
    let (sender, receiver) = mpsc::channel();
    thread::scope(|scope| {
        // A program may end before it has read its whole input.
        scope.spawn(move || stdin.map(|mut input| input.write_all(script)));
        scope.spawn(move || {
            let mut output = Vec::new();
            let read = stdout.map(|mut pipe| pipe.read_to_end(&mut output));
            let _ = sender.send((output, read));
        });
        let in_time = receiver.recv_timeout(LIMIT);
        if in_time.is_err() {
            child.kill()?;
        }
        let status = child.wait()?;
        Ok(match in_time {
            Ok((output, _)) => Got {
                output,
                trouble: killed(status),
            },
            Err(_) => Got {
                output: Vec::new(),
                trouble: Some(format!("no end after {} s", LIMIT.as_secs())),
            },
        })
    })
}

fn killed(status: ExitStatus) -> Option<String> {
    match status.code() {
        Some(_) => None,
        None => Some(format!("the program was ended: {status}")),
    }
}
