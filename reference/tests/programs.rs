//! The programs `lotcheck` and `lotrun` themselves: what they read, how they
//! fail, and that `lotrun` answers at once.

use std::fs::File;
use std::io::{BufRead, BufReader, Write};
use std::process::{Command, Output, Stdio};
use std::sync::mpsc;
use std::thread;
use std::time::Duration;

const LOTCHECK: &str = env!("CARGO_BIN_EXE_lotcheck");
const LOTRUN: &str = env!("CARGO_BIN_EXE_lotrun");
const FOLDER: &str = concat!(env!("CARGO_MANIFEST_DIR"), "/../examples");
const FILE: &str = concat!(env!("CARGO_MANIFEST_DIR"), "/../examples/march.txt");
const SCRATCH: &str = concat!(env!("CARGO_TARGET_TMPDIR"), "/scratch");

fn run(program: &str, arguments: &[&str], stdin: impl Into<Stdio>) -> Output {
    Command::new(program).args(arguments).stdin(stdin).output().unwrap()
}

fn file(path: &str) -> File {
    File::open(path).unwrap()
}

#[test]
fn a_file_or_standard_input() {
    for (program, first) in [(LOTCHECK, "accepted,1\n"), (LOTRUN, "started\n")] {
        let named = run(program, &[FILE], Stdio::null());
        assert!(named.status.success());
        assert!(named.stdout.starts_with(first.as_bytes()));
        assert_eq!(named, run(program, &[], file(FILE)));
    }
}

/// A message, another status, and no output.
#[test]
fn failures() {
    let unreadable = || File::create(SCRATCH).unwrap();
    for program in [LOTCHECK, LOTRUN] {
        for output in [
            run(program, &[FILE, FILE], Stdio::null()),
            run(program, &["no such file"], Stdio::null()),
            run(program, &[FOLDER], Stdio::null()),
            run(program, &[], file(FOLDER)),
            run(program, &[], unreadable()),
            Command::new(program).arg(FILE).stdout(file(FILE)).output().unwrap(),
        ] {
            assert!(!output.status.success());
            assert!(output.stdout.is_empty());
            assert!(!output.stderr.is_empty());
        }
    }
}

#[test]
fn lotrun_answers_at_once() {
    let (stdin, stdout) = (Stdio::piped(), Stdio::piped());
    let mut child = Command::new(LOTRUN).stdin(stdin).stdout(stdout).spawn().unwrap();
    let (mut stdin, stdout) = (child.stdin.take().unwrap(), child.stdout.take().unwrap());
    let (sender, receiver) = mpsc::channel();
    thread::spawn(move || {
        let mut rows = BufReader::new(stdout).lines();
        rows.try_for_each(|row| sender.send(row.unwrap()))
    });
    let next_row = || receiver.recv_timeout(Duration::from_secs(60)).unwrap();
    for (text, row) in [
        ("N,1\n.\n.\n", "started"),
        ("ready\n", "ready,none"),
        ("bring\nQ,0,nil\n.\n", "brought,0"),
        ("door,0,0,0\n", "passes"),
    ] {
        stdin.write_all(text.as_bytes()).unwrap();
        assert_eq!(next_row(), row);
    }
    drop(stdin);
    assert_eq!([next_row(), next_row(), next_row()], ["state,0,0,1", "lines,1", "roots,0"]);
    assert!(child.wait().unwrap().success());
}
