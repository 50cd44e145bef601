//! Seeded inputs for `lotcheck` and `lotrun`.
//!
//! `gen listing|script SEED` prints one case; `gen listing|script SEED COUNT
//! FOLDER` writes the cases of seeds SEED to SEED + COUNT - 1 as files.
//! `gen heavy` prints the names of the inputs that are timed, `gen heavy NAME`
//! prints one.

use reference::cases::{heavy, Kind};
use std::io::{self, Write};
use std::process::ExitCode;

const USAGE: &str = "usage: gen listing|script SEED [COUNT FOLDER], gen heavy [NAME]";

fn main() -> ExitCode {
    let arguments: Vec<String> = std::env::args().skip(1).collect();
    match run(&arguments) {
        Ok(()) => ExitCode::SUCCESS,
        Err(error) => {
            eprintln!("{error}");
            ExitCode::FAILURE
        }
    }
}

fn run(arguments: &[String]) -> io::Result<()> {
    let usage = || io::Error::new(io::ErrorKind::InvalidInput, USAGE);
    if arguments.first().is_some_and(|name| name == "heavy") {
        return write_heavy(arguments.get(1));
    }
    let kind = arguments.first().and_then(|name| Kind::named(name)).ok_or_else(usage)?;
    let number = |at: usize| arguments.get(at)?.parse::<u64>().ok();
    let seed = number(1).ok_or_else(usage)?;
    match arguments.len() {
        2 => io::stdout().lock().write_all(&kind.case(seed)),
        4 => {
            let count = number(2).ok_or_else(usage)?;
            write_cases(kind, seed, count, &arguments[3])
        }
        _ => Err(usage()),
    }
}

fn write_heavy(name: Option<&String>) -> io::Result<()> {
    let mut out = io::stdout().lock();
    for heavy in heavy::all() {
        match name {
            None => writeln!(out, "{}", heavy.name)?,
            Some(name) if name == heavy.name => out.write_all(&heavy.input())?,
            Some(_) => {}
        }
    }
    Ok(())
}

fn write_cases(kind: Kind, seed: u64, count: u64, folder: &str) -> io::Result<()> {
    std::fs::create_dir_all(folder)?;
    for case in seed..seed.saturating_add(count) {
        let path = std::path::Path::new(folder).join(format!("{}-{case:08}.txt", kind.name()));
        std::fs::write(path, kind.case(case))?;
    }
    Ok(())
}
