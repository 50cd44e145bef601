//! `compare COUNT SEED LOTCHECK LOTRUN FOLDER` draws COUNT cases by seed from
//! SEED on, three listings to one script, and runs the programs LOTCHECK and
//! LOTRUN on them beside the reference. It prints how many cases agreed, or
//! stops at the first difference and saves its input and both outputs to
//! FOLDER.

use reference::cases::{limits, stored, Kind};
use std::error::Error;
use std::io::{ErrorKind, Write};
use std::path::{Path, PathBuf};
use std::process::{Command, Stdio};
use std::thread;

type Outcome<T> = Result<T, Box<dyn Error>>;

const USAGE: &str = "usage: compare COUNT SEED LOTCHECK LOTRUN FOLDER";

struct Comparison {
    programs: [PathBuf; 2],
    folder: PathBuf,
    agreed: [usize; 2],
}

fn main() -> Outcome<()> {
    let arguments: Vec<String> = std::env::args().skip(1).collect();
    let [count, seed, lotcheck, lotrun, folder] = &arguments[..] else {
        return Err(USAGE.into());
    };
    let (count, seed): (u64, u64) = (count.parse()?, seed.parse()?);
    let programs = [lotcheck, lotrun].map(PathBuf::from);
    let mut comparison = Comparison { programs, folder: PathBuf::from(folder), agreed: [0; 2] };
    for kind in Kind::ALL {
        for (number, case) in stored::fixed(kind).iter().enumerate() {
            comparison.case(kind, &format!("fixed-{number}"), case)?;
        }
    }
    for (number, case) in long_scripts().iter().enumerate() {
        comparison.case(Kind::Script, &format!("long-{number}"), case)?;
    }
    for drawn in 0..count {
        let kind = if drawn % 4 == 3 { Kind::Script } else { Kind::Listing };
        let seed = seed.wrapping_add(drawn);
        comparison.case(kind, &format!("seed-{seed}"), &kind.case(seed))?;
    }
    let last = seed.wrapping_add(count.saturating_sub(1));
    let [listings, scripts] = comparison.agreed;
    println!(
        "seeds {seed} to {last}, and fixed cases: {listings} listings and {scripts} scripts agreed"
    );
    Ok(())
}

/// Scripts just within the limits and just past them.
fn long_scripts() -> Vec<Vec<u8>> {
    limits::all().into_iter().map(|case| case.text.into_bytes()).collect()
}

impl Comparison {
    fn case(&mut self, kind: Kind, name: &str, case: &[u8]) -> Outcome<()> {
        let at = usize::from(kind == Kind::Script);
        let ours = printed(&self.programs[at], case)?;
        let theirs = kind.output(case);
        if ours == theirs {
            self.agreed[at] += 1;
            return Ok(());
        }
        let [listings, scripts] = self.agreed;
        let kept = |what: &str| self.folder.join(format!("{}-{name}.{what}", kind.name()));
        std::fs::create_dir_all(&self.folder)?;
        std::fs::write(kept("input"), case)?;
        std::fs::write(kept("ours"), &ours)?;
        std::fs::write(kept("reference"), &theirs)?;
        println!(
            "difference in {} {name}, behind {listings} listings and {scripts} scripts that agreed",
            kind.name()
        );
        println!("input: {}", kept("input").display());
        println!("{}", first_difference(&ours, &theirs));
        Err("the two differ".into())
    }
}

/// What a program prints for an input, which is written while the output is
/// read: the program answers before it has all of its input.
fn printed(program: &Path, input: &[u8]) -> Outcome<Vec<u8>> {
    let mut child = Command::new(program).stdin(Stdio::piped()).stdout(Stdio::piped()).spawn()?;
    let mut stdin = child.stdin.take().ok_or("no standard input")?;
    let (written, output) = thread::scope(|scope| {
        let writer = scope.spawn(move || stdin.write_all(input));
        let output = child.wait_with_output();
        (writer.join().expect("a write does not panic"), output)
    });
    match written {
        Err(error) if error.kind() != ErrorKind::BrokenPipe => return Err(error.into()),
        _ => {}
    }
    let output = output?;
    if !output.status.success() {
        println!("{} ended with {}", program.display(), output.status);
    }
    Ok(output.stdout)
}

fn first_difference(ours: &[u8], theirs: &[u8]) -> String {
    let rows = |text: &[u8]| -> Vec<String> {
        text.split(|&b| b == b'\n').map(|row| String::from_utf8_lossy(row).into_owned()).collect()
    };
    let (ours, theirs) = (rows(ours), rows(theirs));
    let at = ours.iter().zip(&theirs).take_while(|(mine, other)| mine == other).count();
    let row = |rows: &[String]| rows.get(at).cloned().unwrap_or_default();
    format!("row {}: ours `{}`, the reference `{}`", at + 1, row(&ours), row(&theirs))
}
