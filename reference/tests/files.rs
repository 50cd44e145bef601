//! The files of the folder `examples`, held to what README says of them.

mod common;
use common::*;
use std::fs;

const FOLDER: &str = concat!(env!("CARGO_MANIFEST_DIR"), "/../examples/");

/// Each file, and its listing up to the U rows.
const LISTINGS: [(&str, &str); 13] = [
    ("carrier.txt", "accepted,0"),
    ("inspector.txt", "accepted,0"),
    ("inspector_before.txt", "broken,Q,0"),
    ("inspector_closed.txt", "accepted,1 V,s1,s1,r"),
    ("lab.txt", "accepted,0"),
    ("lab_broken.txt", "broken,Q,4"),
    ("lab_misread.txt", "accepted,1 V,s1,s3,o"),
    ("ledger.txt", "accepted,0"),
    ("ledger_reused.txt", "accepted,1 V,s0,s3,o"),
    ("ledger_spare.txt", "accepted,0"),
    ("march.txt", "accepted,1 V,s1,s1,a"),
    ("shares.txt", "accepted,0"),
    ("warehouse.txt", "accepted,0"),
];

/// Commands for the net and the estimate of `carrier.txt`, and their answers.
const COMMANDS: &str = "carrier_day.txt";
const ANSWERS: [&str; 12] = [
    "brought,3",
    "silent",
    "performed,s0,s0,a",
    "refused,36,0",
    "performed,s0,s1,r",
    "performed,s0,s0,o",
    "withdrawn,3",
    "refused,35,0",
    "silent",
    "refused,24,0",
    "brought,3",
    "performed,s0,s0,a",
];

fn text(file: &str) -> String {
    fs::read_to_string(format!("{FOLDER}{file}")).unwrap()
}

#[test]
fn listings() {
    for (file, expected) in LISTINGS {
        let listing = text_listing(&text(file));
        assert_eq!(listing.split(" U,").next(), Some(expected), "{file}");
    }
}

#[test]
fn no_other_files() {
    let names = fs::read_dir(FOLDER).unwrap().map(|entry| entry.unwrap().file_name());
    let mut names: Vec<String> = names.map(|name| name.into_string().unwrap()).collect();
    names.sort();
    let mut expected: Vec<&str> = LISTINGS.iter().map(|(file, _)| *file).collect();
    expected.push(COMMANDS);
    expected.sort_unstable();
    assert_eq!(names, expected);
}

/// "Without the first it is `broken,Q,0`": a row for the clerk, then one for
/// the weigher.
#[test]
fn a_spare_variable_needs_its_rows() {
    for (row, answer) in [("B,u2,s3\n", "broken,Q,0"), ("B,u2,s4\n", "broken,Q,1")] {
        let spare = text("ledger_spare.txt");
        assert!(spare.contains(row));
        assert_eq!(text_listing(&spare.replace(row, "")), answer);
    }
}

/// A carrier's agent comes, works, goes, and another one gets its number.
#[test]
fn a_day_of_the_warehouse() {
    let input = text("carrier.txt") + &text(COMMANDS);
    let output = lines_of(&reference::script::run(input.as_bytes()));
    assert_eq!(output[1..=ANSWERS.len()], ANSWERS);
    assert_eq!(output[1 + ANSWERS.len()], "state,2,2,5");
}

/// The three files differ in the row `D,0,self,-` and in an E row.
#[test]
fn one_inspector_in_three_files() {
    let (silent, before, closed) =
        (text("inspector.txt"), text("inspector_before.txt"), text("inspector_closed.txt"));
    assert_eq!(silent.replace("E,s1,s1,r\n", ""), before);
    assert_eq!(closed.replace("D,0,self,-\n", ""), before);
    assert!(silent.contains("E,s1,s1,r\n") && closed.contains("D,0,self,-\n"));
}

/// The inspector is sent, and reads at the site where it then is.
#[test]
fn the_inspector_reads() {
    for (file, answer) in [
        ("inspector.txt", "performed,s1,s1,r"),
        ("inspector_before.txt", "performed,s1,s1,r"),
        ("inspector_closed.txt", "refused,26,0"),
    ] {
        let input = text(file) + ".\nguarded,0,0,0\nguarded,1,0,0\n";
        let output = lines_of(&reference::script::run(input.as_bytes()));
        assert_eq!(output[1..3], ["performed,s0,s1,e", answer], "{file}");
    }
}

/// The thread's bindings behind two steps.
#[test]
fn a_wildcard_binds_nothing() {
    for (file, bindings) in
        [("ledger.txt", ",2,u0=s2 u1=s5"), ("ledger_spare.txt", ",2,u0=s2 u1=s5 u2=s4")]
    {
        let input = text(file) + ".\nstep,0,0,0\nstep,0,0,0\n";
        let output = String::from_utf8(reference::script::run(input.as_bytes())).unwrap();
        let thread = output.lines().find(|row| row.starts_with("thread,"));
        assert!(thread.unwrap().ends_with(bindings), "{file}");
    }
}
