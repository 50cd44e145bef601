//! Scripts at the limits of `lotrun`, each with all that it prints.

use super::scripts::chain;
use super::text::{arrival_rows, bytes};
use crate::script::{MAX_ARRIVAL, MAX_HEAD, MAX_ROW};

pub struct Case {
    pub text: String,
    pub output: String,
}

/// A thread that can always step and comes back to its line; an agent is
/// brought before all else.
const BEGIN: &str = "N,1\nL,s0,0\nQ,0,rep,1\nQ,1,nil\n.\n.\nbring\nQ,0,nil\n.\n";
const BEGUN: &str = "started\nbrought,2\n";

/// Bytes of the commands of `many_commands`, at least.
const MANY_BYTES: usize = 3 << 20;

const BAD: &str = "bad command";
const TOO_LONG: &str = "refused,2,0";

/// Commands that leave the state as it is, each with its row; an arrival's
/// command has the row `.` too.
fn commands(pairs: &[(String, &str)]) -> Case {
    let (mut text, mut output) = (BEGIN.to_string(), BEGUN.to_string());
    for (command, row) in pairs {
        text += &format!("{command}\n");
        output += &format!("{row}\n");
    }
    let policy = "00".repeat(32);
    output += &format!("state,1,0,3\nthread,s0,{policy},0,-\nlines,3\nroots,2\n");
    Case { text, output }
}

/// One command, whose last 0A is missing.
fn unended(command: String, row: &str) -> Case {
    let mut case = commands(&[(command, row)]);
    case.text.pop();
    case
}

fn x(count: usize) -> String {
    "x".repeat(count)
}

/// A text of so many bytes: these rows, then one more.
fn filled(rows: &str, size: usize) -> String {
    format!("{rows}{}\n", x(size - rows.len() - 1))
}

/// No net and estimate of that length are taken: other rows are refused before.
fn heads() -> Vec<Case> {
    let refused = |text: String, row: &str| Case { text, output: format!("{row}\n") };
    let closed = |size: usize| filled("N,1\nN,1\n", size - 4) + ".\n.\n";
    let open = |size: usize| filled("N,1\n.\n", size);
    let net = "N,1\n".repeat(MAX_HEAD / 4);
    let mut cut = closed(MAX_HEAD + 1);
    cut.pop();
    vec![
        refused(closed(MAX_HEAD) + "ready\n", "refused,3,2"),
        refused(closed(MAX_HEAD + 1) + "ready\n", TOO_LONG),
        refused(closed(MAX_HEAD + 1), TOO_LONG),
        refused(cut, "refused,3,2"),
        refused(open(MAX_HEAD), "refused,1,1"),
        refused(open(MAX_HEAD + 1), TOO_LONG),
        refused(net.clone() + "\n", TOO_LONG),
        refused(net.repeat(4), TOO_LONG),
        refused(net, "refused,3,2"),
    ]
}

/// Of a row too long, the end is no row of its own.
fn command_rows() -> Vec<Case> {
    let step = |size: usize| format!("step,{},0,0", "0".repeat(size - "step,,0,0".len()));
    let ready = || ("ready".to_string(), "ready,0");
    let mut ends = vec![];
    for size in [MAX_ROW, MAX_ROW + 1, 2 * MAX_ROW] {
        ends.extend([(x(size) + "ready", BAD), ready()]);
    }
    vec![
        commands(&[(step(MAX_ROW), "silent"), (step(MAX_ROW + 1), BAD), ready()]),
        commands(&[(x(MAX_ROW), BAD), (x(MAX_ROW + 1), BAD), ready()]),
        commands(&ends),
        unended(step(MAX_ROW), BAD),
        unended(step(MAX_ROW + 1), BAD),
    ]
}

fn bring(rows: &str) -> String {
    format!("bring\n{rows}.")
}

/// An arrival of the greatest length, and one that is too long by a byte.
pub fn arrival_lengths() -> Case {
    let nil = "Q,0,nil\n";
    commands(&[
        (bring(&filled(nil, MAX_ARRIVAL)), "refused,1,2"),
        (bring(&filled(nil, MAX_ARRIVAL + 1)), TOO_LONG),
        ("ready".to_string(), "ready,0"),
    ])
}

fn arrivals() -> Vec<Case> {
    let ready = || ("ready".to_string(), "ready,0");
    let nil = || (bring("Q,0,nil\n"), "brought,3");
    let withdraw = || ("withdraw".to_string(), "withdrawn,3");
    let net = "N,1\n".repeat(MAX_ARRIVAL / 4);
    let empty = "\n".repeat(MAX_ARRIVAL);
    let long = "Q,0,nil\n".repeat(MAX_ROW / 4);
    vec![
        arrival_lengths(),
        commands(&[(bring(&net), "refused,3,1"), (bring(&(net + "\n")), TOO_LONG), ready()]),
        commands(&[(bring(&empty), "refused,1,1"), (bring(&(empty + "\n")), TOO_LONG), ready()]),
        commands(&[(bring(&long), TOO_LONG), ready(), nil(), withdraw()]),
    ]
}

/// One row, with a `.` at its end that is no row `.`; the row `ready` behind
/// it is the arrival's.
fn arrivals_of_long_rows() -> Case {
    let near = (MAX_ARRIVAL - 2..=MAX_ARRIVAL + 2).chain([2 * MAX_ARRIVAL]);
    let mut pairs = vec![];
    for size in near.chain(MAX_ROW - 1..=MAX_ROW + 2).chain([2 * MAX_ROW]) {
        let row = x(size);
        pairs.push((bring(&format!("{row}.\nready\n")), TOO_LONG));
        pairs.push(("ready".to_string(), "ready,0"));
    }
    commands(&pairs)
}

/// Without a row `.` an arrival goes on to the end of the input.
fn arrivals_at_the_end() -> Vec<Case> {
    let rows = |size: usize| "bring\n".to_string() + &filled("Q,0,nil\n", size);
    vec![
        unended(rows(MAX_ARRIVAL), "refused,1,2"),
        unended(rows(MAX_ARRIVAL - 1) + ".", "refused,1,2"),
        unended(rows(MAX_ARRIVAL) + ".", TOO_LONG),
        unended(rows(MAX_ARRIVAL + 1), TOO_LONG),
        unended(rows(2 * MAX_ROW), TOO_LONG),
        unended(rows(2 * MAX_ROW) + &x(2 * MAX_ROW), TOO_LONG),
    ]
}

fn many_commands() -> Case {
    let agent = String::from_utf8(bytes(&arrival_rows(&chain(250)))).unwrap_or_default();
    let round = [
        (bring(&agent), "brought,3"),
        ("door,3,0,0".to_string(), "passes"),
        ("withdraw".to_string(), "withdrawn,3"),
        ("step,0,0,0".to_string(), "silent"),
        ("ready".to_string(), "ready,0"),
    ];
    commands(&vec![round; MANY_BYTES / agent.len() + 1].concat())
}

pub fn all() -> Vec<Case> {
    let mut cases = heads();
    cases.extend(command_rows());
    cases.extend(arrivals());
    cases.push(arrivals_of_long_rows());
    cases.extend(arrivals_at_the_end());
    cases.push(many_commands());
    cases
}
