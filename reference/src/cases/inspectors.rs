//! The cases of document 02, No. 3, written by hand: an inspector is sent to
//! another site and reads there. "Senders leave out the `self` row and their
//! agents lose every right at the receiving site, which none of them meant."

use super::answered::Script;
use super::letters::by_number;
use crate::listing::letters;
use crate::rows::{ALL_RIGHTS, LETTERS, NO_RIGHTS};

/// The inspector goes from s0 to s1, reads there, and puts what it read out at
/// s0. `ROWS` are D rows, `ESTIMATE` is an E row or nothing.
const NET: &str = "N,4\nR,s0,s0,i\nR,s0,s1,e\nR,s1,s0,o\nR,s1,s1,r\nD,0,s0,o\nROWST,s1,s2,s3\n\
    L,s0,0\nQ,0,eval,1,s1,3,0\nQ,1,in,2,self,!u0\nQ,2,nil\nQ,3,read,4,self,s2,!u1\n\
    Q,4,out,5,s0,u1\nQ,5,nil\n.\nB,u0,s3\nB,u1,s3\nA,s0,s3\nA,s1,s2,s3\nE,s1,s0,o\nESTIMATE";
const HELD: &str = "E,s1,s1,r\n";

const ACCEPTED: &str = "accepted,0";
const REPORTED: &str = "accepted,1 V,s1,s1,r";
const BROKEN: &str = "broken,Q,0";

/// The D rows of the inspector's sandbox towards s1 and `self`, and the listing
/// up to the U rows, with the E row for s1 and without it.
const SANDBOXES: [(&str, [&str; 2]); 12] = [
    ("D,0,s1,r\n", [ACCEPTED, BROKEN]),
    ("D,0,s1,r\nD,0,self,-\n", [REPORTED, REPORTED]),
    ("D,0,s1,r\nD,0,self,r\n", [ACCEPTED, BROKEN]),
    ("D,0,s1,r\nD,0,self,oirea\n", [ACCEPTED, BROKEN]),
    ("D,0,s1,r\nD,0,self,oiea\n", [REPORTED, REPORTED]),
    ("D,0,s1,-\n", [REPORTED, REPORTED]),
    ("D,0,s1,-\nD,0,self,r\n", [REPORTED, REPORTED]),
    ("D,0,s1,-\nD,0,self,-\n", [REPORTED, REPORTED]),
    ("D,0,self,oirea\n", [REPORTED, REPORTED]),
    ("D,0,s1,r\nD,0,s2,-\nD,1,self,-\n", [ACCEPTED, BROKEN]),
    ("D,0,self,-\nD,0,s2,-\nD,0,s1,r\n", [REPORTED, REPORTED]),
    ("D,0,s1,oirea\n", [BROKEN, BROKEN]),
];

/// The inspector goes to one of two sites and reads there. E rows must have
/// what the sandbox holds at the other site, whatever it has for `self`.
const ROUND: &str = "N,4\nR,s0,s0,i\nR,s0,s1,e\nR,s0,s2,e\nR,s1,s1,r\nR,s1,s2,r\nR,s2,s1,r\n\
    R,s2,s2,r\nROWST,s0,s1\nT,s0,s2\nT,s1,s3\nT,s2,s3\nL,s0,0\nQ,0,in,1,s0,!u0\n\
    Q,1,eval,2,u0,3,0\nQ,2,nil\nQ,3,read,4,self,s3\nQ,4,nil\n.\nB,u0,s1\nB,u0,s2\nA,s0,s1\n\
    A,s0,s2\nA,s1,s3\nA,s2,s3\nE,s1,s2,r\nE,s2,s1,r\nE,s2,s2,r\nESTIMATE";

const EVERY: &str = "accepted,4 V,s1,s1,r V,s1,s2,r V,s2,s1,r V,s2,s2,r";
const SECOND: &str = "accepted,2 V,s1,s2,r V,s2,s2,r";

/// The D rows of its sandbox, and the listing with the E row for s1.
const ROUND_SANDBOXES: [(&str, &str); 6] = [
    ("D,0,s1,r\nD,0,s2,r\n", ACCEPTED),
    ("D,0,s1,r\nD,0,s2,r\nD,0,self,r\n", ACCEPTED),
    ("D,0,s1,r\nD,0,s2,r\nD,0,self,-\n", EVERY),
    ("D,0,s1,r\nD,0,s2,r\nD,0,self,o\n", EVERY),
    ("D,0,s1,r\nD,0,s2,-\n", SECOND),
    ("D,0,s1,r\nD,0,s2,-\nD,0,self,-\n", EVERY),
];

/// Rows behind `N,2`, and the refusal; none if it is empty.
const ROWS: [(&str, &str); 34] = [
    ("D,0,s1,-\n", ""),
    ("D,0,self,-\n", ""),
    ("D,31,s0,-\nD,31,self,-\n", ""),
    ("D,0,s0,-\nD,0,s1,-\nD,0,self,-\nD,1,self,-\nD,1,s1,-\nD,1,s0,-\n", ""),
    ("D,0,s1,-\nD,0,s1,o\n", "refused,3,3"),
    ("D,0,s1,o\nD,0,s1,-\n", "refused,3,3"),
    ("D,0,s1,-\nD,0,s1,-\n", "refused,3,3"),
    ("D,0,self,-\nD,0,self,-\n", "refused,3,3"),
    ("D,0,self,-\nD,0,self,oirea\n", "refused,3,3"),
    ("D,0,self,r\nD,0,self,-\n", "refused,3,3"),
    ("D,0,s1,-\nD,0,s0,o\nD,0,self,-\nD,1,s1,-\nD,0,s1,-\n", "refused,3,6"),
    ("D,0,self,-\nD,0,s0,-\nD,1,self,-\nD,0,self,-\n", "refused,3,5"),
    ("T,s0,s1\nD,0,self,-\n", "refused,3,3"),
    (".\nD,0,self,-\n", "refused,3,1"),
    ("R,s0,s1,-\n", "refused,1,2"),
    ("R,s0,s0,-\n", "refused,1,2"),
    (".\nE,s0,s1,-\n", "refused,1,1"),
    (".\nE,s0,s0,-\n", "refused,1,1"),
    ("D,0,s1,--\n", "refused,1,2"),
    ("D,0,s1,-o\n", "refused,1,2"),
    ("D,0,s1,o-\n", "refused,1,2"),
    ("D,0,s1,\n", "refused,1,2"),
    ("D,0,self,--\n", "refused,1,2"),
    ("D,0,self,-oirea\n", "refused,1,2"),
    ("D,0,self,oirea-\n", "refused,1,2"),
    ("D,0,self,\n", "refused,1,2"),
    ("D,0,-,o\n", "refused,1,2"),
    ("D,-,self,-\n", "refused,1,2"),
    ("D,0,u0,-\n", "refused,1,2"),
    ("D,32,s1,-\n", "refused,2,2"),
    ("D,32,self,-\n", "refused,2,2"),
    ("D,0,s32,-\n", "refused,2,2"),
    ("D,0,s2,-\n", "refused,4,2"),
    ("D,0,s31,-\n", "refused,4,2"),
];

fn inspector(rows: &str, estimate: &str) -> String {
    NET.replace("ROWS", rows).replace("ESTIMATE", estimate)
}

fn round(rows: &str, estimate: &str) -> String {
    ROUND.replace("ROWS", rows).replace("ESTIMATE", estimate)
}

pub fn listings() -> Vec<String> {
    let mut texts = Vec::new();
    for (rows, _) in SANDBOXES {
        texts.extend([inspector(rows, HELD), inspector(rows, "")]);
    }
    for (rows, _) in ROUND_SANDBOXES {
        texts.extend([round(rows, HELD), round(rows, "")]);
    }
    texts.extend(ROWS.map(|(rows, _)| format!("N,2\n{rows}")));
    texts
}

/// The inspector's own steps, and the one of the thread that waits for it.
fn inspections() -> [Script; 3] {
    let begin = |rows: &str, estimate: &str| inspector(rows, estimate) + ".\n";
    let sent = ("guarded,0,0,0", "performed,s0,s1,e");
    let rest = [
        ("guarded,1,0,0", "performed,s1,s0,o"),
        ("guarded,0,1,0", "performed,s0,s0,i"),
        ("ready", "ready,none"),
    ];
    let reads = [&[sent, ("guarded,1,0,0", "performed,s1,s1,r")][..], &rest].concat();
    let refused = [("guarded,1,0,0", "refused,26,0"), ("step,1,0,0", "performed,s1,s1,r")];
    let closed = [&[sent], &refused[..], &rest].concat();
    [
        Script::new(&begin("D,0,s1,r\n", HELD), &reads),
        Script::new(&begin("D,0,s1,r\n", ""), &reads),
        Script::new(&begin("D,0,s1,r\nD,0,self,-\n", ""), &closed),
    ]
}

/// A body that has all rights on s1 as far as `self` goes, and a thread for each
/// of them: out, in, read, eval, accept.
const FIVE: &str = "N,2\nR,s0,s1,e\nR,s1,s1,oirea\nD,0,s1,oirea\nROWST,s1,s0\nL,s0,0\n\
    Q,0,eval,1,s1,2,0\nQ,1,nil\nQ,2,par,3,5\nQ,3,out,4,self,s1\nQ,4,nil\nQ,5,par,6,8\n\
    Q,6,in,7,self,s0\nQ,7,nil\nQ,8,par,9,11\nQ,9,read,10,self,s0\nQ,10,nil\nQ,11,par,12,15\n\
    Q,12,eval,13,self,14,1\nQ,13,nil\nQ,14,nil\nQ,15,accept,16,1\nQ,16,nil\n.\n.\n";
const SENT: [(&str, &str); 6] = [
    ("step,0,0,0", "performed,s0,s1,e"),
    ("guarded,0,0,0", "silent"),
    ("guarded,1,0,0", "silent"),
    ("guarded,2,0,0", "silent"),
    ("guarded,3,0,0", "silent"),
    ("bring\nQ,0,nil\n.", "brought,17"),
];

/// Each thread makes a guarded step, the last one first; `held` are the rights
/// that the sandbox has for `self`.
fn five_steps(rows: &str, held: u8) -> Script {
    let mut commands = SENT.map(|(command, row)| (command.to_string(), row.to_string())).to_vec();
    for k in (0..LETTERS.len()).rev() {
        let right = 1 << k;
        let performed = format!("performed,s1,s1,{}", letters(right));
        let row = if held & right != 0 { performed } else { "refused,26,0".to_string() };
        commands.push((format!("guarded,{k},0,17"), row));
    }
    let commands: Vec<(&str, &str)> =
        commands.iter().map(|(command, row)| (&command[..], &row[..])).collect();
    Script::new(&FIVE.replace("ROWS", rows), &commands)
}

/// No row, `-`, and some rows with rights: each right alone, all but one, all.
fn guarded_fives() -> Vec<Script> {
    let mut scripts = vec![five_steps("", ALL_RIGHTS), five_steps("D,0,self,-\n", NO_RIGHTS)];
    for (held, rights) in by_number().iter().enumerate().skip(1) {
        let held = held as u8;
        let count = rights.len();
        if count == 1 || count + 1 >= LETTERS.len() {
            scripts.push(five_steps(&format!("D,0,self,{rights}\n"), held));
        }
    }
    scripts
}

/// A house at s0 takes in agents that read where they are. Sandboxes have r
/// there, and for `self`: 0 no row, 1 `-`, 2 r, 3 all but r, 4 no row, and `-`
/// towards another site; 5 has `-` there, and 6 no row at all.
const HOUSE: &str = "N,3\nR,s0,s0,ra\nD,0,s0,r\nD,1,s0,r\nD,1,self,-\nD,2,s0,r\nD,2,self,r\n\
    D,3,s0,r\nD,3,self,oiea\nD,4,s0,r\nD,4,s1,-\nD,5,s0,-\nT,s0,s1\nLINES.\nA,s0,s1\n.\n";
const READER: &str = "bring\nQ,0,read,1,self,s1\nQ,1,nil\n.";
const TAKER: &str = "bring\nQ,0,in,1,self,s1\nQ,1,nil\n.";

/// The same agent at each door, and in a run.
fn doors() -> Script {
    let lines = "L,s0,0\nL,s0,2\nQ,0,accept,1,1\nQ,1,nil\nQ,2,accept,3,0\nQ,3,nil\n";
    let commands = [
        ("ready", "ready,none"),
        (READER, "brought,4"),
        (TAKER, "brought,6"),
        ("door,4,0,0", "passes"),
        ("door,4,0,1", "closed"),
        ("door,4,0,2", "passes"),
        ("door,4,0,3", "closed"),
        ("door,4,0,4", "passes"),
        ("door,4,0,5", "closed"),
        ("door,4,0,6", "closed"),
        ("door,6,0,0", "closed"),
        ("door,4,1,0", "closed"),
        ("ready", "ready,1"),
        ("step,0,0,4", "refused,25,0"),
        ("guarded,0,0,4", "refused,25,0"),
        ("step,1,0,6", "refused,25,0"),
        ("guarded,1,0,4", "performed,s0,s0,a"),
        ("ready", "ready,1"),
        ("guarded,1,0,0", "performed,s0,s0,r"),
        ("ready", "ready,none"),
    ];
    Script::new(&HOUSE.replace("LINES", lines), &commands)
}

/// One thread takes agents in under a sandbox; what then is ready.
fn ready(sandbox: usize, opens: bool) -> Script {
    let lines = format!("L,s0,0\nL,s0,2\nQ,0,accept,1,{sandbox}\nQ,1,nil\nQ,2,rep,3\nQ,3,nil\n");
    let (place, answer) =
        if opens { ("ready,0", "performed,s0,s0,a") } else { ("ready,1", "refused,25,0") };
    let commands = [("ready", "ready,1"), (READER, "brought,4"), ("ready", place)];
    let step = [("step,0,0,4", answer), ("ready", if opens { "ready,0" } else { "ready,1" })];
    Script::new(&HOUSE.replace("LINES", &lines), &[&commands[..], &step].concat())
}

/// An agent sends a body to s1, or to one of s1 and s2, which reads there.
const SENDERS: &str = "N,4\nD,0,s0,r\nD,0,s1,e\nD,0,s2,e\nD,1,s1,r\nD,1,s2,r\nROWST,s0,s1\n\
    T,s0,s2\nT,s1,s3\nL,s0,0\nQ,0,accept,1,0\nQ,1,nil\n.\nB,u0,s1\nB,u0,s2\nA,s0,s1\nA,s0,s2\n\
    A,s1,s3\nE,s1,s2,r\nE,s2,s1,r\nESTIMATE.\n";
const TO_ONE: &str = "bring\nQ,0,eval,1,s1,2,1\nQ,1,nil\nQ,2,read,3,self,s3\nQ,3,nil\n.";
const TO_TWO: &str =
    "bring\nQ,0,read,1,s0,!u0\nQ,1,eval,2,u0,3,1\nQ,2,nil\nQ,3,read,4,self,s3\nQ,4,nil\n.";
const IDLE: &str = "bring\nQ,0,eval,1,s1,2,1\nQ,1,nil\nQ,2,nil\n.";

/// E rows that both bodies' sandbox needs where it holds r for `self`.
const BOTH: &str = "E,s1,s1,r\nE,s2,s2,r\n";

/// The row for `self` of the bodies' sandbox, the E rows beside the others, and
/// what the door says to each agent.
const BODIES: [(&str, &str, [&str; 3]); 7] = [
    ("", BOTH, ["passes", "passes", "passes"]),
    ("", "", ["closed", "closed", "closed"]),
    ("D,1,self,-\n", BOTH, ["closed", "closed", "passes"]),
    ("D,1,self,-\n", "", ["closed", "closed", "passes"]),
    ("D,1,self,ir\n", BOTH, ["passes", "passes", "passes"]),
    ("D,1,self,ir\n", "", ["closed", "closed", "closed"]),
    ("D,1,self,o\n", BOTH, ["closed", "closed", "passes"]),
];

/// The door, and the accept of the first agent.
fn bodies() -> Vec<Script> {
    let script = |(own, estimate, [one, two, idle]): (&str, &str, [&str; 3])| {
        let accept = if one == "passes" { "performed,s0,s0,a" } else { "refused,25,0" };
        let commands = [
            (TO_ONE, "brought,2"),
            (TO_TWO, "brought,6"),
            (IDLE, "brought,11"),
            ("door,2,0,0", one),
            ("door,6,0,0", two),
            ("door,11,0,0", idle),
            ("step,0,0,2", accept),
        ];
        Script::new(&SENDERS.replace("ROWS", own).replace("ESTIMATE", estimate), &commands)
    };
    BODIES.into_iter().map(script).collect()
}

fn all() -> Vec<Script> {
    let mut all = Vec::from(inspections());
    all.extend(guarded_fives());
    all.push(doors());
    // Sandboxes of the house, and whether the agent is let in under them.
    let open = [(0, true), (1, false), (2, true), (3, false), (4, true), (5, false)];
    all.extend(open.map(|(sandbox, opens)| ready(sandbox, opens)));
    all.extend(bodies());
    all
}

pub fn scripts() -> Vec<String> {
    all().iter().map(Script::text).collect()
}

#[cfg(test)]
mod tests {
    use super::super::answered::hold_to_answers;
    use super::*;
    use crate::listing;

    /// The listing up to the U rows, in one row.
    fn listed(input: &str) -> String {
        let listing = String::from_utf8(listing::list(input.as_bytes())).unwrap();
        let rows: Vec<&str> = listing.lines().take_while(|row| !row.starts_with("U,")).collect();
        rows.join(" ")
    }

    #[test]
    fn the_inspector_is_judged() {
        for (rows, [with, without]) in SANDBOXES {
            assert_eq!(listed(&inspector(rows, HELD)), with, "{rows}");
            assert_eq!(listed(&inspector(rows, "")), without, "{rows}");
        }
    }

    #[test]
    fn the_round_is_judged() {
        for (rows, with) in ROUND_SANDBOXES {
            assert_eq!(listed(&round(rows, HELD)), with, "{rows}");
            assert_eq!(listed(&round(rows, "")), "broken,Q,1", "{rows}");
        }
    }

    #[test]
    fn rows_are_read_or_refused() {
        for (rows, refusal) in ROWS {
            let expected = if refusal.is_empty() { "accepted,0" } else { refusal };
            assert_eq!(listed(&format!("N,2\n{rows}")), expected, "{rows}");
        }
    }

    #[test]
    fn every_command_prints_its_row() {
        hold_to_answers(&all());
    }
}
