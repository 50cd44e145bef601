//! The cases of document 02, No. 8, written by hand: a warehouse takes in a
//! carrier's agent for a day and sends it away again, over a season.

use super::answered::Script;
use super::scripts::chain;
use super::text::{arrival_rows, bytes};

/// The warehouse at s0 has a ledger at s1, with a lot and a weigher in each
/// tuple, and a list of lots at s2. It takes in agents under sandbox 0, which
/// lets them read the one and put lots out to the other. Its lines are 0 to 2.
const WAREHOUSE: &str = "N,6\nR,s0,s0,a\nR,s0,s1,r\nR,s0,s2,o\nD,0,s1,r\nD,0,s2,o\n\
    T,s1,s3,s4\nT,s1,s3,s5\nL,s0,0\nQ,0,rep,1\nQ,1,accept,2,0\nQ,2,nil\n\
    .\nB,u0,s3\nA,s1,s3,s4\nA,s1,s3,s5\nA,s2,s3\n.\n";

/// An agent that the door passes, one that would take lots out of the ledger,
/// and one that never leaves.
const AGENT: &str = "bring\nQ,0,read,1,s1,!u0,_\nQ,1,out,2,s2,u0\nQ,2,nil\n.";
const TAKER: &str = "bring\nQ,0,in,1,s1,!u0,_\nQ,1,nil\n.";
const STAYER: &str = "bring\nQ,0,rep,1\nQ,1,read,2,s1,!u0,_\nQ,2,nil\n.";
const NIL: &str = "bring\nQ,0,nil\n.";

/// The agent may not be sent away before it has run to its end. The next one
/// gets its number, and the door judges its lines.
const DAY: &[(&str, &str)] = &[
    ("withdraw", "refused,35,0"),
    (AGENT, "brought,3"),
    ("door,3,0,0", "passes"),
    ("step,0,0,0", "silent"),
    ("guarded,1,0,3", "performed,s0,s0,a"),
    ("withdraw", "refused,36,0"),
    ("guarded,1,0,0", "performed,s0,s1,r"),
    ("withdraw", "refused,36,0"),
    ("withdraw", "refused,36,0"),
    ("guarded,1,0,0", "performed,s0,s2,o"),
    ("withdraw", "withdrawn,3"),
    ("withdraw", "refused,35,0"),
    ("withdraw", "refused,35,0"),
    ("door,3,0,0", "refused,24,0"),
    ("step,0,0,0", "silent"),
    ("step,1,0,3", "refused,24,0"),
    ("guarded,1,0,3", "refused,24,0"),
    (TAKER, "brought,3"),
    ("door,3,0,0", "closed"),
    ("step,1,0,3", "refused,25,0"),
    ("withdraw", "withdrawn,3"),
    (AGENT, "brought,3"),
    ("door,3,0,0", "passes"),
    ("step,1,0,3", "performed,s0,s0,a"),
    ("step,1,1,0", "performed,s0,s1,r"),
    ("ready", "ready,0"),
];

/// Newer agents come and go beside one that stays.
const BESIDE: &[(&str, &str)] = &[
    (STAYER, "brought,3"),
    ("step,0,0,0", "silent"),
    ("step,1,0,3", "performed,s0,s0,a"),
    (AGENT, "brought,6"),
    ("withdraw", "withdrawn,6"),
    ("withdraw", "refused,36,0"),
    (TAKER, "brought,6"),
    (AGENT, "brought,8"),
    (NIL, "brought,11"),
    ("bring\nwithdraw\n.", "refused,1,1"),
    ("withdraw", "withdrawn,11"),
    ("withdraw", "withdrawn,8"),
    ("withdraw", "withdrawn,6"),
    ("withdraw", "refused,36,0"),
    ("step,1,0,0", "silent"),
    ("step,2,1,0", "performed,s0,s1,r"),
    ("withdraw", "refused,36,0"),
    ("bring\nQ,0,nil\nwithdraw\n.", "refused,1,2"),
    ("withdraw", "refused,36,0"),
    ("withdraw", "refused,36,0"),
];

/// Agents one behind the other, none of which is taken in.
const DOWN_TO_NONE: &[(&str, &str)] = &[
    (NIL, "brought,3"),
    (AGENT, "brought,4"),
    (TAKER, "brought,7"),
    (STAYER, "brought,9"),
    ("withdraw", "withdrawn,9"),
    ("withdraw", "withdrawn,7"),
    ("withdraw", "withdrawn,4"),
    ("withdraw", "withdrawn,3"),
    ("withdraw", "refused,35,0"),
    ("bring\n.", "refused,5,0"),
    ("withdraw", "refused,35,0"),
    (STAYER, "brought,3"),
    ("bring\nQ,0,rep,0\n.", "refused,5,0"),
    ("withdraw", "withdrawn,3"),
];

/// A house that takes in two agents and no more: without one to take in,
/// nothing is ready.
const TWO_AGENTS: &str = "N,6\nD,0,s1,r\nD,0,s2,o\nT,s1,s3,s4\nL,s0,0\nQ,0,accept,1,0\n\
    Q,1,accept,2,0\nQ,2,nil\n.\nB,u0,s3\nA,s1,s3,s4\nA,s2,s3\n.\n";
const READY: &[(&str, &str)] = &[
    ("ready", "ready,none"),
    (AGENT, "brought,3"),
    ("ready", "ready,0"),
    ("withdraw", "withdrawn,3"),
    ("ready", "ready,none"),
    (TAKER, "brought,3"),
    ("ready", "ready,none"),
    (AGENT, "brought,5"),
    ("step,0,0,5", "performed,s0,s0,a"),
    ("ready", "ready,0"),
    ("withdraw", "refused,36,0"),
    ("step,1,0,0", "performed,s0,s1,r"),
    ("step,1,0,0", "performed,s0,s2,o"),
    ("withdraw", "withdrawn,5"),
    ("ready", "ready,none"),
];

/// The agent's thread becomes the first, and a thread of the net stands
/// behind it.
const FIRST: &str = "N,1\nL,s0,0\nL,s0,2\nQ,0,accept,1,0\nQ,1,nil\nQ,2,par,3,4\nQ,3,nil\n\
    Q,4,rep,5\nQ,5,nil\n.\n.\n";
const FIRST_OF_TWO: &[(&str, &str)] = &[
    ("bring\nQ,0,rep,1\nQ,1,nil\n.", "brought,6"),
    ("step,0,0,6", "performed,s0,s0,a"),
    ("withdraw", "refused,36,0"),
    ("step,0,0,0", "silent"),
    ("withdraw", "refused,36,0"),
    (NIL, "brought,8"),
    ("withdraw", "withdrawn,8"),
    ("withdraw", "refused,36,0"),
];

/// The agent sends a body to s2, which runs there when the agent has ended.
const SENDER: &str = "N,3\nD,0,s2,e\nD,1,s1,r\nT,s1,s2\nL,s0,0\nQ,0,accept,1,0\nQ,1,nil\n\
    .\nA,s1,s2\nE,s2,s1,r\n.\n";
const SENT: &[(&str, &str)] = &[
    ("bring\nQ,0,eval,1,s2,2,1\nQ,1,nil\nQ,2,read,3,s1,s2\nQ,3,nil\n.", "brought,2"),
    ("step,0,0,2", "performed,s0,s0,a"),
    ("withdraw", "refused,36,0"),
    ("step,0,0,0", "performed,s0,s2,e"),
    ("withdraw", "refused,36,0"),
    ("step,0,0,0", "performed,s2,s1,r"),
    ("withdraw", "withdrawn,2"),
];

/// A net without lines: the root is line 0. Rows that are not the command.
const EMPTY: &str = "N,1\n.\n.\n";
const SPELLINGS: &[(&str, &str)] = &[
    ("withdraw", "refused,35,0"),
    (NIL, "brought,0"),
    ("withdraw", "withdrawn,0"),
    ("bring\nQ,0,rep,1\nQ,1,nil\n.", "brought,0"),
    ("withdraw,", "bad command"),
    ("withdraw,0", "bad command"),
    ("withdraw,0,0,0", "bad command"),
    ("Withdraw", "bad command"),
    ("withdraw ", "bad command"),
    (" withdraw", "bad command"),
    ("withdraw\r", "bad command"),
    ("withdrawn", "bad command"),
    ("", "bad command"),
    ("withdraw", "withdrawn,0"),
    ("withdraw", "refused,35,0"),
];

/// Lines fill up until no agent can be brought; then they come free.
fn full() -> Script {
    let rows = String::from_utf8(bytes(&arrival_rows(&chain(251)))).unwrap_or_default();
    let long = format!("bring\n{rows}.");
    let commands = [
        (&long[..], "brought,3"),
        (NIL, "brought,254"),
        (NIL, "brought,255"),
        (NIL, "refused,2,1"),
        (AGENT, "refused,2,1"),
        ("withdraw", "withdrawn,255"),
        (AGENT, "refused,2,2"),
        (NIL, "brought,255"),
        ("withdraw", "withdrawn,255"),
        ("withdraw", "withdrawn,254"),
        (AGENT, "refused,2,3"),
        ("withdraw", "withdrawn,3"),
        (AGENT, "brought,3"),
        (&long, "refused,2,251"),
        ("withdraw", "withdrawn,3"),
        (&long, "brought,3"),
    ];
    Script::new(WAREHOUSE, &commands)
}

/// Weeks of a season, and lines of the agent that comes in each.
const WEEKS: usize = 52;
const AGENT_LINES: usize = 20;

/// An agent a week, 1,040 lines in all. In two weeks it is taken in and runs.
fn season() -> Script {
    let outs: String =
        (1..AGENT_LINES - 1).map(|q| format!("Q,{q},out,{},s2,u0\n", q + 1)).collect();
    let agent = format!("bring\nQ,0,read,1,s1,!u0,_\n{outs}Q,{},nil\n.", AGENT_LINES - 1);
    let mut commands = Vec::new();
    for week in 0..WEEKS {
        commands.push((&agent[..], "brought,3"));
        if week % 26 == 25 {
            commands.extend([("step,0,0,0", "silent"), ("guarded,1,0,3", "performed,s0,s0,a")]);
            commands.push(("guarded,1,0,0", "performed,s0,s1,r"));
            commands.extend([("guarded,1,0,0", "performed,s0,s2,o"); AGENT_LINES - 2]);
        }
        commands.push(("withdraw", "withdrawn,3"));
    }
    commands.push(("withdraw", "refused,35,0"));
    Script::new(WAREHOUSE, &commands)
}

/// The list of threads is full, and none of them stands on the agent's lines;
/// then the last one does.
fn full_threads() -> Script {
    let mut commands = vec![("step,0,0,0", "silent"); 63];
    commands.extend([
        ("step,0,0,0", "refused,27,0"),
        (AGENT, "brought,3"),
        ("withdraw", "withdrawn,3"),
        (AGENT, "brought,3"),
        ("step,1,0,3", "performed,s0,s0,a"),
        ("withdraw", "refused,36,0"),
        ("step,63,1,0", "performed,s0,s1,r"),
        ("withdraw", "refused,36,0"),
        ("step,63,0,0", "performed,s0,s2,o"),
        ("withdraw", "withdrawn,3"),
        ("ready", "ready,0"),
    ]);
    Script::new(WAREHOUSE, &commands)
}

fn all() -> Vec<Script> {
    vec![
        Script::new(WAREHOUSE, DAY),
        Script::new(WAREHOUSE, BESIDE),
        Script::new(WAREHOUSE, DOWN_TO_NONE),
        Script::new(TWO_AGENTS, READY),
        Script::new(FIRST, FIRST_OF_TWO),
        Script::new(SENDER, SENT),
        Script::new(EMPTY, SPELLINGS),
        full(),
        full_threads(),
        season(),
    ]
}

pub fn scripts() -> Vec<String> {
    all().iter().map(Script::text).collect()
}

#[cfg(test)]
mod tests {
    use super::super::answered::{hold_to_answers, printed};
    use super::*;
    use crate::flow::{check, Answer};
    use crate::listing::part;

    #[test]
    fn every_command_prints_its_row() {
        hold_to_answers(&all());
    }

    /// The warehouse is accepted, and nothing is reported.
    #[test]
    fn the_warehouse_is_accepted() {
        let (net, rest) = part(WAREHOUSE.as_bytes());
        let mut report = [1; 1024];
        assert_eq!(check(net, part(rest).0, &mut report), Answer::Accepted);
        assert_eq!(report, [0; 1024]);
    }

    /// A season over, the lines are those of the house, and what was put out
    /// is all that is left.
    #[test]
    fn a_season_leaves_no_lines() {
        let text = season().text();
        let lines = text.lines().filter(|row| row.starts_with("Q,")).count();
        assert_eq!(lines, 3 + 1040);
        let rows = printed(&text);
        let state = rows.iter().position(|row| row.starts_with("state,")).unwrap();
        assert_eq!(rows[state], format!("state,1,{},3", 2 + 2 * (AGENT_LINES - 2)));
        assert_eq!(rows[rows.len() - 2..], ["lines,3", "roots"]);
    }
}
