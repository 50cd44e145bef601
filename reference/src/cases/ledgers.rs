//! The cases of document 02, No. 1, written by hand: "Ledgers have columns
//! that our agents never look at, and binding a spare variable widens the
//! estimate."

/// A ledger at s1 has a lot and a weigher in each tuple. The agent reads lots
/// and puts them out at s2; `COLUMN` is what it has for the weigher.
const NET: &str = "N,6\nR,s0,s1,r\nR,s0,s2,o\nT,s1,s3,s4\nT,s1,s3,s5\nL,s0,0\n\
    Q,0,read,1,s1,!u0,COLUMN\nQ,1,out,2,s2,u0\nQ,2,nil\n";

/// What the agent needs if it does not look at the weigher.
const ESTIMATE: &str = "B,u0,s3\nA,s1,s3,s4\nA,s1,s3,s5\nA,s2,s3\n";

/// A ledger of four columns, each row of which has another lot at its end.
/// The agent looks at two columns at most, by `TEMPLATE`, and its estimate has
/// every lot but s5 for u0, and every site for u1.
const WIDE_NET: &str = "N,6\nR,s0,s1,i\nT,s1,s2,s3,s2,s4\nT,s1,s2,s4,s3,s5\nL,s0,0\n\
    Q,0,in,1,s1,TEMPLATE\nQ,1,nil\n";
const WIDE_ESTIMATE: &str = "B,u0,s2\nB,u0,s3\nB,u0,s4\nB,u1,s0\nB,u1,s1\nB,u1,s2\nB,u1,s3\n\
    B,u1,s4\nB,u1,s5\nA,s1,s2,s3,s2,s4\nA,s1,s2,s4,s3,s5\n";

/// Templates over the wide ledger, and whether the rules hold.
const WIDE: [(&str, bool); 8] = [
    ("_,_,_,_", true),
    ("!u0,_,_,_", true),
    ("_,!u0,_,_", true),
    ("_,_,!u0,_", true),
    ("_,_,_,!u0", false),
    ("_,_,_,!u1", true),
    ("_,s3,_,!u0", true),
    ("_,s4,_,!u0", false),
];

/// Line 0 of a net of two sites, behind `L,s0,0` and before `Q,1,nil`, and
/// the number that the net is refused with; 0 for none.
const LINES: [(&str, u8); 26] = [
    ("in,1,s0,_", 0),
    ("read,1,s0,_,_", 0),
    ("in,1,self,_,_,_", 0),
    ("read,1,s1,_,_,_,_", 0),
    ("in,1,s0,!u0,_", 0),
    ("read,1,s0,_,!u0", 0),
    ("in,1,s0,self,_,s1", 0),
    ("read,1,s0,u0,_", 8),
    ("in,1,s0,_,_,_,_,_", 1),
    ("read,1,s0,s0,s0,_,s0,s0", 1),
    ("out,1,s0,_", 1),
    ("out,1,s0,s1,_", 1),
    ("out,1,_,s0", 1),
    ("in,1,_,s0", 1),
    ("read,1,_,_", 1),
    ("eval,1,_,2,0", 1),
    ("in,1,s0,__", 1),
    ("read,1,s0,s1,__", 1),
    ("in,1,s0,!_", 1),
    ("read,1,s0,_,!_", 1),
    ("in,1,s0,_,u32", 2),
    ("read,1,s0,!u32,_", 2),
    ("in,1,s0,_,s2", 4),
    ("read,1,s0,s2,_", 4),
    ("in,1,s0,!u0,_,u0", 7),
    ("read,1,s0,_,!u0,!u0", 7),
];

/// Rows in which no wildcard may stand, of a net or of an estimate behind it.
const ROWS: [&str; 5] =
    ["N,2\nT,s0,_\n", "N,2\nT,_,s0\n", "N,2\n.\nA,s0,_\n", "N,2\n.\nA,_,s0\n", "N,2\n.\nB,u0,_\n"];

fn ledger(column: &str, more_rows: &str) -> String {
    format!("{}.\n{more_rows}{ESTIMATE}", NET.replace("COLUMN", column))
}

/// The same net with a wildcard and with a spare variable against the same
/// estimate; the latter once more with the rows that it needs.
fn stories() -> [String; 3] {
    let spare_rows = "B,u9,s4\nB,u9,s5\n";
    [ledger("_", ""), ledger("!u9", ""), ledger("!u9", spare_rows)]
}

fn wide_ledger(template: &str) -> String {
    format!("{}.\n{WIDE_ESTIMATE}", WIDE_NET.replace("TEMPLATE", template))
}

fn one_line(line: &str) -> String {
    format!("N,2\nL,s0,0\nQ,0,{line}\nQ,1,nil\n")
}

pub fn listings() -> Vec<String> {
    let mut texts = stories().to_vec();
    texts.extend(WIDE.map(|(template, _)| wide_ledger(template)));
    texts.extend(LINES.map(|(line, _)| one_line(line)));
    texts.extend(ROWS.map(String::from));
    texts
}

/// Two threads that do the same, but for `!u9` and `_`. u9 is bound before;
/// only the first thread binds it anew.
const TWINS: &str = "N,6\nT,s1,s3,s4\nT,s1,s3,s5\nT,s1,s3,s2\nL,s0,0\nL,s0,5\n\
    Q,0,read,1,s1,!u0,!u9\nQ,1,read,2,s1,u0,!u9\nQ,2,in,3,s1,!u1,!u9\nQ,3,out,4,s2,u0,u1,u9\nQ,4,nil\n\
    Q,5,read,6,s1,!u0,!u9\nQ,6,read,7,s1,u0,_\nQ,7,in,8,s1,!u1,_\nQ,8,out,9,s2,u0,u1,u9\nQ,9,nil\n\
    .\n.\nready\nstep,0,0,0\nstep,1,0,0\nstep,0,1,0\nstep,1,1,0\nstep,0,2,0\nstep,1,1,0\nready\n\
    step,1,0,0\nstep,0,0,0\nready\n";

/// The agent of the story as an arrival: with a wildcard the door passes it,
/// with a spare variable it does not.
const ARRIVALS: &str = "N,6\nR,s0,s1,r\nR,s0,s2,o\nD,0,s1,r\nD,0,s2,o\nT,s1,s3,s4\nT,s1,s3,s5\n\
    L,s0,0\nQ,0,rep,1\nQ,1,accept,2,0\nQ,2,nil\n";
const COMMANDS: &str = "bring\nQ,0,read,1,s1,!u0,_\nQ,1,out,2,s2,u0\nQ,2,nil\n.\n\
    bring\nQ,0,read,1,s1,!u0,!u9\nQ,1,out,2,s2,u0\nQ,2,nil\n.\n\
    bring\nQ,0,read,1,s1,_,!u0\nQ,1,nil\n.\nbring\nQ,0,out,1,s2,_\nQ,1,nil\n.\n\
    door,3,0,0\ndoor,6,0,0\ndoor,9,0,0\nstep,0,0,0\nstep,1,0,6\nstep,1,0,9\nstep,1,0,3\n\
    guarded,1,1,0\nguarded,1,0,0\nready\n";

/// The single lines, each brought to a net of two sites.
fn brought_lines() -> String {
    let brought: String =
        LINES.iter().map(|(line, _)| format!("bring\nQ,0,{line}\nQ,1,nil\n.\n")).collect();
    format!("N,2\n.\n.\n{brought}")
}

pub fn scripts() -> Vec<String> {
    let door = format!("{ARRIVALS}.\n{ESTIMATE}.\n{COMMANDS}");
    vec![TWINS.to_string(), door, brought_lines()]
}

#[cfg(test)]
mod tests {
    use super::*;
    use crate::{listing, script};

    fn first_row(input: &str) -> String {
        let listing = String::from_utf8(listing::list(input.as_bytes())).unwrap();
        listing.lines().next().unwrap().to_string()
    }

    #[test]
    fn the_story() {
        assert_eq!(
            stories().map(|text| first_row(&text)),
            ["accepted,0", "broken,Q,0", "accepted,0"]
        );
    }

    #[test]
    fn the_wide_ledger() {
        for (template, holds) in WIDE {
            let expected = if holds { "accepted,0" } else { "broken,Q,0" };
            assert_eq!(first_row(&wide_ledger(template)), expected, "{template}");
        }
    }

    #[test]
    fn single_rows() {
        for (line, number) in LINES {
            let answer = first_row(&one_line(line));
            match number {
                0 => assert!(answer.starts_with("accepted,"), "{line}"),
                8 => assert_eq!(answer, "refused,8,0", "{line}"),
                _ => assert_eq!(answer, format!("refused,{number},3"), "{line}"),
            }
        }
        assert!(ROWS.iter().all(|rows| first_row(rows).starts_with("refused,1,")));
    }

    /// The rows that a script prints.
    fn printed(text: &str) -> Vec<String> {
        let out = String::from_utf8(script::run(text.as_bytes())).unwrap();
        out.lines().map(str::to_string).collect()
    }

    #[test]
    fn lines_are_brought_or_refused() {
        for ((line, number), row) in LINES.iter().zip(&printed(&brought_lines())[1..]) {
            match number {
                0 => assert!(row.starts_with("brought,"), "{line}"),
                8 => assert_eq!(row, "refused,8,0", "{line}"),
                _ => assert_eq!(*row, format!("refused,{number},1"), "{line}"),
            }
        }
    }

    #[test]
    fn twins_differ_in_the_spare_variable() {
        let rows = printed(TWINS);
        assert_eq!(rows[1..8].iter().filter(|row| row.starts_with("performed")).count(), 6);
        let tuples: Vec<&String> = rows.iter().filter(|row| row.starts_with("tuple,s2")).collect();
        assert_eq!(tuples, ["tuple,s2,s3,s3,s4", "tuple,s2,s3,s3,s2"]);
    }

    #[test]
    fn the_door_passes_the_wildcard_alone() {
        let rows = printed(&scripts()[1]);
        let expected = "brought,3 brought,6 brought,9 refused,1,1 passes closed closed silent \
            refused,25,0 refused,25,0 performed,s0,s0,a performed,s0,s1,r performed,s0,s2,o \
            ready,0";
        let expected: Vec<&str> = expected.split_whitespace().collect();
        assert_eq!(rows[1..=expected.len()], expected[..]);
    }
}
