//! What cases cover of withdrawals (document 02, No. 8).

use super::seasons::{LONG_ARRIVAL, MANY_LINES, SHORT_ARRIVAL, SPELLINGS};
use crate::engine::{State, LINES_IN_USE, MAX_THREADS, NONE_TO_WITHDRAW};
use crate::rows::*;
use crate::script::{self, Command};
use std::collections::BTreeMap;

/// An arrival that is present.
struct Present {
    root: usize,
    lines: Vec<Line>,
    /// The sites at which it was taken in.
    taken_in_at: Mask,
    /// Whether a step was performed on one of its lines.
    ran: bool,
}

/// What the command before did.
#[derive(Clone, Copy, PartialEq, Default)]
enum Last {
    #[default]
    Other,
    Brought,
    BringRefused,
    Withdrawn,
    Refused,
}

/// What happened to arrivals so far in a script.
#[derive(Default)]
pub struct History {
    present: Vec<Present>,
    /// The lines of arrivals withdrawn, by their root: the last ones.
    withdrawn: BTreeMap<usize, Vec<Line>>,
    /// The line that a number had last, in an arrival withdrawn.
    former: BTreeMap<usize, Line>,
    /// The arrival last refused for want of lines.
    refused: Option<Vec<u8>>,
    /// Lines brought in all, in arrivals of which the longest has so many.
    lines: usize,
    longest: usize,
    /// Withdrawals not refused, one directly behind the other, up to here.
    in_a_row: usize,
    /// The door's answer by root, site and sandbox, and the lines then judged.
    doors: BTreeMap<[usize; 3], (Vec<Line>, String)>,
    last: Last,
    /// Whether the last withdrawal changed the place that is ready.
    ready_changed: bool,
}

impl History {
    /// All that one command adds.
    pub fn follow(
        &mut self,
        before: &State,
        after: &State,
        command: &Command,
        answer: &[&str],
    ) -> Vec<String> {
        let mut seen = Vec::new();
        let last = match (command, answer) {
            (Command::Bring(text), _) => self.bring(before, after, text, answer, &mut seen),
            (Command::Row(b"withdraw"), ["refused", number, _]) => {
                let number = number.parse().unwrap_or_default();
                self.refusal(before, number, &mut seen);
                Last::Refused
            }
            (Command::Row(b"withdraw"), _) => {
                self.withdrawal(before, after, &mut seen);
                Last::Withdrawn
            }
            (Command::Row(row), _) => {
                self.other(before, row, answer, &mut seen);
                Last::Other
            }
            (Command::BringTooLong, _) => Last::BringRefused,
            (Command::Bad, _) => Last::Other,
        };
        if last != Last::Withdrawn {
            self.in_a_row = 0;
            self.ready_changed = false;
        }
        self.last = last;
        seen
    }

    /// Notes that the arrival is taken in at a site; whether it was taken in
    /// before.
    pub fn take_in(&mut self, r: usize, site: Site) -> bool {
        let Some(arrival) = self.present.iter_mut().find(|arrival| arrival.root == r) else {
            return false;
        };
        let again = arrival.taken_in_at != 0;
        arrival.taken_in_at |= site.bit();
        again
    }

    fn bring(
        &mut self,
        before: &State,
        after: &State,
        text: &[u8],
        answer: &[&str],
        seen: &mut Vec<String>,
    ) -> Last {
        if let ["refused", number, row] = answer {
            let named = row.parse::<usize>().ok().and_then(|row| row.checked_sub(1));
            let row = named.and_then(|at| text.split(|&b| b == b'\n').nth(at));
            if row == Some(b"withdraw") {
                seen.push("bring refused 1, a row withdraw".to_string());
            }
            let alone = read_arrival(text, before.net.sites, 0, &mut List::filled(Line::Nil));
            if *number == "2" && alone.is_ok() {
                seen.push("bring refused 2, for want of lines".to_string());
                self.refused = Some(text.to_vec());
            }
            return Last::BringRefused;
        }
        let root = before.net.lines.len();
        let lines = after.net.lines[root..].to_vec();
        self.count(lines.len(), seen);
        if let Some(former) = self.withdrawn.get(&root) {
            let which = if *former == lines { "the same" } else { "other" };
            seen.push(format!("brought, a number given again to {which} lines"));
        }
        if self.refused.as_deref() == Some(text) {
            seen.push("brought, refused with 2 before a withdrawal".to_string());
            self.refused = None;
        }
        self.present.push(Present { root, lines, taken_in_at: 0, ran: false });
        Last::Brought
    }

    /// Counts the lines of one more arrival.
    fn count(&mut self, lines: usize, seen: &mut Vec<String>) {
        let before = self.lines;
        self.lines += lines;
        self.longest = self.longest.max(lines);
        let passes = |limit: usize| before < limit && self.lines >= limit;
        if passes(MAX_LINES + 1) {
            seen.push("more than 256 lines in all".to_string());
        }
        if passes(MANY_LINES) {
            seen.push("1,024 lines in all".to_string());
        }
        if passes(MANY_LINES) && self.longest <= SHORT_ARRIVAL {
            seen.push("1,024 lines in all, in short arrivals".to_string());
        }
        if passes(MANY_LINES) && self.longest >= LONG_ARRIVAL {
            seen.push("1,024 lines in all, in long arrivals".to_string());
        }
    }

    fn refusal(&self, before: &State, number: u8, seen: &mut Vec<String>) {
        seen.push(format!("refused {number}"));
        if number == NONE_TO_WITHDRAW {
            let none = self.withdrawn.is_empty();
            let why = if none { "nothing was brought" } else { "all were withdrawn" };
            seen.push(format!("refused {NONE_TO_WITHDRAW}, {why}"));
        }
        if number == LINES_IN_USE {
            let taken_in_at = self.present.last().map_or(0, |arrival| arrival.taken_in_at);
            let things = standing(before, taken_in_at);
            seen.extend(things.map(|what| format!("refused {LINES_IN_USE}, {what}")));
        }
        match self.last {
            Last::BringRefused => seen.push(format!("refused {number}, behind a refused bring")),
            Last::Withdrawn => seen.push(format!("refused {number}, directly behind one")),
            Last::Refused => seen.push(format!("refused {number}, directly behind a refusal")),
            Last::Brought | Last::Other => {}
        }
    }

    fn withdrawal(&mut self, before: &State, after: &State, seen: &mut Vec<String>) {
        let Some(arrival) = self.present.pop() else { return };
        self.in_a_row += 1;
        self.ready_changed = before.ready() != after.ready();
        let none_left = after.arrivals.is_empty();
        let on_older = |line: u8| after.arrivals.first().is_some_and(|first| line >= first.root);
        let any = |wanted: &dyn Fn(u8) -> bool| after.threads.iter().any(|t| wanted(t.line));
        let things = [
            ("no thread", after.threads.is_empty()),
            ("64 threads", after.threads.len() == MAX_THREADS),
            ("a thread on an older arrival", any(&on_older)),
            ("a thread elsewhere", any(&|line| !on_older(line))),
            ("directly behind bring", self.last == Last::Brought),
            ("behind a refused bring", self.last == Last::BringRefused),
            ("directly behind one", self.last == Last::Withdrawn),
            ("taken in and run to its end", arrival.ran),
            ("never taken in", arrival.taken_in_at == 0),
            ("another is left", !none_left),
            ("three or more in a row, down to none", none_left && self.in_a_row >= 3),
            ("of 256 lines", before.net.lines.len() == MAX_LINES),
            ("line 255", arrival.root == MAX_LINES - 1),
            ("line 0", arrival.root == 0),
        ];
        seen.extend(things.iter().filter(|(_, so)| *so).map(|(what, _)| format!("done, {what}")));
        self.former.extend((arrival.root..).zip(arrival.lines.iter().copied()));
        self.withdrawn.insert(arrival.root, arrival.lines);
    }

    /// A command row other than `withdraw`.
    fn other(&mut self, before: &State, row: &[u8], answer: &[&str], seen: &mut Vec<String>) {
        let text = String::from_utf8_lossy(row);
        if SPELLINGS.contains(&text.as_ref()) {
            seen.push(format!("bad command `{text}`"));
        }
        if row == b"ready" && self.last == Last::Withdrawn && self.ready_changed {
            seen.push("ready, another place than before".to_string());
        }
        match script::name_and_numbers(row) {
            (b"door", Some(numbers)) => self.door(numbers, answer, seen),
            (name @ (b"step" | b"guarded"), Some(numbers)) => {
                let name = String::from_utf8_lossy(name);
                self.step(&name, before, numbers, answer, seen);
            }
            _ => {}
        }
    }

    fn door(&mut self, choice: [usize; 3], answer: &[&str], seen: &mut Vec<String>) {
        let r = choice[0];
        let Some(arrival) = self.present.iter().find(|arrival| arrival.root == r) else {
            if self.withdrawn.contains_key(&r) && answer[..2] == ["refused", "24"] {
                seen.push("door refused 24, root withdrawn".to_string());
            }
            return;
        };
        let now = (arrival.lines.clone(), answer[0].to_string());
        let former = self.doors.insert(choice, now.clone());
        if former.is_some_and(|(lines, answer)| lines != now.0 && answer != now.1) {
            seen.push("door, another answer for a number given again".to_string());
        }
    }

    fn step(
        &mut self,
        name: &str,
        before: &State,
        [k, _, r]: [usize; 3],
        answer: &[&str],
        seen: &mut Vec<String>,
    ) {
        let Some(thread) = before.threads.get(k) else { return };
        let at = usize::from(thread.line);
        let line = before.net.lines[at];
        if answer[0] != "refused" {
            self.performed(at, line, seen);
        }
        if !matches!(line, Line::Accept { .. }) || !self.withdrawn.contains_key(&r) {
            return;
        }
        match (self.present.iter().any(|arrival| arrival.root == r), answer) {
            (false, ["refused", "24", _]) => {
                seen.push(format!("{name} refused 24, root withdrawn"));
            }
            (true, ["refused", "25", _]) => {
                seen.push("accept refused 25, a number given again".to_string());
            }
            (true, ["performed", ..]) => {
                seen.push("accept performed, a number given again".to_string());
            }
            _ => {}
        }
    }

    /// A step performed on line `at`.
    fn performed(&mut self, at: usize, line: Line, seen: &mut Vec<String>) {
        if let Some(arrival) = self.present.iter_mut().rfind(|arrival| arrival.root <= at) {
            arrival.ran = true;
        }
        if self.former.get(&at).is_some_and(|former| *former != line) {
            seen.push("performed, a line whose number had another".to_string());
        }
    }
}

/// Which threads stand on the newest arrival, which was taken in at these sites:
/// at another site, if all of them do.
fn standing(state: &State, taken_in_at: Mask) -> impl Iterator<Item = &'static str> {
    let root = state.arrivals.last().map_or(u8::MAX, |arrival| arrival.root);
    let places: Vec<usize> =
        (0..state.threads.len()).filter(|&k| state.threads[k].line >= root).collect();
    let elsewhere = |k: &usize| state.threads[*k].site.bit() & taken_in_at == 0;
    let on_root = state.threads.iter().any(|thread| thread.line == root);
    let count = state.threads.len();
    let things = [
        ("a thread on the root", on_root),
        ("threads on later lines alone", !on_root),
        ("by one thread of several", places.len() == 1 && count > 1),
        ("by the first of several", places == [0] && count > 1),
        ("by the last of several", places == [count - 1] && count > 1),
        ("by the last of 64", places == [MAX_THREADS - 1]),
        ("by a thread at another site", places.iter().all(elsewhere)),
    ];
    things.into_iter().filter(|(_, so)| *so).map(|(what, _)| what)
}

#[cfg(test)]
mod tests {
    use super::super::{cover, Kind};

    /// A house at s0 takes arrivals in, and lets them send bodies to s1. The
    /// first arrival has line 3.
    const HOUSE: &str = "N,2\nD,0,s1,e\nL,s0,0\nQ,0,rep,1\nQ,1,accept,2,0\nQ,2,nil\n.\n.\n";
    const TAKE_IN: &str = "step,0,0,0\nstep,1,0,3\n";

    /// How often a thing is seen when these commands are run.
    fn count(commands: &str, what: &str) -> usize {
        let seen = cover::seen(Kind::Script, format!("{HOUSE}{commands}").as_bytes());
        seen.iter().filter(|thing| thing.name == format!("withdraw: {what}")).count()
    }

    /// A `nil` arrival is taken in, and no step is performed on its line.
    #[test]
    fn run_to_its_end() {
        let nil = format!("bring\nQ,0,nil\n.\n{TAKE_IN}withdraw\n");
        let par = "bring\nQ,0,par,1,2\nQ,1,nil\nQ,2,nil\n.\n";
        let never = format!("{par}withdraw\n");
        let ran = format!("{par}{TAKE_IN}withdraw\nstep,1,0,0\nwithdraw\n");
        let counts = |what: &str| [&nil, &never, &ran].map(|commands| count(commands, what));
        assert_eq!(counts("done, a thread elsewhere"), [1, 1, 1]);
        assert_eq!(counts("done, never taken in"), [0, 1, 0]);
        assert_eq!(counts("done, taken in and run to its end"), [0, 0, 1]);
        let later = format!("{ran}{par}withdraw\n");
        assert_eq!(count(&later, "done, taken in and run to its end"), 1);
    }

    /// The arrival stands where it was taken in, then its body elsewhere.
    #[test]
    fn by_a_thread_at_another_site() {
        let bring = "bring\nQ,0,eval,1,s1,2,1\nQ,1,nil\nQ,2,par,3,4\nQ,3,nil\nQ,4,nil\n.\n";
        let here = format!("{bring}{TAKE_IN}withdraw\n");
        let elsewhere = format!("{here}step,1,0,0\nwithdraw\nstep,1,0,0\nwithdraw\n");
        let counts = |what: &str| [&here, &elsewhere].map(|commands| count(commands, what));
        assert_eq!(counts("refused 36"), [1, 2]);
        assert_eq!(counts("refused 36, by a thread at another site"), [0, 1]);
        assert_eq!(counts("done, taken in and run to its end"), [0, 1]);
    }
}
