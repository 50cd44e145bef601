//! What cases cover: a count for each thing that is seen to happen in them.

use super::cover_sandboxes::{self as sandboxes, Others};
use super::cover_wildcards as wildcards;
use super::cover_withdrawals::History;
use super::required::{required, Wanted};
use super::shares::is_half;
use super::Kind;
use crate::engine::{State, MAX_THREADS};
use crate::flow::{first_broken, net_places, reach, report, Broken, Report};
use crate::listing::{self, letters, part, share, usage};
use crate::rows::*;
use crate::script::{self, Command, Input, MAX_ARRIVAL};
use std::cmp::Ordering;
use std::collections::{BTreeMap, BTreeSet};

const READ: &str = "a slice is read without failure";

/// One thing seen, and the row that it names (else 0).
pub struct Seen {
    pub name: String,
    pub row: usize,
}

/// The counts, in how many cases, and the different rows that were named.
#[derive(Default)]
pub struct Cover {
    counts: BTreeMap<String, usize>,
    cases: BTreeMap<String, usize>,
    rows: BTreeMap<String, BTreeSet<usize>>,
}

/// The different things seen, each once.
fn things(seen: &[Seen]) -> BTreeSet<&str> {
    seen.iter().map(|thing| thing.name.as_str()).collect()
}

impl Cover {
    /// Adds what is seen in one case.
    pub fn add(&mut self, seen: &[Seen]) {
        for name in things(seen) {
            *self.cases.entry(name.to_string()).or_default() += 1;
        }
        for thing in seen {
            *self.counts.entry(thing.name.clone()).or_default() += 1;
            if thing.row > 0 {
                self.rows.entry(thing.name.clone()).or_default().insert(thing.row);
            }
        }
    }

    pub fn count(&self, name: &str) -> usize {
        self.counts.get(name).copied().unwrap_or(0)
    }

    fn cases(&self, name: &str) -> usize {
        self.cases.get(name).copied().unwrap_or(0)
    }

    /// Whether a thing seen here was seen in fewer cases than wanted.
    pub fn wants(&self, seen: &[Seen], wanted: usize) -> bool {
        things(seen).into_iter().any(|name| self.cases(name) < wanted)
    }

    /// A row for each thing: how often, and at how many different rows.
    pub fn table(&self) -> String {
        let mut table = String::new();
        for (name, count) in &self.counts {
            table += &format!("{count:7}  {name}");
            if let Some(rows) = self.rows.get(name) {
                table += &format!(" ({} different rows)", rows.len());
            }
            table.push('\n');
        }
        table
    }

    /// What is seen less often, in fewer cases, or at fewer different rows, than
    /// it must be.
    pub fn missing(&self, kind: Kind) -> Vec<String> {
        let rows = |name: &str| self.rows.get(name).map_or(0, BTreeSet::len);
        let lacks = |wanted: &Wanted| {
            self.count(&wanted.name) < wanted.least
                || self.cases(&wanted.name) < wanted.cases
                || rows(&wanted.name) < wanted.rows
        };
        required(kind).into_iter().filter(lacks).map(|wanted| wanted.name).collect()
    }
}

/// All that is seen in a case, a thing as often as it happens.
pub fn seen(kind: Kind, case: &[u8]) -> Vec<Seen> {
    let mut watcher = Watcher { seen: vec![] };
    match kind {
        Kind::Listing => watcher.listing(case),
        Kind::Script => watcher.script(case),
    }
    watcher.seen
}

struct Watcher {
    seen: Vec<Seen>,
}

impl Watcher {
    fn note(&mut self, name: impl Into<String>) {
        self.note_row(name, 0);
    }

    fn note_row(&mut self, name: impl Into<String>, row: usize) {
        self.seen.push(Seen { name: name.into(), row });
    }

    fn wildcards(&mut self, names: Vec<String>) {
        names.into_iter().for_each(|name| self.note(format!("wildcard: {name}")));
    }

    fn sandboxes(&mut self, names: Vec<String>) {
        names.into_iter().for_each(|name| self.note(format!("sandbox: {name}")));
    }

    fn listing(&mut self, case: &[u8]) {
        if case.len().abs_diff(listing::MAX_INPUT) <= 1 {
            self.note(format!("input of {} bytes", case.len()));
        }
        if case.len() > listing::MAX_INPUT {
            return;
        }
        let (net_text, estimate_text) = part(case);
        let (mut net, mut estimate) = (Net::empty(), Estimate::empty());
        if let Err(refusal) = read_net(net_text, &mut net) {
            return self.refused("net", net_text, refusal);
        }
        if let Err(refusal) = read_estimate(estimate_text, net.sites, &mut estimate) {
            return self.refused("estimate", estimate_text, refusal);
        }
        self.limits(&net, &estimate);
        self.wildcards(wildcards::taken(&net.lines));
        self.sandboxes(sandboxes::taken(net_text, &net, &estimate));
        self.sandboxes(sandboxes::checked(&net, &estimate));
        self.rules(&net, &estimate);
    }

    /// The first rule broken, or what an accepted net has.
    fn rules(&mut self, net: &Net, estimate: &Estimate) {
        let places = net_places(net, estimate);
        // A line whose target may be several sites.
        let several = |q: usize| match net.lines[q] {
            Line::Out { target, .. }
            | Line::In { target, .. }
            | Line::Read { target, .. }
            | Line::Eval { target, .. } => reach(target, places[q], estimate).count_ones() > 1,
            _ => false,
        };
        match first_broken(net, estimate, &places) {
            Some(Broken::Tuple(_)) => self.note("broken: T"),
            Some(Broken::Line(q)) => {
                self.line("broken", &net.lines[q], several(q));
                self.wildcards(wildcards::broken(net, estimate, &places, q));
            }
            None => {
                self.rights(&report(net, estimate, &places));
                for q in (0..net.lines.len()).filter(|&q| several(q)) {
                    self.line("accepted", &net.lines[q], true);
                }
                self.shares(net, estimate);
                self.wildcards(wildcards::accepted(net, estimate, &places));
            }
        }
    }

    /// Whether there are V rows, and the rights in each.
    fn rights(&mut self, report: &Report) {
        let empty = report.iter().all(|&rights| rights == 0);
        let verdict = if empty { "report empty" } else { "report not empty" };
        self.note(format!("accepted: {verdict}"));
        for &rights in report.iter().filter(|&&rights| rights != 0) {
            self.note(format!("rights printed: {}", letters(rights)));
        }
    }

    /// What becomes of the share in each U row.
    fn shares(&mut self, net: &Net, estimate: &Estimate) {
        for site in members(below(net.sites)) {
            let (held, used) = usage(net, estimate, site);
            self.note(format!("share: {}", rounding(held, used)));
            if held >= MANY_RIGHTS && is_half(held, used) {
                self.note("share: a half, many rights");
            }
            if NAMED_SHARES.contains(&(held, used)) {
                self.note(format!("share: {used} of {held}"));
            }
        }
    }

    fn line(&mut self, verdict: &str, line: &Line, several: bool) {
        let what = format!("{verdict}: Q {}", word(line));
        if several {
            self.note(format!("{what} towards several sites"));
        }
        self.note(what);
    }

    /// A text refused: by number, and by the group of the row named.
    fn refused(&mut self, part: &str, text: &[u8], refusal: Refusal) {
        let Refusal { number, row } = refusal;
        self.note_row(format!("{part}: refused {number}"), row);
        if part == "net" && number == FREE_VARIABLE && wildcards::lacks_binder(text) {
            self.note("wildcard: net refused 8, for want of a binder");
        }
        let rows: Vec<&[u8]> = text.split(|&b| b == b'\n').collect();
        let Some(named) = row.checked_sub(1).and_then(|at| rows.get(at)) else {
            return;
        };
        self.wildcards(wildcards::refused(part, named, number));
        self.sandboxes(sandboxes::refused(part, &rows[..row - 1], named, number));
        let Some(&letter) = named.first().filter(|letter| b"NRDTLQBAE".contains(letter)) else {
            return;
        };
        self.note(format!("{part}: refused {number} at {}", char::from(letter)));
        let line = named.split(|&b| b == b',').nth(2).unwrap_or_default();
        if let Some(word) = WORDS.iter().find(|word| letter == b'Q' && word.as_bytes() == line) {
            self.note(format!("{part}: refused {number} at Q {word}"));
        }
        let above = rows[..row - 1].iter().filter(|other| other.first() == Some(&letter)).count();
        let limits = [(b'T', MAX_TUPLES), (b'A', MAX_TUPLES), (b'L', MAX_ROOTS), (b'Q', MAX_LINES)];
        if number == OVER_LIMIT && limits.contains(&(letter, above)) {
            self.note(format!("{part}: one row of {} too many", char::from(letter)));
        }
    }

    fn limits(&mut self, net: &Net, estimate: &Estimate) {
        let counts = [
            (usize::from(net.sites), "sites", [1, SITES]),
            (net.tuples.len(), "T rows", [MAX_TUPLES - 1, MAX_TUPLES]),
            (net.roots.len(), "L rows", [MAX_ROOTS - 1, MAX_ROOTS]),
            (net.lines.len(), "Q rows", [MAX_LINES - 1, MAX_LINES]),
            (estimate.tuples.len(), "A rows", [MAX_TUPLES - 1, MAX_TUPLES]),
        ];
        for (count, what, edges) in counts {
            if edges.contains(&count) {
                self.note(format!("taken: {count} {what}"));
            }
        }
    }

    fn script(&mut self, case: &[u8]) {
        let mut input = Input::new(case);
        let mut state = match input.start().expect(READ) {
            Ok(state) => state,
            Err(refusal) => return self.note(format!("start: refused {}", refusal.number)),
        };
        self.note("start: taken");
        let (mut history, mut others) = (History::default(), Others::of(&state));
        while let Some(command) = input.next_command().expect(READ) {
            let before = state.clone();
            let answer = script::obey(&mut state, &command);
            let answer = String::from_utf8_lossy(&answer);
            let fields: Vec<&str> = answer.trim_end().split(',').collect();
            self.command(&before, &state, &command, &fields, &mut history);
            let call = called(&command);
            self.sandboxes(others.follow(&before, &state, &command, call, &fields));
        }
    }

    fn command(
        &mut self,
        before: &State,
        after: &State,
        command: &Command,
        fields: &[&str],
        history: &mut History,
    ) {
        let withdrawals = history.follow(before, after, command, fields);
        withdrawals.into_iter().for_each(|name| self.note(format!("withdraw: {name}")));
        let (name, numbers) = called(command);
        match (name, numbers, fields) {
            (_, _, ["bad command"]) => self.note("bad command"),
            ("bring", ..) => self.bring(before, after, command, fields),
            ("door", Some(numbers), _) => self.door(before, numbers, fields),
            ("ready", _, [_, place]) => {
                self.note(if *place == "none" { "ready: none" } else { "ready: a place" });
                self.wildcards(wildcards::ready(before, place));
            }
            (_, Some([k, m, r]), _) => {
                self.step(name, before, [k, m, r], fields);
                let accepts = fields[0] == "performed" && fields[3] == "a";
                if accepts && history.take_in(r, before.threads[k].site) {
                    self.note("accept: an arrival taken in again");
                }
                self.lists(before, after);
            }
            _ => {}
        }
    }

    fn bring(&mut self, before: &State, after: &State, command: &Command, fields: &[&str]) {
        let Command::Bring(text) = command else {
            return self.note("bring: too long");
        };
        if text.len() == MAX_ARRIVAL {
            self.note("bring: of the greatest length");
        }
        let ["refused", number, row] = fields else {
            self.note("bring: taken");
            return self.wildcards(wildcards::brought(&after.net.lines[before.net.lines.len()..]));
        };
        self.note(format!("bring: refused {number}"));
        let named = row.parse::<usize>().ok().and_then(|row| row.checked_sub(1));
        let row = named.and_then(|at| text.split(|&b| b == b'\n').nth(at));
        if let (Some(row), Ok(number)) = (row, number.parse()) {
            self.wildcards(wildcards::refused("bring", row, number));
            self.sandboxes(sandboxes::refused("bring", &[], row, number));
        }
    }

    fn door(&mut self, before: &State, [r, l, _]: [usize; 3], fields: &[&str]) {
        if let ["refused", number, _] = fields {
            return self.note(format!("door: refused {number}"));
        }
        self.note(format!("door: {}", fields[0]));
        self.wildcards(wildcards::door(before, r, l, fields[0]));
    }

    fn step(&mut self, name: &str, before: &State, choice: [usize; 3], fields: &[&str]) {
        self.wildcards(wildcards::step(name, before, choice, fields));
        let [k, ..] = choice;
        let Some(thread) = before.threads.get(k) else {
            return self.note(format!("{name}: refused {}", fields[1]));
        };
        let line = &before.net.lines[usize::from(thread.line)];
        if fields[0] == "refused" {
            return self.note(format!("{name} {}: refused {}", word(line), fields[1]));
        }
        self.note(format!("{name} {}: performed", word(line)));
        if let Line::In { fields, .. } | Line::Read { fields, .. } = line {
            let bound =
                |u: u8| fields.binds() & Var(u).bit() != 0 && thread.bindings.get(Var(u)).is_some();
            if (0..VARS as u8).any(bound) {
                self.note("a variable bound anew");
            }
        }
    }

    fn lists(&mut self, before: &State, after: &State) {
        if after.threads.len() < before.threads.len() {
            self.note("a thread ended");
        }
        if after.threads.len() == MAX_THREADS && before.threads.len() < MAX_THREADS {
            self.note("64 threads");
        }
        if after.tuples.len() == MAX_TUPLES && before.tuples.len() < MAX_TUPLES {
            self.note("256 tuples");
        }
    }
}

/// The name of a command, and its numbers where it has three.
fn called<'a>(command: &Command<'a>) -> (&'a str, Option<[usize; 3]>) {
    match *command {
        Command::Bring(_) | Command::BringTooLong => ("bring", None),
        Command::Row(b"ready") => ("ready", None),
        Command::Row(row) => {
            let (name, numbers) = script::name_and_numbers(row);
            (std::str::from_utf8(name).unwrap_or_default(), numbers)
        }
        Command::Bad => ("", None),
    }
}

/// Half of the most rights that a home policy has: 5 towards each of 32 sites.
const MANY_RIGHTS: u32 = (LETTERS.len() * SITES / 2) as u32;

/// The counts held and used that document 02, No. 7, names.
pub const NAMED_SHARES: [(u32, u32); 3] = [(16, 1), (16, 3), (4, 3)];

/// Which way the share of a U row is rounded.
fn rounding(held: u32, used: u32) -> &'static str {
    let half = is_half(held, used);
    match (share(held, used) * held).cmp(&(1000 * used)) {
        _ if held == 0 => "0 of 0",
        Ordering::Equal => "exact",
        Ordering::Less if half => "a half, down to the even one",
        Ordering::Less => "down",
        Ordering::Greater if half => "a half, up to the even one",
        Ordering::Greater => "up",
    }
}

const WORDS: [&str; 8] = ["nil", "par", "rep", "out", "in", "read", "eval", "accept"];

pub fn word(line: &Line) -> &'static str {
    match line {
        Line::Nil => "nil",
        Line::Par { .. } => "par",
        Line::Rep { .. } => "rep",
        Line::Out { .. } => "out",
        Line::In { .. } => "in",
        Line::Read { .. } => "read",
        Line::Eval { .. } => "eval",
        Line::Accept { .. } => "accept",
    }
}
