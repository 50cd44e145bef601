//! Scripts with withdrawals (document 02, No. 8): "Bring has nothing that takes
//! it back, so lines fill up over a season." A house takes arrivals in, lets
//! them run, and sends them away, over and over.

use super::arrivals::sender;
use super::nets::{accepted, add_own, close, shape, some_rights, Style};
use super::rng::Rng;
use super::scripts::{chain, choices, doorway, friendly_rows, Aim, Writer, STYLE};
use super::text::{arrival_rows, bytes, estimate_rows, net_rows, Rows};
use crate::engine::State;
use crate::rows::*;

/// Nets are small, so that most lines are those of arrivals.
pub const SMALL: Style = Style { max_lines: 12, max_roots: 3, max_tuples: 5, ..STYLE };

/// How many of a hundred seasons have wildcards.
const WILDCARDS: usize = 25;

/// Rows like the command that are none: those that stored scripts must have,
/// and others.
pub const SPELLINGS: [&str; 4] = ["withdraw,", "withdraw,0", "Withdraw", "withdraw "];
const OTHER_SPELLINGS: [&str; 5] =
    ["withdraw,0,0,0", " withdraw", "withdraw\r", "withdrawn", "withdra"];

/// Attempts at an arrival that is taken in and ends, and steps that it has.
const ATTEMPTS: usize = 6;
const MOST_STEPS: usize = 20;

/// Lines that a long season brings in all, and its turns at most.
pub const MANY_LINES: usize = 4 * MAX_LINES;
const MOST_TURNS: usize = 120;

/// The most lines of a short arrival, and the fewest and the most of a long one.
pub const SHORT_ARRIVAL: usize = 16;
pub const LONG_ARRIVAL: usize = 60;
const LONGEST_ARRIVAL: usize = 2 * LONG_ARRIVAL;

pub fn case(rng: &mut Rng) -> Vec<u8> {
    let style = if rng.chance(WILDCARDS) { SMALL.with_wildcards(rng) } else { SMALL };
    let (mut net, mut estimate) = accepted(rng, &style);
    add_accepting_thread(rng, &mut net, &mut estimate);
    let (net_text, estimate_text) = (bytes(&net_rows(&net)), bytes(&estimate_rows(&estimate)));
    let state = State::start(&net_text, &estimate_text).expect("an accepted net starts");
    let writer = Writer { rng, state, wildcards: style.wildcards, text: vec![] };
    let commands = Season { writer, gone: vec![], lines: 0 }.write();
    [&net_text[..], b".\n", &estimate_text, b".\n", &commands].concat()
}

/// Adds a thread that takes arrivals in, three or without end, under a sandbox
/// that has rights where tuples may stand.
pub fn add_accepting_thread(rng: &mut Rng, net: &mut Net, estimate: &mut Estimate) {
    let mut grown = net.clone();
    if grown.lines.len() + 4 > MAX_LINES || grown.roots.is_full() {
        return;
    }
    let n = usize::from(grown.sites);
    if grown.tuples.is_empty() {
        grown.tuples.push(shape(rng, n));
    }
    let (site, k) = (Site(rng.below(n) as u8), rng.below(4));
    let policy = fit_sandbox(rng, &mut grown, estimate, site, k);
    if rng.chance(70) {
        join(&mut grown.home[site.index()], &policy);
        grown.home[site.index()][site.index()] |= ACCEPT;
    }
    let first = grown.lines.len() as u8;
    grown.roots.push(Root { site, line: first });
    let accept = |next: u8| Line::Accept { next, sandbox: k as u8 };
    let without_end = rng.chance(70);
    let head = if without_end { Line::Rep { next: first + 1 } } else { accept(first + 1) };
    let rest = if without_end { Line::Nil } else { accept(first + 3) };
    [head, accept(first + 2), rest].into_iter().for_each(|line| grown.lines.push(line));
    if !without_end {
        grown.lines.push(Line::Nil);
    }
    if let Some(closed) = close(&grown, estimate.clone()) {
        (*net, *estimate) = (grown, closed);
    }
}

/// Gives sandbox k rights where tuples may stand; what it then is at the site.
fn fit_sandbox(rng: &mut Rng, net: &mut Net, estimate: &Estimate, site: Site, k: usize) -> Policy {
    let sandbox = &mut net.sandboxes[k];
    for tuple in net.tuples.iter().chain(estimate.tuples.iter()) {
        if rng.chance(50) {
            sandbox.towards[tuple.site.index()] |= some_rights(rng);
        }
    }
    if rng.chance(60) {
        sandbox.towards[rng.below(usize::from(net.sites))] |= EVAL;
    }
    if rng.chance(80) {
        add_own(sandbox, sandbox.towards[site.index()]);
    }
    sandbox.at(site)
}

fn line_of(state: &State, k: usize) -> Line {
    state.net.lines[usize::from(state.threads[k].line)]
}

/// The place of a thread that can take the arrival in.
fn taker(state: &State, root: usize) -> Option<usize> {
    let takes = |k: &usize| {
        matches!(line_of(state, *k), Line::Accept { .. }) && state.judge(false, *k, 0, root).is_ok()
    };
    (0..state.threads.len()).find(takes)
}

struct Season<'a> {
    writer: Writer<'a>,
    /// Roots of the arrivals that were withdrawn, the last one last.
    gone: Vec<usize>,
    /// Lines brought in all.
    lines: usize,
}

impl Season<'_> {
    fn write(mut self) -> Vec<u8> {
        match self.writer.rng.weighted(&[86, 7, 7]) {
            0 => {
                for _ in 0..self.writer.rng.between(2, 7) {
                    self.turn();
                    self.between_turns();
                }
            }
            1 => self.long(Season::several),
            _ => self.long(Season::fill_lines),
        }
        if self.chance(60) {
            self.withdraw_all();
        }
        match self.writer.rng.below(25) {
            0 => self.writer.text.extend_from_slice(b"withdraw"),
            1 => self.writer.text.extend_from_slice(b"bring\nQ,0,nil\nwithdraw\n"),
            _ => {}
        }
        self.writer.text
    }

    fn chance(&mut self, percent: usize) -> bool {
        self.writer.rng.chance(percent)
    }

    fn turn(&mut self) {
        match self.writer.rng.weighted(&[18, 12, 9, 9, 16, 14, 6, 5, 3, 8]) {
            0 => self.run_and_withdraw(),
            1 => self.at_once(),
            2 => self.behind_refused(),
            3 => self.several(),
            4 => self.given_again(),
            5 => self.beside_older(),
            6 => self.fill_lines(),
            7 => self.odd(),
            8 => self.full_threads(),
            _ => self.send_elsewhere(),
        }
    }

    fn between_turns(&mut self) {
        if self.chance(25) {
            self.ask_withdrawn();
        }
        if self.chance(30) {
            let count = self.writer.rng.between(1, 4);
            self.writer.commands(count);
        }
        self.withdraw_sometimes(12);
    }

    /// The same turn until the lines are filled many times over.
    fn long(&mut self, turn: fn(&mut Self)) {
        self.run_and_withdraw();
        self.withdraw_all();
        for _ in 0..MOST_TURNS {
            if self.lines < MANY_LINES {
                turn(self);
                self.withdraw_all();
            }
        }
        self.run_and_withdraw();
    }

    fn bring(&mut self, rows: &[Vec<u8>]) -> Option<usize> {
        let root = self.writer.bring_rows(rows)?;
        self.lines += rows.len();
        Some(root)
    }

    fn withdraw(&mut self) -> Result<u8, Refusal> {
        let asks = self.chance(8);
        if asks {
            self.writer.row("ready");
        }
        self.writer.row("withdraw");
        let answer = self.writer.state.withdraw();
        if let Ok(root) = answer {
            self.gone.push(usize::from(root));
        }
        if asks {
            self.writer.row("ready");
        }
        answer
    }

    fn withdraw_sometimes(&mut self, percent: usize) {
        if self.chance(percent) {
            let _ = self.withdraw();
        }
    }

    /// Until it is refused; there are no more arrivals than lines.
    fn withdraw_all(&mut self) {
        for _ in 0..=MAX_LINES {
            if self.withdraw().is_err() {
                return;
            }
        }
    }

    /// The same state with nothing written, to try something out.
    fn trial(&mut self) -> Season<'_> {
        let Writer { rng, state, wildcards, .. } = &mut self.writer;
        let writer = Writer { rng, state: state.clone(), wildcards: *wildcards, text: vec![] };
        Season { writer, gone: vec![], lines: 0 }
    }

    /// A step that puts a thread on accept, if none stands on one.
    fn open(&mut self) {
        let state = &self.writer.state;
        let on = |wanted: fn(&State, Line) -> bool| {
            (0..state.threads.len()).find(|&k| wanted(state, line_of(state, k)))
        };
        let accepts = on(|_, line| matches!(line, Line::Accept { .. }));
        let spawner = on(|state, line| match line {
            Line::Rep { next } => {
                matches!(state.net.lines[usize::from(next)], Line::Accept { .. })
            }
            _ => false,
        });
        if let (None, Some(k)) = (accepts, spawner) {
            self.writer.step(false, k, 0, 0);
        }
    }

    /// Rows of an arrival that is taken in and then ends, if such are found.
    fn ending_arrival(&mut self) -> Rows {
        self.open();
        let mut rows = vec![];
        for _ in 0..ATTEMPTS {
            let Writer { rng, state, wildcards, .. } = &mut self.writer;
            rows = friendly_rows(rng, state, *wildcards);
            let mut trial = self.trial();
            let root = trial.writer.bring_rows(&rows);
            let ends = |root| trial.take_in(root) && trial.run_out(root, 0);
            if rows.len() > 1 && root.is_some_and(ends) {
                break;
            }
        }
        rows
    }

    /// Rows of an arrival that sends a body to another site and ends, if the
    /// sandbox that it comes under allows it; else of one that ends.
    fn sending_arrival(&mut self) -> Rows {
        self.open();
        let Writer { rng, state, wildcards, .. } = &mut self.writer;
        let (l, d) = doorway(rng, state);
        match sender(rng, state, *wildcards, l, d) {
            Some(lines) => arrival_rows(&lines),
            None => self.ending_arrival(),
        }
    }

    /// Rows of an arrival that a door may pass or not.
    fn any_rows(&mut self) -> Rows {
        match self.writer.rng.weighted(&[45, 45, 10]) {
            0 => {
                let Writer { rng, state, wildcards, .. } = &mut self.writer;
                friendly_rows(rng, state, *wildcards)
            }
            1 => arrival_rows(&self.writer.stranger()),
            _ => arrival_rows(&[Line::Nil]),
        }
    }

    /// A thread takes the arrival in, if one can.
    fn take_in(&mut self, root: usize) -> bool {
        let state = &self.writer.state;
        let Some(k) = taker(state, root) else { return false };
        let guarded = state.judge(true, k, 0, root).is_ok() && self.chance(50);
        self.writer.step(guarded, k, 0, root).is_some()
    }

    /// Steps on the lines from a root on, until no thread stands there or none
    /// can go on; in between a withdrawal is tried. Whether none stands there.
    fn run_out(&mut self, root: usize, asked: usize) -> bool {
        let stands = |state: &State| state.threads.iter().any(|t| usize::from(t.line) >= root);
        for _ in 0..MOST_STEPS {
            let Some((k, m, r)) = self.step_from(root) else { break };
            let guarded = self.writer.state.judge(true, k, m, r).is_ok() && self.chance(50);
            self.writer.step(guarded, k, m, r);
            if stands(&self.writer.state) {
                self.withdraw_sometimes(asked);
            }
        }
        !stands(&self.writer.state)
    }

    /// A step that performs, on a line from a root on.
    fn step_from(&mut self, root: usize) -> Option<(usize, usize, usize)> {
        let Writer { rng, state, .. } = &mut self.writer;
        let mut places: Vec<usize> = (0..state.threads.len()).collect();
        places.retain(|&k| usize::from(state.threads[k].line) >= root);
        rng.shuffle(&mut places);
        for k in places {
            if matches!(line_of(state, k), Line::Rep { .. }) && rng.chance(70) {
                continue;
            }
            let found = choices(rng, state, false, k);
            if !found.is_empty() {
                let (m, r) = *rng.pick(&found);
                return Some((k, m, r));
            }
        }
        None
    }

    /// An arrival is brought, taken in, runs, and is sent away.
    fn run_and_withdraw(&mut self) {
        let rows = self.ending_arrival();
        self.run(&rows, 25);
    }

    /// Likewise, and a body that the arrival sent runs on at another site when
    /// its own thread has ended.
    fn send_elsewhere(&mut self) {
        let rows = self.sending_arrival();
        self.run(&rows, 50);
    }

    /// Brings an arrival, takes it in and lets it run; `asked` is how often a
    /// withdrawal is tried behind a step.
    fn run(&mut self, rows: &[Vec<u8>], asked: usize) {
        let Some(root) = self.bring(rows) else {
            return self.withdraw_sometimes(50);
        };
        self.ask_door(root, 30);
        self.take_in(root);
        self.withdraw_sometimes(40);
        self.run_out(root, asked);
        let _ = self.withdraw();
        self.withdraw_sometimes(25);
    }

    /// "A bring that was not refused, directly followed by a withdrawal."
    fn at_once(&mut self) {
        let rows = self.any_rows();
        self.bring(&rows);
        let _ = self.withdraw();
        self.withdraw_sometimes(20);
    }

    /// A withdrawal behind a bring that is refused.
    fn behind_refused(&mut self) {
        if self.chance(60) {
            let rows = self.any_rows();
            self.bring(&rows);
        }
        let mut rows = self.writer.damaged_rows();
        if self.chance(30) {
            let at = self.writer.rng.below(rows.len() + 1);
            rows.insert(at, b"withdraw".to_vec());
        }
        rows.retain(|row| row != b".");
        self.bring(&rows);
        let _ = self.withdraw();
    }

    /// Some short arrivals; some or all of them are withdrawn.
    fn several(&mut self) {
        for _ in 0..self.writer.rng.between(3, 7) {
            let rows = self.any_rows();
            if rows.len() <= SHORT_ARRIVAL {
                self.bring(&rows);
            }
        }
        if self.chance(50) {
            return self.withdraw_all();
        }
        for _ in 0..self.writer.rng.between(1, 4) {
            let _ = self.withdraw();
        }
    }

    /// Two arrivals with one number, and the same questions about both.
    fn given_again(&mut self) {
        self.open();
        let (l, d) = doorway(self.writer.rng, &self.writer.state);
        for _ in 0..self.writer.rng.between(2, 3) {
            let rows = if self.chance(60) { self.ending_arrival() } else { self.any_rows() };
            let Some(root) = self.bring(&rows) else { continue };
            self.writer.row(&format!("door,{root},{},{d}", l.0));
            if self.chance(50) {
                self.take_in(root);
                self.run_out(root, 0);
            }
            let _ = self.withdraw();
            if self.chance(60) {
                self.ask_withdrawn();
            }
        }
    }

    /// A newer arrival is withdrawn while a thread stands on an older one.
    fn beside_older(&mut self) {
        self.open();
        let Writer { rng, state, wildcards, .. } = &mut self.writer;
        let older = friendly_rows(rng, state, *wildcards);
        if let Some(root) = self.bring(&older) {
            self.take_in(root);
        }
        for _ in 0..self.writer.rng.between(1, 2) {
            let rows = self.any_rows();
            self.bring(&rows);
        }
        let _ = self.withdraw();
        self.withdraw_sometimes(70);
        self.withdraw_sometimes(40);
    }

    /// Arrivals until hardly a line is left; one more is refused, and good when
    /// another was withdrawn.
    fn fill_lines(&mut self) {
        let mut more = self.ending_arrival();
        let left = self.writer.rng.below(3);
        if more.len() <= left {
            more = arrival_rows(&chain(left + 1));
        }
        loop {
            let free = MAX_LINES - self.writer.state.net.lines.len();
            let long = self.writer.rng.between(LONG_ARRIVAL, LONGEST_ARRIVAL);
            let count = long.min(free.saturating_sub(left));
            if count == 0 || self.bring(&arrival_rows(&chain(count))).is_none() {
                break;
            }
        }
        self.bring(&more);
        let _ = self.withdraw();
        if let Some(root) = self.bring(&more) {
            self.ask_door(root, 50);
        }
    }

    /// Rows that are not the command.
    fn odd(&mut self) {
        for _ in 0..self.writer.rng.between(1, 4) {
            let rows = if self.chance(78) { &SPELLINGS[..] } else { &OTHER_SPELLINGS };
            let odd = *self.writer.rng.pick(rows);
            self.writer.row(odd);
            self.withdraw_sometimes(30);
        }
    }

    /// A full list of threads, of which one may stand on the arrival.
    fn full_threads(&mut self) {
        let rows = self.ending_arrival();
        let Some(root) = self.bring(&rows) else { return };
        if self.chance(30) {
            self.take_in(root);
        }
        self.writer.fill(Aim::FullThreads);
        if self.chance(60) {
            self.take_in(root);
        }
        let _ = self.withdraw();
        self.run_out(root, 0);
        self.withdraw_sometimes(50);
    }

    /// Door, step or ready with the root of an arrival that was withdrawn.
    fn ask_withdrawn(&mut self) {
        let Some(&last) = self.gone.last() else { return self.writer.row("ready") };
        let root = if self.chance(70) { last } else { *self.writer.rng.pick(&self.gone) };
        self.open();
        let state = &self.writer.state;
        let accepts = |k: &usize| matches!(line_of(state, *k), Line::Accept { .. });
        match (0..state.threads.len()).find(accepts) {
            Some(k) if self.chance(60) => {
                let guarded = self.chance(50);
                self.writer.step(guarded, k, 0, root);
            }
            _ => self.ask_door(root, 100),
        }
    }

    fn ask_door(&mut self, root: usize, percent: usize) {
        if self.chance(percent) {
            let (l, d) = doorway(self.writer.rng, &self.writer.state);
            self.writer.row(&format!("door,{root},{},{d}", l.0));
        }
    }
}
