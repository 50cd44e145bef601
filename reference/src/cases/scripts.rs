//! Inputs for `lotrun`. The engine itself is asked which steps perform, so
//! that scripts go far.

use super::arrivals::friendly;
use super::damage::{harm_lines, harm_rows, swap_child};
use super::nets::{accepted, close, shape, Style, LISTING};
use super::process::{Maker, BUSY, PLAIN};
use super::rng::Rng;
use super::sandboxes;
use super::seasons;
use super::text::{arrival_rows, bytes, estimate_rows, net_rows, Rows};
use super::wildcards::{add_twins, harm_wildcard, unbind};
use crate::engine::{Done, State, MAX_THREADS};
use crate::rows::*;

pub const STYLE: Style = Style {
    weights: BUSY,
    max_lines: 50,
    max_roots: 6,
    max_tuples: 9,
    widened: 80,
    sandbox_rows: 6,
    ..LISTING
};

/// How many of a hundred seeds have wildcards, if nothing is drawn behind it.
const WILDCARD_SEEDS: usize = 14;

/// How many of a hundred seeds have withdrawals, likewise.
const SEASON_SEEDS: usize = 17;

/// How many of a hundred seeds are about the rows of sandboxes.
const SANDBOX_SEEDS: usize = 15;

const ODD_COMMANDS: &[&str] = &[
    "",
    "step",
    "step,0,0",
    "step,0,0,0,0",
    "step,,0,0",
    "step,-1,0,0",
    "step,0,0,x",
    "ready,0",
    "Ready",
    "ready ",
    "bring,",
    "door,0,0",
    "door,0,0,0,0",
    "guarded",
    "guarded,0,0,",
    "stop",
    ".",
    "step, 0,0,0",
    "step,s0,0,0",
    "door,0,s0,0",
    "Q,0,nil",
    "step,+1,0,0",
    "step,0,0,0\r",
];

/// Attempts at an arrival that passes the door.
const ATTEMPTS: usize = 12;

/// What a script tries to reach.
#[derive(Clone, Copy, PartialEq)]
pub enum Aim {
    Plain,
    FullThreads,
    FullTuples,
}

/// One input. Whether it has wildcards is drawn behind all else, whether it has
/// withdrawals behind that, and whether it is about the rows of sandboxes behind
/// that, so that every other seed keeps its text.
pub fn case(rng: &mut Rng) -> Vec<u8> {
    let mut text = of_style(rng, &STYLE);
    if rng.chance(WILDCARD_SEEDS) {
        let style = STYLE.with_wildcards(rng);
        text = of_style(rng, &style);
    }
    if rng.chance(SEASON_SEEDS) {
        text = seasons::case(rng);
    }
    if rng.chance(SANDBOX_SEEDS) {
        text = sandboxes::script(rng);
    }
    text
}

fn of_style(rng: &mut Rng, style: &Style) -> Vec<u8> {
    let aim = *rng.pick(&[Aim::Plain, Aim::Plain, Aim::Plain, Aim::FullThreads, Aim::FullTuples]);
    let (mut net, mut estimate) = accepted(rng, style);
    prepare(rng, aim, &mut net, &mut estimate);
    if style.wildcards > 0 && rng.chance(60) {
        add_twins(rng, &mut net, &mut estimate);
    }
    let (mut net_text, mut estimate_text) = (net_rows(&net), estimate_rows(&estimate));
    if rng.chance(4) {
        let text = if rng.chance(50) { &mut net_text } else { &mut estimate_text };
        harm_rows(rng, text, net.sites);
    }
    let (net_text, estimate_text) = (bytes(&net_text), bytes(&estimate_text));
    let commands = match State::start(&net_text, &estimate_text) {
        Ok(state) => Writer { rng, state, wildcards: style.wildcards, text: vec![] }.write(aim),
        Err(_) => b"ready\nstep,0,0,0\n".to_vec(),
    };
    [&net_text[..], b".\n", &estimate_text, b".\n", &commands].concat()
}

/// Adds what the aim needs: a replicated `out`, tuples nearly up to the limit.
fn prepare(rng: &mut Rng, aim: Aim, net: &mut Net, estimate: &mut Estimate) {
    let n = usize::from(net.sites);
    if aim == Aim::Plain {
        return;
    }
    if net.lines.len() + 3 <= MAX_LINES && !net.roots.is_full() {
        let first = net.lines.len() as u8;
        let site = Site(rng.below(n) as u8);
        net.roots.push(Root { site, line: first });
        let item = Term::Site(Site(rng.below(n) as u8));
        let fields = Terms { len: 1, items: [item, Term::Own, Term::Own, Term::Own] };
        net.lines.push(Line::Rep { next: first + 1 });
        net.lines.push(Line::Out { next: first + 2, target: Term::Own, fields });
        net.lines.push(Line::Nil);
    }
    let wanted = if aim == Aim::FullTuples { rng.between(MAX_TUPLES - 12, MAX_TUPLES) } else { 0 };
    for _ in 0..4 * MAX_TUPLES {
        let tuple = shape(rng, n);
        if net.tuples.len() < wanted && !net.tuples.contains(&tuple) {
            net.tuples.push(tuple);
        }
    }
    if let Some(closed) = close(net, estimate.clone()) {
        *estimate = closed;
    }
}

/// Writes commands, and follows what they do.
pub struct Writer<'a> {
    pub rng: &'a mut Rng,
    pub state: State,
    /// Chance that a field of an arrival's template is a wildcard.
    pub wildcards: usize,
    pub text: Vec<u8>,
}

impl Writer<'_> {
    fn write(mut self, aim: Aim) -> Vec<u8> {
        let count = self.rng.between(20, 90);
        for _ in 0..self.rng.below(4) {
            self.bring();
        }
        self.commands(count);
        if aim != Aim::Plain {
            self.fill(aim);
            self.commands(30);
        }
        match self.rng.below(60) {
            0 => self.text.extend_from_slice(b"ready"),
            1 => self.text.extend_from_slice(b"bring\nQ,0,nil\n"),
            2 => self.text.extend_from_slice(b"bring\nQ,0,nil"),
            _ => {}
        }
        self.text
    }

    pub fn row(&mut self, row: &str) {
        self.text.extend_from_slice(row.as_bytes());
        self.text.push(b'\n');
    }

    pub fn commands(&mut self, count: usize) {
        for _ in 0..count {
            match self.rng.weighted(&[40, 22, 14, 7, 7, 8, 2]) {
                0 => self.performing(false),
                1 => self.performing(true),
                2 => self.any_step(),
                3 => self.row("ready"),
                4 => self.bring(),
                5 => self.door(),
                _ => {
                    let odd = *self.rng.pick(ODD_COMMANDS);
                    self.row(odd);
                }
            }
        }
    }

    pub fn step(&mut self, guarded: bool, k: usize, m: usize, r: usize) -> Option<Done> {
        let name = if guarded { "guarded" } else { "step" };
        self.row(&format!("{name},{k},{m},{r}"));
        let result =
            if guarded { self.state.guarded_step(k, m, r) } else { self.state.step(k, m, r) };
        result.ok()
    }

    /// A step that performs, on a random thread; else any step.
    fn performing(&mut self, guarded: bool) {
        // Sometimes only a step that the policies allow.
        let strict = guarded && self.rng.chance(50);
        let mut step = performing_step(self.rng, &self.state, strict);
        if guarded && self.rng.chance(50) {
            step = one_sided_step(self.rng, &self.state).or(step);
        }
        match step {
            Some((k, m, r)) => {
                self.step(guarded, k, m, r);
            }
            None => self.any_step(),
        }
    }

    /// A number below `limit`, at it, or far from it.
    fn number(&mut self, limit: usize) -> usize {
        match self.rng.weighted(&[88, 5, 4, 3]) {
            0 => self.rng.below(limit.max(1)),
            1 => limit,
            2 => *self.rng.pick(&[31, 32, 63, 64, 255, 256, 257]),
            _ => *self.rng.pick(&[65_535, 65_536, 1 << 32, usize::MAX]),
        }
    }

    fn root(&mut self) -> usize {
        if self.state.arrivals.is_empty() || self.rng.chance(20) {
            return self.number(self.state.net.lines.len());
        }
        usize::from(self.rng.pick(&self.state.arrivals).root)
    }

    fn any_step(&mut self) {
        let k = self.number(self.state.threads.len());
        let m = self.number(self.state.tuples.len());
        let r = self.root();
        let guarded = self.rng.chance(50);
        self.step(guarded, k, m, r);
    }

    fn door(&mut self) {
        let r = self.root();
        let l = self.number(usize::from(self.state.net.sites));
        let used = if self.rng.chance(75) { 4 } else { SANDBOXES };
        let d = self.number(used);
        self.row(&format!("door,{r},{l},{d}"));
    }

    fn bring(&mut self) {
        let mut rows = match self.rng.weighted(&[50, 20, 28, 2]) {
            0 => friendly_rows(self.rng, &self.state, self.wildcards),
            1 => arrival_rows(&self.stranger()),
            2 => self.damaged_rows(),
            _ => vec![],
        };
        rows.retain(|row| row != b".");
        if let Some(root) = self.bring_rows(&rows) {
            for _ in 0..self.rng.below(4) {
                let (l, d) = doorway(self.rng, &self.state);
                self.row(&format!("door,{root},{},{d}", l.0));
            }
        }
    }

    /// Brings these rows, of which none is `.`; the root, if it is not refused.
    pub fn bring_rows(&mut self, rows: &[Vec<u8>]) -> Option<usize> {
        let text = bytes(rows);
        self.row("bring");
        self.text.extend_from_slice(&text);
        self.row(".");
        self.state.bring(&text).ok().map(usize::from)
    }

    /// An arrival made without regard to the door.
    pub fn stranger(&mut self) -> Vec<Line> {
        let n = self.state.net.sites;
        let mut shapes = self.state.estimate.tuples.to_vec();
        shapes.push(shape(self.rng, usize::from(n)));
        let max_lines = self.rng.between(1, 16);
        let (weights, wildcards, lines) = (PLAIN, self.wildcards, vec![]);
        let mut maker = Maker {
            rng: self.rng,
            n,
            shapes: &shapes,
            vars: 4,
            sandboxes: 4,
            weights,
            wildcards,
            lines,
            max_lines,
        };
        maker.grow(0, 0);
        maker.lines
    }

    pub fn damaged_rows(&mut self) -> Rows {
        let mut lines = self.stranger();
        if self.wildcards > 0 && self.rng.chance(65) {
            return harm_templates(self.rng, lines, self.state.net.sites);
        }
        match self.rng.weighted(&[35, 25, 4, 36]) {
            0 => harm_lines(self.rng, &mut lines),
            1 => swap_child(self.rng, &mut lines),
            2 => {
                let count = self.state.net.lines.len();
                return arrival_rows(&chain(MAX_LINES - count + self.rng.below(2)));
            }
            _ => {
                let mut rows = arrival_rows(&lines);
                harm_rows(self.rng, &mut rows, self.state.net.sites);
                return rows;
            }
        }
        arrival_rows(&lines)
    }

    /// The places of threads on a line that fills the list aimed at.
    fn filling(&self, aim: Aim) -> Vec<usize> {
        let on = |wanted: fn(Line) -> bool| -> Vec<usize> {
            let lines = &self.state.net.lines;
            let line = |k: usize| lines[usize::from(self.state.threads[k].line)];
            (0..self.state.threads.len()).filter(|&k| wanted(line(k))).collect()
        };
        let outs = on(|line| matches!(line, Line::Out { .. }));
        if aim == Aim::FullTuples && !outs.is_empty() {
            return outs;
        }
        on(|line| matches!(line, Line::Rep { .. } | Line::Par { .. }))
    }

    /// Steps until a list is full, and some steps more.
    pub fn fill(&mut self, aim: Aim) {
        for _ in 0..4 * MAX_THREADS {
            let full = self.state.threads.len() == MAX_THREADS || self.state.tuples.is_full();
            let places = self.filling(aim);
            if places.is_empty() || (full && self.rng.chance(25)) {
                return;
            }
            let k = *self.rng.pick(&places);
            let guarded = self.rng.chance(10);
            self.step(guarded, k, 0, 0);
        }
    }
}

/// A step that performs, with the policies asked or not.
pub fn performing_step(
    rng: &mut Rng,
    state: &State,
    guarded: bool,
) -> Option<(usize, usize, usize)> {
    let mut places: Vec<usize> = (0..state.threads.len()).collect();
    rng.shuffle(&mut places);
    for k in places {
        // Replication always performs: not to be chosen each time.
        let line = state.net.lines[usize::from(state.threads[k].line)];
        if matches!(line, Line::Rep { .. }) && rng.chance(60) {
            continue;
        }
        let choices = choices(rng, state, guarded, k);
        if !choices.is_empty() {
            let (m, r) = *rng.pick(&choices);
            return Some((k, m, r));
        }
    }
    None
}

/// A step that one of the two policies allows and the other forbids.
fn one_sided_step(rng: &mut Rng, state: &State) -> Option<(usize, usize, usize)> {
    (0..state.threads.len()).find_map(|k| {
        let (m, r) = *choices(rng, state, false, k).first()?;
        let Ok(Done::Acted { site, target, right }) = state.judge(false, k, m, r) else {
            return None;
        };
        let own = state.threads[k].policy[target.index()] & right != 0;
        let home = state.net.home[site.index()][target.index()] & right != 0;
        (own != home).then_some((k, m, r))
    })
}

/// The m and r with which thread k performs a step.
pub fn choices(rng: &mut Rng, state: &State, guarded: bool, k: usize) -> Vec<(usize, usize)> {
    let performs = |&(m, r): &(usize, usize)| state.judge(guarded, k, m, r).is_ok();
    match state.net.lines[usize::from(state.threads[k].line)] {
        Line::In { .. } | Line::Read { .. } => {
            (0..state.tuples.len()).map(|m| (m, 0)).filter(performs).collect()
        }
        Line::Accept { .. } => {
            let roots = state.arrivals.iter().map(|arrival| (0, usize::from(arrival.root)));
            roots.filter(performs).collect()
        }
        _ => [(rng.below(3), rng.below(3))].into_iter().filter(performs).collect(),
    }
}

/// Where an arrival may be taken in: a thread on accept, or any site.
pub fn doorway(rng: &mut Rng, state: &State) -> (Site, usize) {
    let mut doorways = Vec::new();
    for thread in state.threads.iter() {
        if let Line::Accept { sandbox, .. } = state.net.lines[usize::from(thread.line)] {
            doorways.push((thread.site, usize::from(sandbox)));
        }
    }
    if doorways.is_empty() || rng.chance(20) {
        let site = Site(rng.below(usize::from(state.net.sites)) as u8);
        return (site, rng.below(4));
    }
    *rng.pick(&doorways)
}

/// An arrival that passes the door somewhere, if one is found.
pub fn friendly_rows(rng: &mut Rng, state: &State, wildcards: usize) -> Rows {
    let (l, d) = doorway(rng, state);
    let mut rows = arrival_rows(&[Line::Nil]);
    for _ in 0..ATTEMPTS {
        rows = arrival_rows(&friendly(rng, state, wildcards, l, d));
        let mut trial = state.clone();
        if let Ok(root) = trial.bring(&bytes(&rows)) {
            let passes = trial.door(usize::from(root), l.index(), d) == Ok(true);
            if rows.len() > 1 && (passes || rng.chance(15)) {
                break;
            }
        }
    }
    rows
}

/// An arrival with a wildcard out of place, or one that ought to bind.
fn harm_templates(rng: &mut Rng, mut lines: Vec<Line>, n: u8) -> Rows {
    if rng.chance(25) {
        unbind(rng, &mut lines);
        return arrival_rows(&lines);
    }
    let mut rows = arrival_rows(&lines);
    harm_wildcard(rng, &mut rows, n);
    rows
}

#[cfg(test)]
pub fn bring_friendly(rng: &mut Rng, state: &mut State, wildcards: usize) -> bool {
    let rows = friendly_rows(rng, state, wildcards);
    state.bring(&bytes(&rows)).is_ok()
}

/// A chain of `rep` lines that ends in nil; one line at least.
pub fn chain(count: usize) -> Vec<Line> {
    let count = count.clamp(1, MAX_LINES);
    let mut lines: Vec<Line> = (1..count).map(|next| Line::Rep { next: next as u8 }).collect();
    lines.push(Line::Nil);
    lines
}
