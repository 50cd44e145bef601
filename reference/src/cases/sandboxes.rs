//! Cases about the rows of sandboxes (document 02, No. 3): rows without rights,
//! and sandboxes with a row for `self`, with none, and with `D,k,self,-`, where
//! bodies and arrivals use rights on the site at which they are.

use super::arrivals::{acting, friendly};
use super::big;
use super::damage::drop_row;
use super::listings::{arranged, assemble};
use super::nets::{accepted, close, fit_home, own_row, some_rights, OwnRows, Style, LISTING};
use super::rng::Rng;
use super::scripts::{choices, doorway, Writer};
use super::seasons::SMALL;
use super::text::{arrival_rows, bytes, estimate_rows, letters_or_none, net_rows, Rows};
use crate::engine::State;
use crate::rows::*;

/// Nets are small: what they are about is added to them.
const NETS: Style = Style {
    max_lines: 14,
    max_roots: 3,
    max_tuples: 4,
    sandbox_rows: 4,
    own_rows: OwnRows::Drawn,
    ..LISTING
};
const HOUSES: Style = Style { max_lines: 10, own_rows: OwnRows::Drawn, ..SMALL };

/// How many of a hundred cases have wildcards.
const WILDCARDS: usize = 12;

/// The variable that names where a body goes; generated nets seldom have it.
const GOAL: Var = Var(28);

/// Sandboxes that are drawn most often.
const FEW: usize = 4;

/// A sandbox that lines of the net seldom name, with rights on one site, so
/// that E rows seldom have them.
const SPARE: usize = FEW;

/// Most lines that a sender or a house takes.
const MOST_LINES: usize = 24;

/// Rights of a D row that are none.
const MISSPELT: [&str; 4] = ["--", "-o", "o-", ""];
const OTHER_MISSPELT: [&str; 8] = ["- ", " -", "-,", "oirea-", "-oirea", "-\r", "0", "o-i"];

pub fn listing(rng: &mut Rng) -> Vec<u8> {
    let way = rng.weighted(&[34, 20, 12, 28, 3, 3]);
    if way == 5 {
        return big::wide(rng, 0, OwnRows::Drawn);
    }
    let style = if rng.chance(WILDCARDS) { NETS.with_wildcards(rng) } else { NETS };
    let (mut net, mut estimate) = peopled(rng, &style);
    match way {
        1 => drop_right(rng, &mut estimate),
        2 => change_own_rows(rng, &mut net),
        _ => {}
    }
    let n = net.sites;
    let (mut net, mut estimate) = (net_rows(&net), estimate_rows(&estimate));
    if way == 4 {
        fill_rows(&mut net, n);
    } else if rng.chance(65) {
        let count = rng.between(1, 5);
        add_empty_rows(rng, &mut net, n, count);
    }
    if way == 3 {
        harm_sandboxes(rng, &mut net, &mut estimate, n);
        return assemble(&net, &estimate);
    }
    arranged(rng, net, estimate)
}

/// A net with senders and a house, and an estimate for which all rules hold.
pub fn peopled(rng: &mut Rng, style: &Style) -> (Net, Estimate) {
    let (mut net, mut estimate) = accepted(rng, style);
    for _ in 0..rng.between(1, 3) {
        add_sender(rng, &mut net, &mut estimate);
    }
    if rng.chance(40) {
        add_house(rng, &mut net, &mut estimate);
    }
    fit_home(rng, &mut net, &estimate);
    (net, estimate)
}

/// Takes a right from a site's E row towards itself, where there is one: only
/// there it matters what a sandbox has for `self`.
fn drop_right(rng: &mut Rng, estimate: &mut Estimate) {
    let own: Vec<usize> = (0..SITES).filter(|&s| estimate.rights[s][s] != NO_RIGHTS).collect();
    if own.is_empty() || rng.chance(15) {
        return drop_row(rng, estimate);
    }
    let s = *rng.pick(&own);
    let held = &mut estimate.rights[s][s];
    *held &= !(1 << rng.member(u32::from(*held)));
}

/// Gives some sandboxes other rows for `self`, the estimate staying as it is.
fn change_own_rows(rng: &mut Rng, net: &mut Net) {
    for _ in 0..rng.between(1, FEW) {
        net.sandboxes[rng.below(FEW)].own = own_row(rng);
    }
}

/// A site, or several.
fn reach(rng: &mut Rng, n: usize) -> Vec<Site> {
    let mut sites: Vec<Site> = (0..n as u8).map(Site).collect();
    rng.shuffle(&mut sites);
    let count = if rng.chance(50) { 1 } else { rng.between(2, 3) };
    sites.truncate(count);
    sites
}

/// Gives a sandbox rights on the sites where it will be evaluated, and most
/// often another row for `self`.
fn give_rights(rng: &mut Rng, sandbox: &mut Sandbox, sites: &[Site]) {
    for site in sites {
        sandbox.towards[site.index()] |= match rng.weighted(&[35, 45, 20]) {
            0 => ALL_RIGHTS,
            1 => some_rights(rng),
            _ => NO_RIGHTS,
        };
    }
    if rng.chance(60) {
        sandbox.own = own_row(rng);
    }
}

/// Adds a root that sends a body to a site, or to one of several, where it acts
/// on the site at which it is. Nothing is added where there is no room for it.
fn add_sender(rng: &mut Rng, net: &mut Net, estimate: &mut Estimate) {
    let mut grown = net.clone();
    if grown.lines.len() + MOST_LINES > MAX_LINES || grown.roots.is_full() {
        return;
    }
    let n = usize::from(net.sites);
    let (home, sites, k) = (Site(rng.below(n) as u8), reach(rng, n), rng.below(FEW));
    give_rights(rng, &mut grown.sandboxes[k], &sites);
    for &site in &sites {
        let own = Tuple { site, len: 1, fields: [site, Site(0), Site(0), Site(0)] };
        let goal = Tuple { site: home, len: 2, fields: [home, site, Site(0), Site(0)] };
        add_tuple(&mut grown, own);
        if sites.len() > 1 {
            add_tuple(&mut grown, goal);
        }
    }
    grown.roots.push(Root { site: home, line: grown.lines.len() as u8 });
    let mut target = Term::Site(sites[0]);
    if sites.len() > 1 {
        let fields = terms(&[Term::Site(home), Term::Bind(GOAL)]);
        let next = grown.lines.len() as u8 + 1;
        grown.lines.push(Line::Read { next, target: Term::Own, fields });
        target = Term::Var(GOAL);
    }
    let at = grown.lines.len() as u8;
    grown.lines.push(Line::Eval { next: at + 1, target, body: at + 2, sandbox: k as u8 });
    grown.lines.push(Line::Nil);
    add_body(rng, &mut grown, target);
    if let Some(closed) = close(&grown, estimate.clone()) {
        (*net, *estimate) = (grown, closed);
    }
}

fn add_tuple(net: &mut Net, tuple: Tuple) {
    if !net.tuples.is_full() && !net.tuples.contains(&tuple) {
        net.tuples.push(tuple);
    }
}

fn terms(items: &[Term]) -> Terms {
    let mut fields = Terms { len: items.len() as u8, ..Terms::BLANK };
    fields.items[..items.len()].copy_from_slice(items);
    fields
}

/// Lines that act on the site at which they are, one behind the other or each
/// by itself; `goal` names that site, too.
fn add_body(rng: &mut Rng, net: &mut Net, goal: Term) {
    let apart = rng.chance(60);
    let count = rng.between(1, 4);
    for left in (0..count).rev() {
        let target = if rng.chance(75) { Term::Own } else { goal };
        let right = 1 << rng.below(LETTERS.len());
        let at = net.lines.len() as u8 + u8::from(apart && left > 0);
        let (line, nils) = action(rng, right, target, at);
        if apart && left > 0 {
            // The line, its own nil, and that of a body.
            net.lines.push(Line::Par { next: at, second: at + 2 + nils });
        }
        net.lines.push(line);
        (0..nils).for_each(|_| net.lines.push(Line::Nil));
        if apart {
            net.lines.push(Line::Nil);
        }
    }
    if !apart {
        net.lines.push(Line::Nil);
    }
}

/// A line numbered `at` that uses a right, and how many lines nil stand behind
/// it before the one that follows.
fn action(rng: &mut Rng, right: u8, target: Term, at: u8) -> (Line, u8) {
    let sandbox = rng.below(FEW) as u8;
    let (next, fields) = (at + 1, terms(&[Term::Own]));
    let line = match right {
        OUT => Line::Out { next, target, fields },
        IN => Line::In { next, target, fields },
        READ => Line::Read { next, target, fields },
        ACCEPT => Line::Accept { next, sandbox },
        _ => return (Line::Eval { next: at + 2, target, body: at + 1, sandbox }, 1),
    };
    (line, 0)
}

/// Adds a root that takes arrivals in, at the first place or the last, three of
/// them or without end. Most often the home policy has what they may do there.
fn add_house(rng: &mut Rng, net: &mut Net, estimate: &mut Estimate) {
    let mut grown = net.clone();
    if grown.lines.len() + MOST_LINES > MAX_LINES || grown.roots.is_full() {
        return;
    }
    let (site, k) = (Site(rng.below(usize::from(net.sites)) as u8), rng.below(FEW));
    give_rights(rng, &mut grown.sandboxes[k], &[site]);
    if rng.chance(50) {
        let towards = &mut grown.sandboxes[k].towards[..usize::from(net.sites)];
        towards.iter_mut().for_each(|rights| *rights |= EVAL | READ);
    }
    add_tuple(&mut grown, Tuple { site, len: 1, fields: [site, Site(0), Site(0), Site(0)] });
    if rng.chance(70) {
        let towards = grown.sandboxes[k].towards;
        join(&mut grown.home[site.index()], &towards);
        grown.home[site.index()][site.index()] |= ACCEPT;
    }
    let first = grown.lines.len() as u8;
    grown.roots.push(Root { site, line: first });
    if rng.chance(40) {
        grown.lines.push(Line::Rep { next: first + 1 });
    }
    for _ in 0..rng.between(1, 3) {
        let sandbox = if rng.chance(80) { k } else { rng.below(FEW) } as u8;
        grown.lines.push(Line::Accept { next: grown.lines.len() as u8 + 1, sandbox });
    }
    grown.lines.push(Line::Nil);
    if rng.chance(60) {
        grown.roots.rotate_right(1);
    }
    if let Some(closed) = close(&grown, estimate.clone()) {
        (*net, *estimate) = (grown, closed);
    }
}

/// Where the D rows stand, or would stand.
pub fn sandbox_group(rows: &Rows) -> std::ops::Range<usize> {
    let above = |row: &&Vec<u8>| matches!(row.first(), Some(b'N' | b'R'));
    let start = rows.iter().take_while(above).count();
    start..start + rows[start..].iter().take_while(|row| row.first() == Some(&b'D')).count()
}

/// Whether there is a row of sandbox k towards t.
fn has_row(rows: &Rows, k: usize, t: &str) -> bool {
    let begin = format!("D,{k},{t},");
    rows.iter().any(|row| row.starts_with(begin.as_bytes()))
}

/// Adds rows `-` towards sites, of pairs that have none.
fn add_empty_rows(rng: &mut Rng, rows: &mut Rows, n: u8, count: usize) {
    for _ in 0..count {
        let numbers = if rng.chance(90) { FEW } else { SANDBOXES };
        let k = rng.below(numbers);
        let t = format!("s{}", rng.below(usize::from(n)));
        if !has_row(rows, k, &t) {
            let group = sandbox_group(rows);
            rows.insert(rng.between(group.start, group.end), format!("D,{k},{t},-").into_bytes());
        }
    }
}

/// Adds a row `-` for every sandbox and site that have none.
fn fill_rows(rows: &mut Rows, n: u8) {
    for (k, t) in (0..SANDBOXES).flat_map(|k| (0..n).map(move |t| (k, format!("s{t}")))) {
        if !has_row(rows, k, &t) {
            let end = sandbox_group(rows).end;
            rows.insert(end, format!("D,{k},{t},-").into_bytes());
        }
    }
}

/// The place of a D row, towards `self` about as often as towards a site; one
/// is added where there is none.
fn some_sandbox_row(rng: &mut Rng, rows: &mut Rows) -> usize {
    let own = rng.chance(45);
    let is_own = |row: &[u8]| row.split(|&b| b == b',').nth(2) == Some(b"self");
    let group = sandbox_group(rows);
    let found: Vec<usize> = group.clone().filter(|&at| is_own(&rows[at]) == own).collect();
    if found.is_empty() {
        let t = if own { "self" } else { "s0" };
        rows.insert(group.end, format!("D,{},{t},o", rng.below(SANDBOXES)).into_bytes());
        return group.end;
    }
    *rng.pick(&found)
}

/// The same row with other rights.
fn with_rights(row: &[u8], rights: &str) -> Vec<u8> {
    let end = row.iter().rposition(|&b| b == b',').map_or(0, |comma| comma + 1);
    [&row[..end], rights.as_bytes()].concat()
}

/// One damage that has to do with `-`.
fn harm_sandboxes(rng: &mut Rng, net: &mut Rows, estimate: &mut Rows, n: u8) {
    match rng.weighted(&[30, 26, 14, 16, 8, 6]) {
        0 => repeat_row(rng, net),
        1 => {
            let at = some_sandbox_row(rng, net);
            let words = if rng.chance(75) { &MISSPELT[..] } else { &OTHER_MISSPELT };
            net[at] = with_rights(&net[at], rng.pick::<&str>(words));
        }
        2 => harm_policy(rng, net, estimate),
        3 => harm_number(rng, net, n),
        4 => {
            let rows = if rng.chance(70) { net } else { estimate };
            harm_field(rng, rows);
        }
        _ => {
            let at = some_sandbox_row(rng, net);
            let row = with_rights(&net.remove(at), "-");
            let rows = if rng.chance(50) { net } else { estimate };
            let to = rng.below(rows.len() + 1);
            rows.insert(to, row);
        }
    }
}

/// Two rows of one pair, of which one or both have no rights.
fn repeat_row(rng: &mut Rng, rows: &mut Rows) {
    let at = some_sandbox_row(rng, rows);
    let letters = letters_or_none(some_rights(rng));
    let pairs = [("-", "-"), ("-", &letters[..]), (&letters[..], "-")];
    let (first, second) = *rng.pick(&pairs);
    rows[at] = with_rights(&rows[at], first);
    let again = with_rights(&rows[at], second);
    let end = sandbox_group(rows).end;
    rows.insert(rng.between(at + 1, end), again);
}

/// `-` in a row of a home policy or of the estimate.
fn harm_policy(rng: &mut Rng, net: &mut Rows, estimate: &mut Rows) {
    let (rows, letter, end) = if rng.chance(50) {
        let start = sandbox_group(net).start;
        (net, b'R', start)
    } else {
        let end = estimate.len();
        (estimate, b'E', end)
    };
    let found: Vec<usize> = (0..end).filter(|&at| rows[at].first() == Some(&letter)).collect();
    if found.is_empty() {
        let row = format!("{},s0,s0,-", char::from(letter));
        return rows.insert(end, row.into_bytes());
    }
    let at = *rng.pick(&found);
    rows[at] = with_rights(&rows[at], "-");
}

/// A sandbox, or a site, that is over its limit or not there, with `-`.
fn harm_number(rng: &mut Rng, rows: &mut Rows, n: u8) {
    let at = some_sandbox_row(rng, rows);
    let row = String::from_utf8_lossy(&rows[at]).into_owned();
    let fields: Vec<&str> = row.split(',').collect();
    let (k, t) = (fields[1], fields[2]);
    rows[at] = match rng.weighted(&[25, 20, 55]) {
        0 => format!("D,{},{t},-", rng.pick(&[SANDBOXES, 33, 255, 999])),
        1 => format!("D,{k},s{},-", rng.pick(&[SITES, 33, 999])),
        _ => format!("D,{k},s{},-", rng.pick(&[n, n, n, n + 1, SITES as u8 - 1])),
    }
    .into_bytes();
}

/// `-` in the place of some field.
fn harm_field(rng: &mut Rng, rows: &mut Rows) {
    if rows.is_empty() {
        return rows.push(b"B,u0,-".to_vec());
    }
    let at = rng.below(rows.len());
    let mut fields: Vec<&[u8]> = rows[at].split(|&b| b == b',').collect();
    let place = rng.below(fields.len());
    fields[place] = b"-";
    rows[at] = fields.join(&b',');
}

pub fn script(rng: &mut Rng) -> Vec<u8> {
    let style = if rng.chance(WILDCARDS) { HOUSES.with_wildcards(rng) } else { HOUSES };
    let (mut net, mut estimate) = peopled(rng, &style);
    add_house(rng, &mut net, &mut estimate);
    let mut spare = Sandbox { own: own_row(rng), ..Sandbox::SILENT };
    spare.towards[rng.below(usize::from(net.sites))] = some_rights(rng);
    net.sandboxes[SPARE] = spare;
    if rng.chance(60) {
        open_homes(&mut net, &estimate);
    }
    let mut rows = net_rows(&net);
    if rng.chance(50) {
        let count = rng.between(1, 4);
        add_empty_rows(rng, &mut rows, net.sites, count);
    }
    let (net_text, estimate_text) = (bytes(&rows), bytes(&estimate_rows(&estimate)));
    let state = State::start(&net_text, &estimate_text).expect("an accepted net starts");
    let writer = Writer { rng, state, wildcards: style.wildcards, text: vec![] };
    let commands = Visits { writer }.write();
    [&net_text[..], b".\n", &estimate_text, b".\n", &commands].concat()
}

/// Home policies that leave it to sandboxes what is done at a site: each site
/// has all rights on itself, and what its E rows have.
fn open_homes(net: &mut Net, estimate: &Estimate) {
    for site in members(below(net.sites)) {
        let home = &mut net.home[site.index()];
        join(home, &estimate.rights[site.index()]);
        home[site.index()] = ALL_RIGHTS;
    }
}

/// Where an arrival sends a body, and under which sandbox.
struct Errand {
    target: Term,
    reach: Mask,
    sandbox: u8,
}

/// A site towards which `towards` has the right, or where bodies of the net go
/// that may go to several sites; else l.
fn errand(rng: &mut Rng, state: &State, l: Site, towards: &Policy) -> Errand {
    let mut goals: Vec<Site> = members(below(state.net.sites)).collect();
    goals.retain(|t| towards[t.index()] & EVAL != 0);
    let several = state.estimate.binds[GOAL.index()];
    let uses_spare = rng.chance(25);
    if uses_spare {
        goals.retain(|t| state.net.sandboxes[SPARE].towards[t.index()] != NO_RIGHTS);
    } else if several.count_ones() > 1 && rng.chance(60) {
        let target = Term::Var(GOAL);
        return Errand { target, reach: several, sandbox: body_sandbox(rng, state, target) };
    }
    let site = if goals.is_empty() { l } else { *rng.pick(&goals) };
    let target = Term::Site(site);
    let sandbox = if uses_spare { SPARE as u8 } else { body_sandbox(rng, state, target) };
    Errand { target, reach: site.bit(), sandbox }
}

/// An arrival at l that sends a body. What the body does is within the rights of
/// its sandbox, whatever that has for `self`; or it does nothing.
fn sending(rng: &mut Rng, state: &State, l: Site, towards: &Policy) -> Vec<Line> {
    let Errand { target, reach, sandbox } = errand(rng, state, l, towards);
    let mut lines = Vec::new();
    if target == Term::Var(GOAL) {
        // Nothing that may stand anywhere is so long, and begins so.
        let fields = terms(&[Term::Own, Term::Own, Term::Own, Term::Bind(GOAL)]);
        let mut others = members(below(state.net.sites)).filter(|&t| t != l);
        let from = others.find(|t| towards[t.index()] & READ != 0).unwrap_or(l);
        lines.push(Line::Read { next: 1, target: Term::Site(from), fields });
    }
    let at = lines.len() as u8;
    lines.push(Line::Eval { next: at + 1, target, body: at + 2, sandbox });
    lines.push(Line::Nil);
    let held = &state.net.sandboxes[usize::from(sandbox)].towards;
    let rights = members(reach).fold(ALL_RIGHTS, |rights, t| rights & held[t.index()]);
    let chance = if rng.chance(30) { 0 } else { 50 };
    for right in (0..LETTERS.len()).map(|bit| 1 << bit) {
        if rights & right != 0 && rng.chance(chance) {
            let (line, nils) = action(rng, right, Term::Own, lines.len() as u8);
            lines.push(line);
            (0..nils).for_each(|_| lines.push(Line::Nil));
        }
    }
    lines.push(Line::Nil);
    lines
}

/// The sandbox of a body: any, or one under which the net sends to the target,
/// so that E rows have its rights.
fn body_sandbox(rng: &mut Rng, state: &State, goal: Term) -> u8 {
    let fits = |line: &Line| match *line {
        Line::Eval { target, sandbox, .. } if target == goal => Some(sandbox),
        _ => None,
    };
    let fitting: Vec<u8> = state.net.lines.iter().filter_map(fits).collect();
    if fitting.is_empty() || rng.chance(30) {
        return rng.below(FEW) as u8;
    }
    *rng.pick(&fitting)
}

/// Writes commands: bodies are sent and arrivals come, and what they do is
/// asked under guard.
struct Visits<'a> {
    writer: Writer<'a>,
}

impl Visits<'_> {
    fn write(mut self) -> Vec<u8> {
        if self.chance(50) {
            self.writer.row("ready");
        }
        for _ in 0..self.writer.rng.between(3, 7) {
            match self.writer.rng.weighted(&[45, 40, 15]) {
                0 => self.visit(),
                1 => self.act(6),
                _ => self.writer.commands(4),
            }
        }
        self.writer.text
    }

    fn chance(&mut self, percent: usize) -> bool {
        self.writer.rng.chance(percent)
    }

    /// An arrival comes, is asked for at doors, taken in if it may, and acts.
    fn visit(&mut self) {
        let (l, d) = doorway(self.writer.rng, &self.writer.state);
        let rows = arrival_rows(&self.visitor(l, d));
        let Some(root) = self.writer.bring_rows(&rows) else { return };
        self.writer.row(&format!("door,{root},{},{d}", l.0));
        for _ in 0..self.writer.rng.below(3) {
            let other = self.writer.rng.below(FEW);
            self.writer.row(&format!("door,{root},{},{other}", l.0));
        }
        if self.chance(60) {
            self.writer.row("ready");
        }
        self.take_in(root);
        self.act(4);
    }

    /// An arrival that uses rights at l: those that the sandbox has towards l
    /// alone, those that it has towards any site, whatever it has for `self`, or
    /// those that it has at l; or one that sends a body.
    fn visitor(&mut self, l: Site, d: usize) -> Vec<Line> {
        let Writer { rng, state, wildcards, .. } = &mut self.writer;
        let towards = state.net.sandboxes[d].towards;
        let mut own = EMPTY_POLICY;
        own[l.index()] = towards[l.index()];
        match rng.weighted(&[35, 15, 15, 35]) {
            0 => acting(rng, state, *wildcards, l, &own),
            1 => acting(rng, state, *wildcards, l, &towards),
            2 => friendly(rng, state, *wildcards, l, d),
            _ => sending(rng, state, l, &towards),
        }
    }

    /// Each thread on accept is asked to take the arrival in, until one does.
    fn take_in(&mut self, root: usize) {
        for k in 0..self.writer.state.threads.len() {
            let state = &self.writer.state;
            let line = state.net.lines[usize::from(state.threads[k].line)];
            let guarded = self.chance(50);
            if matches!(line, Line::Accept { .. })
                && self.writer.step(guarded, k, 0, root).is_some()
            {
                return;
            }
        }
    }

    /// Steps of threads, the last ones first, most of them guarded. What is
    /// refused is sometimes done without guard.
    fn act(&mut self, count: usize) {
        for _ in 0..count {
            let threads = self.writer.state.threads.len();
            if threads == 0 {
                return;
            }
            let k =
                threads - 1 - self.writer.rng.below(threads).min(self.writer.rng.below(threads));
            let Writer { rng, state, .. } = &mut self.writer;
            let found = choices(rng, state, false, k);
            if found.is_empty() {
                continue;
            }
            let (m, r) = *rng.pick(&found);
            let guarded = self.chance(80);
            if self.writer.step(guarded, k, m, r).is_none() && self.chance(60) {
                self.writer.step(false, k, m, r);
            }
        }
    }
}
