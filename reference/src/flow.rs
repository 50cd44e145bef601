//! The analysis: reaches, rules, use maps, the report and the check.

use crate::rows::*;

pub const REPORT_BYTES: usize = SITES * SITES;

/// "The report is 1,024 bytes, byte 32 × subject + object."
pub type Report = [u8; REPORT_BYTES];

/// The place sets of lines, by line number.
pub type Places = [Mask; MAX_LINES];

/// The first broken rule: a T row or a Q line, counted from 0.
#[derive(Clone, Copy, PartialEq, Eq, Debug)]
pub enum Broken {
    Tuple(usize),
    Line(usize),
}

#[derive(Clone, Copy, PartialEq, Eq, Debug)]
pub enum Answer {
    Accepted,
    Broken(Broken),
    Refused(Refusal),
}

/// "The reach of a field is the site itself, the place set for `self`, or
/// the B sites of a variable." A binding field and a wildcard have none.
pub fn reach(term: Term, place: Mask, estimate: &Estimate) -> Mask {
    match term {
        Term::Site(s) => s.bit(),
        Term::Own => place,
        Term::Var(u) => estimate.binds[u.index()],
        Term::Bind(_) | Term::Wildcard => 0,
    }
}

/// A set of A rows: bit b of word w for row 64 × w + b.
type RowSet = [u64; MAX_TUPLES / 64];

const NO_ROWS: RowSet = [0; MAX_TUPLES / 64];

/// The A rows of an estimate, sorted by length, by site, and by the site in
/// each field.
pub struct RowSets {
    with_len: [RowSet; MAX_FIELDS + 1],
    at_site: [RowSet; SITES],
    with_field: [[RowSet; SITES]; MAX_FIELDS],
}

impl RowSets {
    pub fn of(estimate: &Estimate) -> RowSets {
        let mut sets = RowSets {
            with_len: [NO_ROWS; MAX_FIELDS + 1],
            at_site: [NO_ROWS; SITES],
            with_field: [[NO_ROWS; SITES]; MAX_FIELDS],
        };
        for (row, tuple) in estimate.tuples.iter().enumerate() {
            let (word, bit) = (row / 64, 1u64 << (row % 64));
            sets.with_len[usize::from(tuple.len)][word] |= bit;
            sets.at_site[tuple.site.index()][word] |= bit;
            for (at, field) in tuple.fields().iter().enumerate() {
                sets.with_field[at][field.index()][word] |= bit;
            }
        }
        sets
    }

    fn has(&self, tuple: &Tuple) -> bool {
        let mut rows = self.with_len[usize::from(tuple.len)];
        keep(&mut rows, &self.at_site[tuple.site.index()]);
        for (sets, field) in self.with_field.iter().zip(tuple.fields()) {
            keep(&mut rows, &sets[field.index()]);
        }
        rows != NO_ROWS
    }

    /// The rows at a site of `sites`, with as many fields as `fields`, each
    /// non-binding field's reach holding the row's field. A wildcard "agrees
    /// with any site", so that its column is passed over.
    fn inside(&self, sites: Mask, fields: &Terms, place: Mask, estimate: &Estimate) -> RowSet {
        let mut rows = self.with_len[usize::from(fields.len)];
        keep(&mut rows, &union(&self.at_site, sites));
        for (sets, &term) in self.with_field.iter().zip(fields.slice()) {
            if !term.takes_any() {
                keep(&mut rows, &union(sets, reach(term, place, estimate)));
            }
        }
        rows
    }
}

fn keep(rows: &mut RowSet, others: &RowSet) {
    for (mine, theirs) in rows.iter_mut().zip(others) {
        *mine &= theirs;
    }
}

/// The rows in a set of one of `sites`.
fn union(sets: &[RowSet; SITES], sites: Mask) -> RowSet {
    let mut rows = NO_ROWS;
    for site in members(sites) {
        for (mine, theirs) in rows.iter_mut().zip(&sets[site.index()]) {
            *mine |= theirs;
        }
    }
    rows
}

/// Fills in the place sets of the lines below those roots of `lines` whose
/// places are set, from number `from` on. "A child has its parent's place
/// set, except an eval body, whose place set is the reach of the target."
pub fn spread_places(lines: &[Line], from: usize, estimate: &Estimate, places: &mut Places) {
    for (number, line) in lines.iter().enumerate().skip(from) {
        let place = places[number];
        let [next, other] = line.children();
        if let Some(next) = next {
            places[usize::from(next)] = place;
        }
        if let Some(other) = other {
            places[usize::from(other)] = match *line {
                Line::Eval { target, .. } => reach(target, place, estimate),
                _ => place,
            };
        }
    }
}

/// The place sets of all lines of a net.
pub fn net_places(net: &Net, estimate: &Estimate) -> Places {
    let mut places = [0; MAX_LINES];
    for root in net.roots.iter() {
        places[usize::from(root.line)] = root.site.bit();
    }
    spread_places(&net.lines, 0, estimate, &mut places);
    places
}

/// The rule of one line whose place set is `place`.
pub fn line_rule(line: &Line, place: Mask, net: &Net, estimate: &Estimate, rows: &RowSets) -> bool {
    match line {
        Line::Out { target, fields, .. } => out_rule(*target, fields, place, estimate, rows),
        Line::In { target, fields, .. } | Line::Read { target, fields, .. } => {
            template_rule(*target, fields, place, estimate, rows)
        }
        Line::Eval { target, sandbox, .. } => {
            let sites = reach(*target, place, estimate);
            eval_rule(&net.sandboxes[usize::from(*sandbox)], sites, estimate)
        }
        _ => true,
    }
}

/// "For every site in the target's reach and every choice of one site from
/// each field's reach, there is an A row." A rows are all different, so this
/// holds if and only if as many A rows lie in the reaches as there are
/// choices. An empty reach leaves no choice.
fn out_rule(
    target: Term,
    fields: &Terms,
    place: Mask,
    estimate: &Estimate,
    rows: &RowSets,
) -> bool {
    let sites = reach(target, place, estimate);
    let choices = fields.slice().iter().fold(sites.count_ones(), |product, &term| {
        product * reach(term, place, estimate).count_ones()
    });
    let inside = rows.inside(sites, fields, place, estimate);
    inside.iter().map(|word| word.count_ones()).sum::<u32>() == choices
}

/// "For every A row at a site in the target's reach with as many fields,
/// each non-binding field's reach holding the row's field, every `!u` has a
/// B row for the row's field there."
fn template_rule(
    target: Term,
    fields: &Terms,
    place: Mask,
    estimate: &Estimate,
    rows: &RowSets,
) -> bool {
    let inside = rows.inside(reach(target, place, estimate), fields, place, estimate);
    rows.with_field.iter().zip(fields.slice()).all(|(sets, term)| match term {
        Term::Bind(u) => {
            let allowed = union(sets, estimate.binds[u.index()]);
            inside.iter().zip(allowed).all(|(rows, allowed)| rows & !allowed == 0)
        }
        _ => true,
    })
}

/// "For every l and l' in the target's reach, the sandbox evaluated at l'
/// lies within the E rights of l."
fn eval_rule(sandbox: &Sandbox, sites: Mask, estimate: &Estimate) -> bool {
    let mut widest = EMPTY_POLICY;
    for l in members(sites) {
        join(&mut widest, &sandbox.at(l));
    }
    members(sites).all(|l| within(&widest, &estimate.rights[l.index()]))
}

/// The first broken rule: "T rows first, then Q lines, each in order".
pub fn first_broken(net: &Net, estimate: &Estimate, places: &Places) -> Option<Broken> {
    let rows = RowSets::of(estimate);
    // "T row: its tuple has an A row."
    if let Some(row) = net.tuples.iter().position(|tuple| !rows.has(tuple)) {
        return Some(Broken::Tuple(row));
    }
    net.lines
        .iter()
        .zip(places)
        .position(|(line, place)| !line_rule(line, *place, net, estimate, &rows))
        .map(Broken::Line)
}

/// The use map of line `number`, whose place set is `place`. All lines that
/// it joins have this same place set: a body's map is not part of it.
pub fn use_map(net: &Net, estimate: &Estimate, number: u8, place: Mask) -> Policy {
    let mut uses = EMPTY_POLICY;
    add_uses(net, estimate, number, place, &mut uses);
    uses
}

fn add_uses(net: &Net, estimate: &Estimate, number: u8, place: Mask, uses: &mut Policy) {
    let mut number = number;
    loop {
        number = match net.lines[usize::from(number)] {
            Line::Nil => return,
            Line::Par { next, second } => {
                add_uses(net, estimate, second, place, uses);
                next
            }
            Line::Rep { next } => next,
            Line::Out { next, target, .. } => {
                add_right(uses, reach(target, place, estimate), OUT);
                next
            }
            Line::In { next, target, .. } => {
                add_right(uses, reach(target, place, estimate), IN);
                next
            }
            Line::Read { next, target, .. } => {
                add_right(uses, reach(target, place, estimate), READ);
                next
            }
            Line::Eval { next, target, .. } => {
                add_right(uses, reach(target, place, estimate), EVAL);
                next
            }
            Line::Accept { next, sandbox } => {
                add_accept(uses, place, &net.sandboxes[usize::from(sandbox)]);
                next
            }
        };
    }
}

fn add_right(uses: &mut Policy, sites: Mask, right: u8) {
    for site in members(sites) {
        uses[site.index()] |= right;
    }
}

/// "`accept` adds right a on each place, and the sandbox evaluated at each
/// place."
fn add_accept(uses: &mut Policy, place: Mask, sandbox: &Sandbox) {
    add_right(uses, place, ACCEPT);
    for site in members(place) {
        join(uses, &sandbox.at(site));
    }
}

/// What an eval line adds to a report: its subjects, and the body's use map
/// less the rights that the sandbox has evaluated at every site of the reach.
pub fn eval_part(line: &Line, place: Mask, net: &Net, estimate: &Estimate) -> (Mask, Policy) {
    let Line::Eval { target, body, sandbox, .. } = *line else {
        return (0, EMPTY_POLICY);
    };
    let subjects = reach(target, place, estimate);
    if subjects == 0 {
        return (0, EMPTY_POLICY);
    }
    let mut sure = [u8::MAX; SITES];
    for site in members(subjects) {
        meet(&mut sure, &net.sandboxes[usize::from(sandbox)].at(site));
    }
    (subjects, less(&use_map(net, estimate, body, subjects), &sure))
}

/// The report of a net that all rules accept.
pub fn report(net: &Net, estimate: &Estimate, places: &Places) -> Report {
    let mut report = [0; REPORT_BYTES];
    for root in net.roots.iter() {
        let uses = use_map(net, estimate, root.line, root.site.bit());
        add_part(&mut report, root.site, &less(&uses, &net.home[root.site.index()]));
    }
    for (line, place) in net.lines.iter().zip(places) {
        let (subjects, part) = eval_part(line, *place, net, estimate);
        for subject in members(subjects) {
            add_part(&mut report, subject, &part);
        }
    }
    for site in members(below(net.sites)) {
        let part = less(&estimate.rights[site.index()], &net.home[site.index()]);
        add_part(&mut report, site, &part);
    }
    report
}

fn add_part(report: &mut Report, subject: Site, part: &Policy) {
    let row = &mut report[subject.index() * SITES..][..SITES];
    for (byte, rights) in row.iter_mut().zip(part) {
        *byte |= rights;
    }
}

/// The part of the door that the sandbox has no say in: the sites l at
/// which all rules hold for the arrival's lines with place set l, and none of
/// its eval lines adds to a report. The lines go from `root` to the end of
/// `net.lines`.
pub fn sound_sites(net: &Net, estimate: &Estimate, root: usize) -> Mask {
    let rows = RowSets::of(estimate);
    let mut places = [0; MAX_LINES];
    let mut sound = 0;
    for l in members(below(net.sites)) {
        places[root] = l.bit();
        spread_places(&net.lines, root, estimate, &mut places);
        let holds = (root..net.lines.len()).all(|number| {
            let (line, place) = (&net.lines[number], places[number]);
            line_rule(line, place, net, estimate, &rows)
                && eval_part(line, place, net, estimate).1 == EMPTY_POLICY
        });
        sound |= if holds { l.bit() } else { 0 };
    }
    sound
}

/// Reads both texts, the net before the estimate.
pub fn read_both(
    net_text: &[u8],
    estimate_text: &[u8],
    net: &mut Net,
    estimate: &mut Estimate,
) -> Result<(), Refusal> {
    read_net(net_text, net)?;
    read_estimate(estimate_text, net.sites, estimate)
}

/// The check: writes the report to the first 1,024 bytes of `buffer` if the
/// net is accepted, and nothing otherwise.
pub fn check(net_text: &[u8], estimate_text: &[u8], buffer: &mut [u8]) -> Answer {
    if buffer.len() < REPORT_BYTES {
        return Answer::Refused(Refusal::whole(SHORT_BUFFER));
    }
    let (mut net, mut estimate) = (Net::empty(), Estimate::empty());
    if let Err(refusal) = read_both(net_text, estimate_text, &mut net, &mut estimate) {
        return Answer::Refused(refusal);
    }
    let places = net_places(&net, &estimate);
    if let Some(broken) = first_broken(&net, &estimate, &places) {
        return Answer::Broken(broken);
    }
    buffer[..REPORT_BYTES].copy_from_slice(&report(&net, &estimate, &places));
    Answer::Accepted
}
