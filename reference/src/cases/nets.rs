//! Random nets with estimates that the rules accept.

use super::process::{renumber, Maker, Weights, PLAIN};
use super::rng::Rng;
use crate::flow;
use crate::rows::*;

#[derive(Clone, Copy)]
pub struct Style {
    pub weights: Weights,
    pub max_lines: usize,
    pub max_roots: usize,
    pub max_tuples: usize,
    /// Chance that the estimate is widened.
    pub widened: usize,
    /// Random rows for each sandbox at most, taken over all of them.
    pub sandbox_rows: usize,
    /// How often tuples have 1 to 4 fields.
    pub lengths: [usize; MAX_FIELDS],
    /// Chance that a template's field is a wildcard.
    pub wildcards: usize,
    pub own_rows: OwnRows,
}

/// How sandboxes come by their rows for `self`.
#[derive(Clone, Copy, PartialEq)]
pub enum OwnRows {
    /// Some have one by chance, and some get one because bodies use rights.
    Fitted,
    /// Each has none, one without rights or one with rights, of which only the
    /// last is fitted to what bodies use.
    Drawn,
}

const LENGTHS: [usize; MAX_FIELDS] = [50, 30, 12, 8];

pub const LISTING: Style = Style {
    weights: PLAIN,
    max_lines: 60,
    max_roots: 5,
    max_tuples: 8,
    widened: 40,
    sandbox_rows: 2,
    lengths: LENGTHS,
    wildcards: 0,
    own_rows: OwnRows::Fitted,
};

/// Attempts before a net with a small estimate is settled for.
const ATTEMPTS: usize = 20;
const FIT_ROUNDS: usize = 5;

impl Style {
    /// The same with wildcards. Tuples are longer, so that more stands beside
    /// them; for a whole case they are few, or hardly anything else.
    pub fn with_wildcards(self, rng: &mut Rng) -> Style {
        Style { lengths: [18, 34, 28, 20], wildcards: *rng.pick(&[12, 25, 50, 85]), ..self }
    }
}

/// A net and an estimate for which all rules hold.
pub fn accepted(rng: &mut Rng, style: &Style) -> (Net, Estimate) {
    for _ in 0..ATTEMPTS {
        let mut net = shape_net(rng, style);
        if rng.chance(75) {
            fit_sandboxes(&mut net, style.own_rows);
        }
        if rng.chance(25) {
            loosen(rng, &mut net);
        }
        let mut start = Estimate::empty();
        if rng.chance(style.widened) {
            widen(rng, &net, &mut start);
        }
        if let Some(estimate) = close(&net, start) {
            fit_home(rng, &mut net, &estimate);
            return (net, estimate);
        }
    }
    let mut net = Net::empty();
    net.sites = rng.between(1, SITES) as u8;
    (net, Estimate::empty())
}

fn site_count(rng: &mut Rng) -> usize {
    match rng.weighted(&[6, 70, 18, 6]) {
        0 => 1,
        1 => rng.between(2, 7),
        2 => rng.between(8, 31),
        _ => 32,
    }
}

/// Sites, sandboxes, tuples, roots and lines; no home policies yet.
fn shape_net(rng: &mut Rng, style: &Style) -> Net {
    let mut net = Net::empty();
    let n = site_count(rng);
    net.sites = n as u8;
    let shape_count = rng.between(1, 5);
    let shapes: Vec<Tuple> = (0..shape_count).map(|_| shape_of(rng, n, &style.lengths)).collect();
    let sandboxes = if rng.chance(5) { SANDBOXES } else { rng.between(1, 4) };
    for _ in 0..rng.below(style.sandbox_rows * sandboxes + 1) {
        sandbox_row(rng, &mut net, n, sandboxes);
    }
    if style.own_rows == OwnRows::Drawn {
        net.sandboxes[..sandboxes].iter_mut().for_each(|sandbox| sandbox.own = own_row(rng));
    }
    for _ in 0..rng.between(0, style.max_tuples) {
        let tuple = near(rng, &shapes, n);
        if !net.tuples.is_full() && !net.tuples.contains(&tuple) {
            net.tuples.push(tuple);
        }
    }
    shape_lines(rng, style, &mut net, &shapes, sandboxes);
    net
}

fn shape_lines(rng: &mut Rng, style: &Style, net: &mut Net, shapes: &[Tuple], sandboxes: usize) {
    let n = net.sites;
    let large = rng.chance(6);
    let max_lines = if large { MAX_LINES } else { rng.between(4, style.max_lines) };
    let vars = if rng.chance(10) { VARS } else { rng.between(1, 4) };
    let fewest = if large { 10 } else { usize::from(rng.chance(95)) };
    let count = rng.between(fewest, if large { MAX_ROOTS } else { style.max_roots });
    let homes: Vec<Site> = (0..count).map(|_| Site(rng.below(usize::from(n)) as u8)).collect();
    let shuffled = rng.chance(35);
    let Style { weights, wildcards, .. } = *style;
    let lines = vec![];
    let mut maker = Maker { rng, n, shapes, vars, sandboxes, weights, wildcards, lines, max_lines };
    let mut roots: Vec<u8> = Vec::new();
    for _ in &homes {
        if maker.lines.len() < MAX_LINES {
            roots.push(maker.grow(0, 0));
        }
    }
    let mut lines = maker.lines;
    if shuffled {
        let number = renumber(rng, &mut lines, &roots);
        roots.iter_mut().for_each(|root| *root = number[usize::from(*root)]);
        rng.shuffle(&mut roots);
    }
    for (line, site) in roots.into_iter().zip(homes) {
        net.roots.push(Root { site, line });
    }
    lines.into_iter().for_each(|line| net.lines.push(line));
}

pub fn shape(rng: &mut Rng, n: usize) -> Tuple {
    shape_of(rng, n, &LENGTHS)
}

fn shape_of(rng: &mut Rng, n: usize, lengths: &[usize]) -> Tuple {
    let len = 1 + rng.weighted(lengths);
    let mut tuple = Tuple { site: Site(rng.below(n) as u8), len: len as u8, ..Tuple::BLANK };
    for field in &mut tuple.fields[..len] {
        *field = Site(rng.below(n) as u8);
    }
    tuple
}

/// One of the shapes, mostly with a field or the site changed.
fn near(rng: &mut Rng, shapes: &[Tuple], n: usize) -> Tuple {
    let mut tuple = *rng.pick(shapes);
    let site = Site(rng.below(n) as u8);
    match rng.weighted(&[30, 55, 15]) {
        0 => {}
        1 => tuple.fields[rng.below(usize::from(tuple.len))] = site,
        _ => tuple.site = site,
    }
    tuple
}

fn sandbox_row(rng: &mut Rng, net: &mut Net, n: usize, sandboxes: usize) {
    let rights = some_rights(rng);
    let sandbox = &mut net.sandboxes[rng.below(sandboxes)];
    if rng.chance(25) {
        add_own(sandbox, rights);
    } else {
        sandbox.towards[rng.below(n)] |= rights;
    }
}

/// No row for `self`, one without rights, or one with rights.
pub fn own_row(rng: &mut Rng) -> Option<u8> {
    match rng.weighted(&[40, 25, 35]) {
        0 => None,
        1 => Some(NO_RIGHTS),
        _ => Some(some_rights(rng)),
    }
}

/// Adds rights, if there are any, to the row for `self`, and the row if there
/// is none.
pub fn add_own(sandbox: &mut Sandbox, rights: u8) {
    if rights != NO_RIGHTS {
        sandbox.own = Some(sandbox.own.unwrap_or(NO_RIGHTS) | rights);
    }
}

/// One right, or several.
pub fn some_rights(rng: &mut Rng) -> u8 {
    if rng.chance(50) {
        1 << rng.below(LETTERS.len())
    } else {
        rng.between(1, usize::from(ALL_RIGHTS)) as u8
    }
}

/// Any set of rights, the empty one too.
fn any_rights(rng: &mut Rng) -> u8 {
    rng.between(usize::from(NO_RIGHTS), usize::from(ALL_RIGHTS)) as u8
}

/// Widens sandboxes until eval lines add nothing to the report.
fn fit_sandboxes(net: &mut Net, own_rows: OwnRows) {
    for _ in 0..FIT_ROUNDS {
        let Some(estimate) = close(net, Estimate::empty()) else {
            return;
        };
        let places = flow::net_places(net, &estimate);
        for (line, place) in net.lines.clone().iter().zip(places) {
            let (subjects, part) = flow::eval_part(line, place, net, &estimate);
            if let Line::Eval { sandbox, .. } = *line {
                let sandbox = &mut net.sandboxes[usize::from(sandbox)];
                add_to_sandbox(sandbox, subjects, &part, own_rows);
            }
        }
    }
}

fn add_to_sandbox(sandbox: &mut Sandbox, subjects: Mask, part: &Policy, own_rows: OwnRows) {
    join(&mut sandbox.towards, part);
    if own_rows == OwnRows::Drawn && matches!(sandbox.own, None | Some(NO_RIGHTS)) {
        return;
    }
    for site in members(subjects) {
        add_own(sandbox, part[site.index()]);
    }
}

/// Takes some rights out of sandboxes, so that bodies exceed them. A row for
/// `self` that loses them all is left out; one that has none stays.
fn loosen(rng: &mut Rng, net: &mut Net) {
    for sandbox in &mut net.sandboxes {
        if rng.chance(40) {
            let kept = any_rights(rng);
            let stays = |own: &u8| own & kept != NO_RIGHTS || *own == NO_RIGHTS;
            sandbox.own = sandbox.own.filter(stays).map(|own| own & kept);
        }
        for rights in &mut sandbox.towards {
            if *rights != 0 && rng.chance(20) {
                *rights &= any_rights(rng);
            }
        }
    }
}

/// Adds rows that the rules do not ask for.
pub fn widen(rng: &mut Rng, net: &Net, estimate: &mut Estimate) {
    let n = usize::from(net.sites);
    for _ in 0..rng.below(8) {
        estimate.binds[rng.below(VARS.min(6))] |= 1 << rng.below(n);
    }
    for _ in 0..rng.below(6) {
        let tuple = if net.tuples.is_empty() || rng.chance(50) {
            shape(rng, n)
        } else {
            near(rng, &net.tuples, n)
        };
        if !estimate.tuples.contains(&tuple) && !estimate.tuples.is_full() {
            estimate.tuples.push(tuple);
        }
    }
    for _ in 0..rng.below(4) {
        estimate.rights[rng.below(n)][rng.below(n)] |= some_rights(rng);
    }
}

/// The least estimate from `start` on for which all rules hold; `None` if it
/// has too many A rows.
pub fn close(net: &Net, start: Estimate) -> Option<Estimate> {
    let mut estimate = start;
    for tuple in net.tuples.iter() {
        add_tuple(&mut estimate, *tuple)?;
    }
    loop {
        let before = estimate.clone();
        let places = flow::net_places(net, &estimate);
        for (line, &place) in net.lines.iter().zip(&places) {
            close_line(net, line, place, &mut estimate)?;
        }
        if estimate == before {
            return Some(estimate);
        }
    }
}

fn add_tuple(estimate: &mut Estimate, tuple: Tuple) -> Option<()> {
    if estimate.tuples.contains(&tuple) {
        return Some(());
    }
    if estimate.tuples.is_full() {
        return None;
    }
    estimate.tuples.push(tuple);
    Some(())
}

fn close_line(net: &Net, line: &Line, place: Mask, estimate: &mut Estimate) -> Option<()> {
    match line {
        Line::Out { target, fields, .. } => close_out(*target, fields, place, estimate),
        Line::In { target, fields, .. } | Line::Read { target, fields, .. } => {
            close_template(*target, fields, place, estimate);
            Some(())
        }
        Line::Eval { target, sandbox, .. } => {
            let sites = flow::reach(*target, place, estimate);
            for (l, from) in members(sites).flat_map(|l| members(sites).map(move |from| (l, from)))
            {
                let rights = net.sandboxes[usize::from(*sandbox)].at(from);
                join(&mut estimate.rights[l.index()], &rights);
            }
            Some(())
        }
        _ => Some(()),
    }
}

fn close_out(target: Term, fields: &Terms, place: Mask, estimate: &mut Estimate) -> Option<()> {
    let mut rows = vec![Tuple { len: fields.len, ..Tuple::BLANK }];
    let sites = flow::reach(target, place, estimate);
    rows = choices(&rows, sites, |row, site| row.site = site)?;
    for (at, &term) in fields.slice().iter().enumerate() {
        let mask = flow::reach(term, place, estimate);
        rows = choices(&rows, mask, |row, site| row.fields[at] = site)?;
    }
    rows.into_iter().try_for_each(|row| add_tuple(estimate, row))
}

/// Every row with every site of `mask` put in; `None` if they are too many.
fn choices(rows: &[Tuple], mask: Mask, put: impl Fn(&mut Tuple, Site)) -> Option<Vec<Tuple>> {
    let mut all = Vec::new();
    for row in rows {
        for site in members(mask) {
            let mut chosen = *row;
            put(&mut chosen, site);
            all.push(chosen);
        }
    }
    // A later empty reach would leave no choice; such nets are rare.
    (all.len() <= MAX_TUPLES).then_some(all)
}

fn close_template(target: Term, fields: &Terms, place: Mask, estimate: &mut Estimate) {
    let sites = flow::reach(target, place, estimate);
    let masks = fields.items.map(|term| match term {
        Term::Bind(_) | Term::Wildcard => Mask::MAX,
        _ => flow::reach(term, place, estimate),
    });
    for row in estimate.tuples.iter() {
        let mut fits = row.fields().iter().zip(&masks).map(|(field, mask)| field.bit() & mask);
        let at_target = row.site.bit() & sites != 0;
        if at_target && row.len == fields.len && fits.all(|common| common != 0) {
            for (term, field) in fields.slice().iter().zip(row.fields()) {
                if let Term::Bind(u) = term {
                    estimate.binds[u.index()] |= field.bit();
                }
            }
        }
    }
}

/// Home policies that leave the report empty, or nearly so, and rights that
/// nobody uses.
pub fn fit_home(rng: &mut Rng, net: &mut Net, estimate: &Estimate) {
    let places = flow::net_places(net, estimate);
    let needed = flow::report(net, estimate, &places);
    let kept = *rng.pick(&[0, 60, 90, 97, 100, 100, 100, 100]);
    let n = usize::from(net.sites);
    for s in 0..n {
        for t in 0..n {
            for bit in 0..LETTERS.len() {
                if needed[s * SITES + t] & (1 << bit) != 0 && rng.chance(kept) {
                    net.home[s][t] |= 1 << bit;
                }
            }
        }
    }
    for _ in 0..rng.below(6) {
        net.home[rng.below(n)][rng.below(n)] |= some_rights(rng);
    }
}
