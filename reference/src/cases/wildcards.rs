//! Wildcards in generated cases: out of place, misspelt, in the place of a
//! binder or the other way about, and beside a thread that binds instead.

use super::damage::drop_row;
use super::nets::close;
use super::process::{template, template_mut};
use super::rng::Rng;
use super::text::Rows;
use crate::rows::*;

/// Words like a wildcard that are none.
const MISSPELT: &[&str] = &["__", "!_", "_u0", "_0", " _", "_ ", "s_", "u_", "!u_"];

/// The variables that twins bind; generated nets seldom have them.
const TWIN: Var = Var(30);
const MATE: Var = Var(29);

/// The place of a line's target among the fields of its row.
const TARGET: usize = 4;

/// What a row is: the word of a line with a target and something behind it,
/// else its letter.
fn sort_of(row: &[u8]) -> &[u8] {
    let fields: Vec<&[u8]> = row.split(|&b| b == b',').collect();
    match fields[..] {
        [b"Q", _, word @ (b"out" | b"in" | b"read" | b"eval"), _, _, _, ..] => word,
        _ => &row[..row.len().min(1)],
    }
}

/// Puts a wildcard, or a word like one, in the place of some field of a row.
/// Rows are taken from each sort as often, from templates more often; `n` is
/// the number of sites.
pub fn harm_wildcard(rng: &mut Rng, rows: &mut Rows, n: u8) {
    let mut sorts: Vec<&[u8]> = rows.iter().map(|row| sort_of(row)).collect();
    sorts.sort_unstable();
    sorts.dedup();
    if sorts.is_empty() {
        return rows.push(b"A,s0,_".to_vec());
    }
    let mut sort = *rng.pick(&sorts);
    sorts.retain(|sort| matches!(*sort, b"in" | b"read"));
    if !sorts.is_empty() && rng.chance(55) {
        sort = *rng.pick(&sorts);
    }
    let found: Vec<usize> = (0..rows.len()).filter(|&at| sort_of(&rows[at]) == sort).collect();
    let at = *rng.pick(&found);
    match sort_of(&rows[at]) {
        b"in" | b"read" if rng.chance(33) => harm_template(rng, &mut rows[at], n),
        _ => harm_field(rng, &mut rows[at]),
    }
}

/// Gives a template more fields, five or not, or a fault beside a wildcard.
fn harm_template(rng: &mut Rng, row: &mut Vec<u8>, n: u8) {
    if rng.chance(40) {
        (0..rng.between(1, 4)).for_each(|_| row.extend(b",_"));
        return;
    }
    let past = format!("s{n}");
    let faults: [&[&str]; 6] =
        [&["u32"], &["!u32"], &["s32"], &[&past], &["!u0", "u0"], &["!u0", "!u0"]];
    let mut words = rng.pick(&faults).to_vec();
    words.push("_");
    rng.shuffle(&mut words);
    let mut fields: Vec<&[u8]> = row.split(|&b| b == b',').take(TARGET + 1).collect();
    fields.extend(words.iter().map(|word| word.as_bytes()));
    *row = fields.join(&b',');
}

fn harm_field(rng: &mut Rng, row: &mut Vec<u8>) {
    let mut fields: Vec<&[u8]> = row.split(|&b| b == b',').collect();
    let last = fields.len() - 1;
    // Chances of the target and of the fields behind it; else any place.
    let (target, behind) = match sort_of(row) {
        b"eval" => (80, 0),
        b"out" => (45, 45),
        b"in" | b"read" => (35, 60),
        _ => (0, 0),
    };
    let at = match rng.weighted(&[target, behind, 100 - target - behind]) {
        0 => TARGET,
        1 => rng.between(TARGET + 1, last),
        _ => rng.between(1.min(last), last),
    };
    let in_template = matches!(sort_of(row), b"in" | b"read") && at > TARGET;
    let misspelt = rng.chance(if in_template { 85 } else { 15 });
    let word = if misspelt { misspelt_word(rng) } else { "_" };
    fields[at] = word.as_bytes();
    *row = fields.join(&b',');
}

fn misspelt_word(rng: &mut Rng) -> &'static str {
    let words = if rng.chance(70) { &MISSPELT[..2] } else { MISSPELT };
    rng.pick::<&str>(words)
}

/// The fields of templates that are as wanted: line and place.
fn places(lines: &[Line], wanted: impl Fn(Term) -> bool) -> Vec<(usize, usize)> {
    let mut found = Vec::new();
    for (q, fields) in lines.iter().enumerate().filter_map(|(q, line)| Some((q, template(line)?))) {
        found.extend(
            (0..fields.slice().len()).filter(|&at| wanted(fields.items[at])).map(|at| (q, at)),
        );
    }
    found
}

/// A binder becomes a wildcard: 8 where its variable is used behind it.
pub fn unbind(rng: &mut Rng, lines: &mut [Line]) {
    let found = places(lines, |term| matches!(term, Term::Bind(_)));
    if !found.is_empty() {
        let (q, at) = *rng.pick(&found);
        put(lines, q, at, Term::Wildcard);
    }
}

/// A wildcard becomes a binder of a variable that its template does not have:
/// "binding a spare variable widens the estimate".
pub fn bind_spare(rng: &mut Rng, lines: &mut [Line]) {
    let found = places(lines, |term| term == Term::Wildcard);
    if !found.is_empty() {
        let (q, at) = *rng.pick(&found);
        let u = *rng.pick(&spare_variables(&lines[q]));
        put(lines, q, at, Term::Bind(u));
    }
}

/// Adds an A row that a template with both a wildcard and a binder takes, most
/// often with a site for which the binder's variable has no B row.
pub fn add_taken_row(rng: &mut Rng, net: &Net, estimate: &mut Estimate) {
    let has_both =
        |fields: &&Terms| fields.binds() != 0 && fields.slice().contains(&Term::Wildcard);
    let templates: Vec<&Terms> = net.lines.iter().filter_map(template).filter(has_both).collect();
    let mut found = Vec::new();
    for fields in templates {
        let fits = |row: &&Tuple| {
            row.len == fields.len && fields.slice().iter().zip(row.fields()).all(is_not_other)
        };
        found.extend(estimate.tuples.iter().filter(fits).map(|row| (*fields, *row)));
    }
    if found.is_empty() || estimate.tuples.is_full() {
        return drop_row(rng, estimate);
    }
    let (fields, mut row) = *rng.pick(&found);
    for at in (0..fields.slice().len()).filter(|&at| fields.items[at].takes_any()) {
        row.fields[at] = Site(rng.below(usize::from(net.sites)) as u8);
    }
    if !estimate.tuples.contains(&row) {
        estimate.tuples.push(row);
    }
}

/// Whether a field is not another site than the row's.
fn is_not_other((term, site): (&Term, &Site)) -> bool {
    !matches!(term, Term::Site(other) if other != site)
}

/// The variables that a line's template does not have.
pub fn spare_variables(line: &Line) -> Vec<Var> {
    let fields = template(line).map_or(&[][..], Terms::slice);
    let spare = |u: &Var| !fields.contains(&Term::Var(*u)) && !fields.contains(&Term::Bind(*u));
    (0..VARS as u8).map(Var).filter(spare).collect()
}

fn put(lines: &mut [Line], q: usize, at: usize, term: Term) {
    if let Some(fields) = template_mut(&mut lines[q]) {
        fields.items[at] = term;
    }
}

/// Adds two roots at one site that bind a variable, match once more, and put
/// the variable out. The first binds it anew; the second has a wildcard there,
/// so that its first value stays. Nothing is added where the net or its
/// estimate has no room.
pub fn add_twins(rng: &mut Rng, net: &mut Net, estimate: &mut Estimate) {
    let mut grown = net.clone();
    if grown.tuples.is_empty()
        || grown.roots.len() + 2 > MAX_ROOTS
        || grown.lines.len() + 8 > MAX_LINES
    {
        return;
    }
    let n = usize::from(net.sites);
    let tuple = *rng.pick(&grown.tuples);
    let at = rng.below(usize::from(tuple.len));
    let mut other = tuple;
    other.fields[at] = Site(rng.below(n) as u8);
    if !grown.tuples.is_full() && !grown.tuples.contains(&other) {
        grown.tuples.push(other);
    }
    let site = Site(rng.below(n) as u8);
    let mut templates = twin_fields(rng, &tuple, at);
    let takes = rng.chance(50);
    for again in [Term::Bind(TWIN), Term::Wildcard] {
        templates[1].items[at] = again;
        grown.roots.push(Root { site, line: grown.lines.len() as u8 });
        add_twin(&mut grown, tuple.site, templates, takes);
    }
    if let Some(closed) = close(&grown, estimate.clone()) {
        (*net, *estimate) = (grown, closed);
    }
}

/// Two templates for a tuple, of which the first binds the twins' variable at
/// a place, and sometimes another variable that the second then has.
fn twin_fields(rng: &mut Rng, tuple: &Tuple, at: usize) -> [Terms; 2] {
    let mut fields = Terms { len: tuple.len, ..Terms::BLANK };
    for (place, &field) in tuple.fields().iter().enumerate() {
        fields.items[place] = if rng.chance(30) { Term::Wildcard } else { Term::Site(field) };
    }
    let mut both = [fields; 2];
    let mate = rng.below(usize::from(tuple.len));
    if rng.chance(60) {
        both[0].items[mate] = Term::Bind(MATE);
        both[1].items[mate] = Term::Var(MATE);
    }
    both[0].items[at] = Term::Bind(TWIN);
    both
}

/// A `read`, then an `in` or a `read` of another template, then an `out`.
fn add_twin(net: &mut Net, site: Site, [first, second]: [Terms; 2], takes: bool) {
    let target = Term::Site(site);
    let next = net.lines.len() as u8 + 1;
    net.lines.push(Line::Read { next, target, fields: first });
    let next = next + 1;
    net.lines.push(if takes {
        Line::In { next, target, fields: second }
    } else {
        Line::Read { next, target, fields: second }
    });
    let mut fields = Terms { len: 1, ..Terms::BLANK };
    fields.items[0] = Term::Var(TWIN);
    net.lines.push(Line::Out { next: next + 1, target: Term::Own, fields });
    net.lines.push(Line::Nil);
}
