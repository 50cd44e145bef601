//! What cases cover of wildcards (document 02, No. 1).

use super::cover::word;
use super::process::{template, template_mut};
use super::wildcards::spare_variables;
use crate::engine::{State, Thread};
use crate::flow::{line_rule, spread_places, Places, RowSets};
use crate::rows::*;

/// A wildcard, and words like one that are none.
const SPELLINGS: [&str; 3] = ["_", "__", "!_"];

/// The longest text in which each wildcard is tried as a binder.
const MOST_TRIED: usize = 2500;

/// The template of a line, if it has a wildcard.
fn wild(line: &Line) -> Option<&Terms> {
    template(line).filter(|fields| fields.slice().contains(&Term::Wildcard))
}

/// What stands in a template that has a wildcard.
fn fields_of(line: &Line) -> Vec<String> {
    let Some(fields) = wild(line) else { return vec![] };
    let name = |(at, term): (usize, &Term)| match term {
        Term::Wildcard => format!("field {} of {}", at + 1, word(line)),
        Term::Bind(_) => "beside !u".to_string(),
        Term::Site(_) => "beside a site".to_string(),
        Term::Own => "beside self".to_string(),
        Term::Var(_) => "beside a variable".to_string(),
    };
    let mut names: Vec<String> = fields.slice().iter().enumerate().map(name).collect();
    let count = fields.slice().iter().filter(|term| **term == Term::Wildcard).count();
    names.push(format!("{count} in one template"));
    if count == fields.slice().len() {
        names.push(format!("nothing else in {count} fields"));
    }
    names
}

/// What stands in templates that were read.
pub fn taken(lines: &[Line]) -> Vec<String> {
    lines.iter().flat_map(fields_of).collect()
}

/// The lines with wildcards of an arrival that was brought.
pub fn brought(lines: &[Line]) -> Vec<String> {
    lines
        .iter()
        .filter(|line| wild(line).is_some())
        .map(|line| format!("brought in {}", word(line)))
        .collect()
}

/// A row refused for a wildcard, or beside one.
pub fn refused(part: &str, row: &[u8], number: u8) -> Vec<String> {
    let fields: Vec<&[u8]> = row.split(|&b| b == b',').collect();
    let mut seen = Vec::new();
    match number {
        BAD_FORM => {
            seen.extend(SPELLINGS.iter().filter_map(|spelling| misplaced(&fields, spelling)));
            if five_fields(&fields) {
                seen.push("five fields".to_string());
            }
        }
        OVER_LIMIT | NO_SITE | BAD_TEMPLATE if fields.contains(&&b"_"[..]) => {
            seen.push("beside _".to_string());
        }
        _ => {}
    }
    seen.into_iter().map(|what| format!("{part} refused {number}, {what}")).collect()
}

/// The row's fields with another word for each `spelling`, as a row.
fn mended<'a>(fields: &[&'a [u8]], spelling: &str, word: &'a str) -> Vec<u8> {
    let mut mended = fields.to_vec();
    for field in mended.iter_mut().filter(|field| **field == spelling.as_bytes()) {
        *field = word.as_bytes();
    }
    mended.join(&b',')
}

/// Where a wildcard stands that alone makes a row malformed; of words like
/// one, those in templates.
fn misplaced(fields: &[&[u8]], spelling: &str) -> Option<String> {
    let at = fields.iter().position(|field| *field == spelling.as_bytes())?;
    let good = |word: &&str| parse_row(&mended(fields, spelling, word)).is_some();
    ["s0", "u0", "0", "o"].iter().find(|word| good(word))?;
    let text = |at: usize| String::from_utf8_lossy(fields[at]).into_owned();
    let place = match (fields[0], fields.get(2).copied().unwrap_or_default(), at) {
        (b"Q", b"in" | b"read", 5..) => format!("in {}", text(2)),
        _ if spelling != "_" => return None,
        (b"Q", b"out" | b"in" | b"read" | b"eval", 4) => format!("as the target of {}", text(2)),
        (b"Q", b"out", 5..) => "in out".to_string(),
        (b"Q", ..) => "as a number of Q".to_string(),
        _ => format!("in {}", text(0)),
    };
    Some(format!("{spelling} {place}"))
}

/// Whether a row is a template with a wildcard and one field too many.
fn five_fields(fields: &[&[u8]]) -> bool {
    let Some((_, rest)) = fields.split_last() else { return false };
    let whole = parse_row(&rest.join(&b','));
    matches!(whole, Some((Row::Q(_, Line::In { fields, .. } | Line::Read { fields, .. }), _))
        if usize::from(fields.len) == MAX_FIELDS && fields.slice().contains(&Term::Wildcard))
}

/// Whether a net refused with 8 is read once a wildcard binds a variable.
pub fn lacks_binder(text: &[u8]) -> bool {
    let is_field = |at: &usize| text[*at] == b'_' && text[at - 1] == b',';
    let wildcards: Vec<usize> = (1..text.len()).filter(is_field).collect();
    let binds = |at: usize, u: u8| {
        let binder = format!("!u{u}");
        let bound = [&text[..at], binder.as_bytes(), &text[at + 1..]].concat();
        read_net(&bound, &mut Net::empty()).is_ok()
    };
    text.len() <= MOST_TRIED && wildcards.iter().any(|&at| (0..VARS as u8).any(|u| binds(at, u)))
}

/// The rules of templates with wildcards, asked line by line.
struct Rules<'a> {
    net: &'a Net,
    estimate: &'a Estimate,
    rows: RowSets,
}

impl Rules<'_> {
    fn of<'a>(net: &'a Net, estimate: &'a Estimate) -> Rules<'a> {
        Rules { net, estimate, rows: RowSets::of(estimate) }
    }

    fn holds(&self, line: &Line, place: Mask) -> bool {
        line_rule(line, place, self.net, self.estimate, &self.rows)
    }

    fn holds_with(&self, line: &Line, place: Mask, fields: Terms) -> bool {
        let mut other = *line;
        if let Some(template) = template_mut(&mut other) {
            *template = fields;
        }
        self.holds(&other, place)
    }

    /// The line's template with one of its wildcards replaced, each in turn.
    fn replaced(line: &Line, term: Term) -> Vec<Terms> {
        let Some(fields) = wild(line) else { return vec![] };
        let wildcards = (0..fields.slice().len()).filter(|&at| fields.items[at] == Term::Wildcard);
        let put = |at: usize| {
            let mut other = *fields;
            other.items[at] = term;
            other
        };
        wildcards.map(put).collect()
    }

    /// Whether a variable bound in a wildcard's place breaks the rule.
    fn spare_breaks(&self, line: &Line, place: Mask) -> bool {
        let breaks = |u: Var| {
            let bound = Rules::replaced(line, Term::Bind(u));
            bound.into_iter().any(|fields| !self.holds_with(line, place, fields))
        };
        spare_variables(line).into_iter().any(breaks)
    }

    /// Whether the rule breaks if the template is cut or gets wildcards at its
    /// end: then a row of another length must not be taken for one of its own.
    fn length_matters(&self, line: &Line, place: Mask) -> bool {
        let Some(fields) = wild(line) else { return false };
        let mut other = *fields;
        other.items[fields.slice().len()..].fill(Term::Wildcard);
        (1..=MAX_FIELDS as u8).filter(|&len| len != fields.len).any(|len| {
            other.len = len;
            !self.holds_with(line, place, other)
        })
    }

    /// Whether the rule would hold with `self` in a wildcard's place.
    fn holds_with_self(&self, line: &Line, place: Mask) -> bool {
        let own = Rules::replaced(line, Term::Own);
        own.into_iter().any(|fields| self.holds_with(line, place, fields))
    }
}

/// A rule broken at a line that may have wildcards.
pub fn broken(net: &Net, estimate: &Estimate, places: &Places, q: usize) -> Vec<String> {
    let line = &net.lines[q];
    let mut seen = Vec::new();
    if wild(line).is_some_and(|fields| fields.binds() != 0) {
        seen.push(format!("broken {}, beside !u", word(line)));
    }
    if Rules::of(net, estimate).holds_with_self(line, places[q]) {
        seen.push(format!("broken {}, holds with self there", word(line)));
    }
    seen
}

/// An accepted net's templates with wildcards.
pub fn accepted(net: &Net, estimate: &Estimate, places: &Places) -> Vec<String> {
    let rules = Rules::of(net, estimate);
    let mut seen = Vec::new();
    for (line, &place) in net.lines.iter().zip(places) {
        if rules.spare_breaks(line, place) {
            seen.push(format!("accepted {}, a spare variable breaks it", word(line)));
        }
        if rules.length_matters(line, place) {
            seen.push(format!("accepted {}, rows of another length break it", word(line)));
        }
    }
    seen
}

/// A step with k, m and r, by its answer: of a template with wildcards, or of
/// an accept that an arrival with wildcards is shown to.
pub fn step(name: &str, before: &State, [k, m, r]: [usize; 3], answer: &[&str]) -> Vec<String> {
    let Some(thread) = before.threads.get(k) else { return vec![] };
    let line = &before.net.lines[usize::from(thread.line)];
    match (answer, wild(line), before.tuples.get(m)) {
        (["performed", .., "a"], ..) if has_wildcards(before, r) => {
            vec!["accept performed".to_string()]
        }
        (["refused", "25", _], ..) if has_wildcards(before, r) => {
            vec!["accept refused 25".to_string()]
        }
        (["performed", ..], Some(fields), Some(tuple)) => {
            performed(name, before, thread, fields, tuple)
        }
        (["refused", "23", _], Some(fields), Some(tuple)) => {
            let why = if target(thread, line) != Some(tuple.site) {
                "elsewhere"
            } else if tuple.len != fields.len {
                "another number of fields"
            } else {
                "a field disagrees"
            };
            vec![format!("{} refused 23, {why}", word(line))]
        }
        (["refused", "26", _], Some(_), _) => vec![format!("{} refused 26", word(line))],
        _ => vec![],
    }
}

/// The site that a template's target stands for.
fn target(thread: &Thread, line: &Line) -> Option<Site> {
    match line {
        Line::In { target, .. } | Line::Read { target, .. } => match *target {
            Term::Site(site) => Some(site),
            Term::Own => Some(thread.site),
            Term::Var(u) => thread.bindings.get(u),
            _ => None,
        },
        _ => None,
    }
}

fn performed(
    name: &str,
    before: &State,
    thread: &Thread,
    fields: &Terms,
    tuple: &Tuple,
) -> Vec<String> {
    let line = &before.net.lines[usize::from(thread.line)];
    let mut seen = vec![format!("{name} {} performed", word(line))];
    seen.extend(fields_of(line).into_iter().map(|what| format!("{what}, performed")));
    let replaces = |u: Var| {
        let pairs = || fields.slice().iter().zip(tuple.fields());
        let other = |site: Site| pairs().any(|(t, f)| *t == Term::Wildcard && *f != site);
        thread.bindings.get(u).is_some_and(other)
    };
    if spare_variables(line).into_iter().any(replaces) {
        seen.push("!u there would replace a binding, performed".to_string());
    }
    if before.net.lines.iter().any(|other| is_twin(line, other)) {
        seen.push("another line has !u there, performed".to_string());
    }
    seen
}

/// Whether two lines differ in the line that follows, and in wildcards of
/// `line` that are `!u` in `other`.
fn is_twin(line: &Line, other: &Line) -> bool {
    let (Some(mine), Some(theirs)) = (wild(line), template(other)) else { return false };
    let pairs = || mine.slice().iter().zip(theirs.slice());
    let agree =
        |(a, b): (&Term, &Term)| a == b || (*a == Term::Wildcard && matches!(b, Term::Bind(_)));
    let targets = |line: &Line| match *line {
        Line::In { target, .. } | Line::Read { target, .. } => Some(target),
        _ => None,
    };
    word(line) == word(other)
        && targets(line) == targets(other)
        && mine.len == theirs.len
        && mine != theirs
        && pairs().all(agree)
}

/// The lines of the arrival with root r; none if r is no arrival's root.
fn arrival_lines(state: &State, r: usize) -> std::ops::Range<usize> {
    let mut roots = state.arrivals.iter().map(|arrival| usize::from(arrival.root));
    if !roots.any(|root| root == r) {
        return 0..0;
    }
    r..roots.next().unwrap_or(state.net.lines.len())
}

fn has_wildcards(state: &State, r: usize) -> bool {
    state.net.lines[arrival_lines(state, r)].iter().any(|line| wild(line).is_some())
}

/// The door by itself, not refused, for an arrival with wildcards.
pub fn door(state: &State, r: usize, l: usize, answer: &str) -> Vec<String> {
    if !has_wildcards(state, r) {
        return vec![];
    }
    let lines = arrival_lines(state, r);
    let rules = Rules::of(&state.net, &state.estimate);
    let mut places: Places = [0; MAX_LINES];
    places[r] = Site(l as u8).bit();
    spread_places(&state.net.lines, r, &state.estimate, &mut places);
    let any = |wanted: fn(&Rules, &Line, Mask) -> bool| {
        lines.clone().any(|q| wanted(&rules, &state.net.lines[q], places[q]))
    };
    let mut seen = vec![format!("door {answer}")];
    if answer == "passes" && any(|rules, line, place| rules.spare_breaks(line, place)) {
        seen.push("door passes, a spare variable closes it".to_string());
    }
    let breaks =
        |rules: &Rules, line: &Line, place: Mask| wild(line).is_some() && !rules.holds(line, place);
    if answer == "closed" && any(breaks) {
        seen.push("door closed, for a template with _".to_string());
    }
    seen
}

/// Threads on templates with wildcards, up to the place that is ready.
pub fn ready(state: &State, place: &str) -> Vec<String> {
    let place = place.parse().unwrap_or(state.threads.len());
    let waits = |k: usize| wild(&state.net.lines[usize::from(state.threads[k].line)]).is_some();
    let mut seen = Vec::new();
    if (0..place).any(waits) {
        seen.push("ready passes over it".to_string());
    }
    if place < state.threads.len() && waits(place) {
        seen.push("ready finds it".to_string());
    }
    seen
}
