//! The reader for the three kinds of text. "Each row top down: 1, 2, 3, 4,
//! 7. Then 5, 6, 8, each over the whole text."

use super::*;

/// A refusal's number, and its row where it has one (else 0).
#[derive(Clone, Copy, PartialEq, Eq, Debug)]
pub struct Refusal {
    pub number: u8,
    pub row: usize,
}

impl Refusal {
    pub fn whole(number: u8) -> Refusal {
        Refusal { number, row: 0 }
    }
}

/// Hands each row to `judge`; bytes behind the last 0A are a row refused
/// with 1.
fn each_row(text: &[u8], mut judge: impl FnMut(&[u8]) -> Result<(), u8>) -> Result<(), Refusal> {
    let mut rest = text;
    let mut row = 0;
    while !rest.is_empty() {
        row += 1;
        let Some(end) = rest.iter().position(|&b| b == b'\n') else {
            return Err(Refusal { number: BAD_FORM, row });
        };
        judge(&rest[..end]).map_err(|number| Refusal { number, row })?;
        rest = &rest[end + 1..];
    }
    Ok(())
}

/// Reads a net. On a refusal `net` holds nothing of use.
pub fn read_net(text: &[u8], net: &mut Net) -> Result<(), Refusal> {
    *net = Net::empty();
    if text.is_empty() {
        return Err(Refusal { number: OUT_OF_ORDER, row: 1 });
    }
    let mut above = Above { last: None, in_turn: true, spoken: [0; SANDBOXES] };
    each_row(text, |bytes| net_row(net, &mut above, bytes))?;
    let roots = net.roots.iter().map(|root| root.line);
    whole_text(&net.lines, above.in_turn, roots).map_err(Refusal::whole)
}

/// What is kept of the rows above one, beside the net itself.
struct Above {
    last: Option<Group>,
    /// Whether each Q row has had the next number.
    in_turn: bool,
    /// The sites towards which each sandbox has a row: `-` leaves no rights by
    /// which it could be seen.
    spoken: [Mask; SANDBOXES],
}

fn net_row(net: &mut Net, above: &mut Above, bytes: &[u8]) -> Result<(), u8> {
    let (row, over) = parse_row(bytes).ok_or(BAD_FORM)?;
    let group = row.group();
    if over || net_is_full(net, group) {
        return Err(OVER_LIMIT);
    }
    let ordered = match above.last {
        None => group == Group::N,
        Some(before) => before <= group && group != Group::N && group <= Group::Q,
    };
    if !ordered || net_repeats(net, above, &row) {
        return Err(OUT_OF_ORDER);
    }
    above.last = Some(group);
    if let Row::N(n) = row {
        net.sites = n;
    }
    sites_and_template(&row, net.sites)?;
    match row {
        Row::Q(number, _) => above.in_turn &= usize::from(number) == net.lines.len(),
        Row::D(k, Some(t), _) => above.spoken[usize::from(k)] |= t.bit(),
        _ => {}
    }
    add_to_net(net, row);
    Ok(())
}

/// Refusals 4 and 7.
fn sites_and_template(row: &Row, n: u8) -> Result<(), u8> {
    if row.sites() & !below(n) != 0 {
        return Err(NO_SITE);
    }
    if row.clashes() {
        return Err(BAD_TEMPLATE);
    }
    Ok(())
}

/// Whether the group already has all the rows it may have.
fn net_is_full(net: &Net, group: Group) -> bool {
    match group {
        Group::T => net.tuples.is_full(),
        Group::L => net.roots.is_full(),
        Group::Q => net.lines.is_full(),
        _ => false,
    }
}

/// "R, D and E rows repeat if their first two fields do, T, L, B and A rows
/// if all do, Q rows never." The rights of R and E rows are never empty, so
/// that such a pair has been met if and only if it has rights.
fn net_repeats(net: &Net, above: &Above, row: &Row) -> bool {
    match row {
        Row::R(s, t, _) => net.home[s.index()][t.index()] != NO_RIGHTS,
        Row::D(k, Some(t), _) => above.spoken[usize::from(*k)] & t.bit() != 0,
        Row::D(k, None, _) => net.sandboxes[usize::from(*k)].own.is_some(),
        Row::T(tuple) => net.tuples.contains(tuple),
        Row::L(root) => net.roots.contains(root),
        _ => false,
    }
}

fn add_to_net(net: &mut Net, row: Row) {
    match row {
        Row::R(s, t, rights) => net.home[s.index()][t.index()] = rights,
        Row::D(k, Some(t), rights) => net.sandboxes[usize::from(k)].towards[t.index()] = rights,
        Row::D(k, None, rights) => net.sandboxes[usize::from(k)].own = Some(rights),
        Row::T(tuple) => net.tuples.push(tuple),
        Row::L(root) => net.roots.push(root),
        Row::Q(_, line) => net.lines.push(line),
        _ => {}
    }
}

/// Reads the estimate of a net with `n` sites.
pub fn read_estimate(text: &[u8], n: u8, estimate: &mut Estimate) -> Result<(), Refusal> {
    *estimate = Estimate::empty();
    let mut last = Group::B;
    each_row(text, |bytes| estimate_row(estimate, n, &mut last, bytes))
}

fn estimate_row(estimate: &mut Estimate, n: u8, last: &mut Group, bytes: &[u8]) -> Result<(), u8> {
    let (row, over) = parse_row(bytes).ok_or(BAD_FORM)?;
    let group = row.group();
    if over || (group == Group::A && estimate.tuples.is_full()) {
        return Err(OVER_LIMIT);
    }
    // Groups of a net stand below B, so this also refuses foreign rows.
    if group < *last || estimate_repeats(estimate, &row) {
        return Err(OUT_OF_ORDER);
    }
    *last = group;
    sites_and_template(&row, n)?;
    match row {
        Row::B(u, s) => estimate.binds[u.index()] |= s.bit(),
        Row::A(tuple) => estimate.tuples.push(tuple),
        Row::E(s, t, rights) => estimate.rights[s.index()][t.index()] = rights,
        _ => {}
    }
    Ok(())
}

fn estimate_repeats(estimate: &Estimate, row: &Row) -> bool {
    match row {
        Row::B(u, s) => estimate.binds[u.index()] & s.bit() != 0,
        Row::A(tuple) => estimate.tuples.contains(tuple),
        Row::E(s, t, _) => estimate.rights[s.index()][t.index()] != NO_RIGHTS,
        _ => false,
    }
}

/// Reads an arrival for a net of `n` sites that has `present` lines. The
/// lines keep the numbers of their text. "Bring uses 1 to 8, 2 also past 256
/// lines in all; no rows is 5."
pub fn read_arrival(
    text: &[u8],
    n: u8,
    present: usize,
    lines: &mut List<Line, MAX_LINES>,
) -> Result<(), Refusal> {
    *lines = List::filled(Line::Nil);
    let mut in_turn = true;
    each_row(text, |bytes| {
        let (row, over) = parse_row(bytes).ok_or(BAD_FORM)?;
        let full = row.group() == Group::Q && present + lines.len() >= MAX_LINES;
        if over || full {
            return Err(OVER_LIMIT);
        }
        let Row::Q(number, line) = row else {
            return Err(OUT_OF_ORDER);
        };
        sites_and_template(&row, n)?;
        in_turn &= usize::from(number) == lines.len();
        lines.push(line);
        Ok(())
    })?;
    whole_text(lines, in_turn, std::iter::once(0)).map_err(Refusal::whole)
}

/// Refusals 5, 6 and 8, in this order. `roots` are the lines named from
/// outside: by L rows, or line 0 of an arrival.
fn whole_text(
    lines: &[Line],
    in_turn: bool,
    roots: impl Iterator<Item = u8> + Clone,
) -> Result<(), u8> {
    if !in_turn || !numbers_hold(lines, roots.clone()) {
        return Err(BAD_NUMBERING);
    }
    if !named_once(lines, roots.clone()) {
        return Err(BAD_NAMING);
    }
    if !roots_closed(lines, roots) {
        return Err(FREE_VARIABLE);
    }
    Ok(())
}

/// Every named line is there, and every child is greater than its parent.
fn numbers_hold(lines: &[Line], mut roots: impl Iterator<Item = u8>) -> bool {
    let present = |line: u8| usize::from(line) < lines.len();
    let children_hold = lines.iter().enumerate().all(|(number, line)| {
        line.children()
            .into_iter()
            .flatten()
            .all(|child| present(child) && usize::from(child) > number)
    });
    children_hold && roots.all(present)
}

/// "Each line is named exactly once, by an L row or one parent."
fn named_once(lines: &[Line], roots: impl Iterator<Item = u8>) -> bool {
    let mut named = [false; MAX_LINES];
    let children = lines.iter().flat_map(|line| line.children().into_iter().flatten());
    for line in roots.chain(children) {
        let name = &mut named[usize::from(line)];
        if *name {
            return false;
        }
        *name = true;
    }
    named[..lines.len()].iter().all(|&name| name)
}

/// "A root has no free variable."
fn roots_closed(lines: &[Line], mut roots: impl Iterator<Item = u8>) -> bool {
    let mut free = [0u32; MAX_LINES];
    for number in (0..lines.len()).rev() {
        free[number] = free_variables(&lines[number], &free);
    }
    roots.all(|root| free[usize::from(root)] == 0)
}

/// The free variables of a line, given those of its children.
fn free_variables(line: &Line, free: &[u32; MAX_LINES]) -> u32 {
    let of = |line: u8| free[usize::from(line)];
    match *line {
        Line::Nil => 0,
        Line::Par { next, second } => of(next) | of(second),
        Line::Rep { next } | Line::Accept { next, .. } => of(next),
        Line::Out { next, target, fields } => {
            term_variable(&target) | used_variables(&fields) | of(next)
        }
        Line::In { next, target, fields } | Line::Read { next, target, fields } => {
            term_variable(&target) | used_variables(&fields) | (of(next) & !fields.binds())
        }
        Line::Eval { next, target, body, .. } => term_variable(&target) | of(next) | of(body),
    }
}

fn term_variable(term: &Term) -> u32 {
    if let Term::Var(u) = term {
        u.bit()
    } else {
        0
    }
}

fn used_variables(fields: &Terms) -> u32 {
    fields.slice().iter().fold(0, |mask, term| mask | term_variable(term))
}
