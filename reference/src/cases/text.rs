//! Nets, estimates and arrivals written as rows.

use crate::listing::letters;
use crate::rows::*;

/// Rows without their final 0A.
pub type Rows = Vec<Vec<u8>>;

pub fn bytes(rows: &[Vec<u8>]) -> Vec<u8> {
    let mut text = Vec::new();
    for row in rows {
        text.extend_from_slice(row);
        text.push(b'\n');
    }
    text
}

pub fn net_rows(net: &Net) -> Rows {
    let mut rows = vec![format!("N,{}", net.sites)];
    rows.extend(policy_rows('R', &net.home));
    for (k, sandbox) in net.sandboxes.iter().enumerate() {
        for (t, &rights) in sandbox.towards.iter().enumerate().filter(|(_, &r)| r != 0) {
            rows.push(format!("D,{k},s{t},{}", letters(rights)));
        }
        if let Some(rights) = sandbox.own {
            rows.push(format!("D,{k},self,{}", letters_or_none(rights)));
        }
    }
    rows.extend(net.tuples.iter().map(|tuple| tuple_row('T', tuple)));
    rows.extend(net.roots.iter().map(|root| format!("L,s{},{}", root.site.0, root.line)));
    rows.extend(net.lines.iter().enumerate().map(|(q, line)| line_row(q, line)));
    rows.into_iter().map(String::into_bytes).collect()
}

/// The rights of a D row.
pub fn letters_or_none(rights: u8) -> String {
    if rights == NO_RIGHTS {
        "-".to_string()
    } else {
        letters(rights)
    }
}

pub fn estimate_rows(estimate: &Estimate) -> Rows {
    let mut rows = Vec::new();
    for (u, &mask) in estimate.binds.iter().enumerate() {
        rows.extend(members(mask).map(|s| format!("B,u{u},s{}", s.0)));
    }
    rows.extend(estimate.tuples.iter().map(|tuple| tuple_row('A', tuple)));
    rows.extend(policy_rows('E', &estimate.rights));
    rows.into_iter().map(String::into_bytes).collect()
}

pub fn arrival_rows(lines: &[Line]) -> Rows {
    lines.iter().enumerate().map(|(q, line)| line_row(q, line).into_bytes()).collect()
}

fn policy_rows(letter: char, policies: &[Policy]) -> Vec<String> {
    let mut rows = Vec::new();
    for (s, policy) in policies.iter().enumerate() {
        for (t, &rights) in policy.iter().enumerate().filter(|(_, &r)| r != 0) {
            rows.push(format!("{letter},s{s},s{t},{}", letters(rights)));
        }
    }
    rows
}

pub fn tuple_row(letter: char, tuple: &Tuple) -> String {
    let mut row = format!("{letter},s{}", tuple.site.0);
    for field in tuple.fields() {
        row.push_str(&format!(",s{}", field.0));
    }
    row
}

fn term(term: Term) -> String {
    match term {
        Term::Site(s) => format!("s{}", s.0),
        Term::Own => "self".to_string(),
        Term::Var(u) => format!("u{}", u.0),
        Term::Bind(u) => format!("!u{}", u.0),
        Term::Wildcard => "_".to_string(),
    }
}

fn action(name: &str, next: u8, target: Term, fields: &Terms) -> String {
    let mut text = format!("{name},{next},{}", term(target));
    for &field in fields.slice() {
        text.push(',');
        text.push_str(&term(field));
    }
    text
}

pub fn line_row(q: usize, line: &Line) -> String {
    let text = match line {
        Line::Nil => "nil".to_string(),
        Line::Par { next, second } => format!("par,{next},{second}"),
        Line::Rep { next } => format!("rep,{next}"),
        Line::Out { next, target, fields } => action("out", *next, *target, fields),
        Line::In { next, target, fields } => action("in", *next, *target, fields),
        Line::Read { next, target, fields } => action("read", *next, *target, fields),
        Line::Eval { next, target, body, sandbox } => {
            format!("eval,{next},{},{body},{sandbox}", term(*target))
        }
        Line::Accept { next, sandbox } => format!("accept,{next},{sandbox}"),
    };
    format!("Q,{q},{text}")
}
