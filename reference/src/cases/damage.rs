//! Damage to well-formed texts, so that each refusal number is met at many
//! places.

use super::process::children_mut;
use super::rng::Rng;
use super::text::Rows;
use crate::rows::*;

const ALPHABET: &[u8] = b",,,0123456789susu!.oirea-\r \x00\xffNRDTLQBAEnilparepself";

/// Numbers at and around limits, and some that are no numbers.
const NUMBERS: &[&str] = &[
    "0",
    "1",
    "2",
    "5",
    "6",
    "30",
    "31",
    "32",
    "33",
    "63",
    "64",
    "254",
    "255",
    "256",
    "257",
    "999",
    "1000",
    "00",
    "01",
    "007",
    "0255",
    "",
    "-1",
    "+1",
    "0x1",
    "1e1",
    " 1",
    "4294967296",
];

const RIGHTS: &[&str] =
    &["", "io", "oo", "oireao", "ae", "x", "O", "o,i", "oirea", "a", "ra", "oiera", "oirea "];

/// Rows of every group, good ones and bad ones.
const STRANGERS: &[&str] = &[
    "N,1",
    "N,32",
    "N,33",
    "N,0",
    "R,s0,s0,o",
    "R,s0,s0,oo",
    "D,0,s0,o",
    "D,0,self,oirea",
    "D,32,s0,o",
    "T,s0,s0",
    "T,s0,s32",
    "T,s0",
    "L,s0,0",
    "L,s0,256",
    "Q,0,nil",
    "Q,0,rep,1",
    "Q,0,nil,1",
    "Q,256,nil",
    "B,u0,s0",
    "B,u32,s0",
    "B,u0,self",
    "A,s0,s0",
    "A,s0,s0,s0,s0,s0",
    "A,s0,s0,s0,s0,s0,s0",
    "E,s0,s0,o",
    "E,s32,s0,o",
    "E,s0,s0,",
    "X,1",
    "",
    ".",
    "..",
    "#",
    "n,1",
    "Q,0,in,1,s0,!u0,!u0",
    "Q,0,read,1,s0,!u0,u0",
    "Q,0,in,1,u0,!u0",
    "Q,0,out,1,s0,!u0",
];

/// One damage to a list of rows that is not empty; `n` is the number of
/// sites that the net speaks of.
pub fn harm_rows(rng: &mut Rng, rows: &mut Rows, n: u8) {
    if rows.is_empty() {
        rows.push(rng.pick(STRANGERS).as_bytes().to_vec());
        return;
    }
    let at = rng.below(rows.len());
    match rng.weighted(&[9, 6, 10, 9, 6, 12, 26, 8, 9, 5, 4, 4, 6]) {
        0 => harm_byte(rng, &mut rows[at]),
        1 => {
            let other = rng.below(rows.len());
            rows.swap(at, other);
        }
        2 => repeat_row(rng, rows, at),
        3 => repeat_pair(rng, rows, at),
        4 => {
            rows.remove(at);
        }
        5 => harm_number(rng, &mut rows[at]),
        6 => harm_site(rng, &mut rows[at], n),
        7 => harm_rights(rng, rows),
        8 => {
            let row = rng.pick(STRANGERS).as_bytes().to_vec();
            rows.insert(rng.below(rows.len() + 1), row);
        }
        9 => harm_length(rng, &mut rows[at]),
        10 => harm_ends(rng, rows, at),
        11 => move_row(rng, rows, at),
        _ => harm_first(rng, &mut rows[0], n),
    }
}

fn harm_byte(rng: &mut Rng, row: &mut Vec<u8>) {
    let at = rng.below(row.len() + 1);
    let byte = *rng.pick(ALPHABET);
    match rng.below(4) {
        0 => row.insert(at, byte),
        _ if at == row.len() => row.push(byte),
        1 => {
            row.remove(at);
        }
        2 => row[at] ^= 1 << rng.below(8),
        _ => row[at] = byte,
    }
}

/// Copies a row to its own neighbourhood, or anywhere.
fn repeat_row(rng: &mut Rng, rows: &mut Rows, at: usize) {
    let row = rows[at].clone();
    let group_end = at + rows[at..].iter().take_while(|r| r.first() == row.first()).count();
    let to = if rng.chance(80) { rng.between(at, group_end) } else { rng.below(rows.len() + 1) };
    rows.insert(to, row);
}

/// Repeats the first two fields of an R, D or E row with other rights.
fn repeat_pair(rng: &mut Rng, rows: &mut Rows, at: usize) {
    let speaks = |row: &Vec<u8>| matches!(row.first(), Some(b'R' | b'D' | b'E'));
    let found: Vec<usize> = (0..rows.len()).filter(|&i| speaks(&rows[i])).collect();
    if found.is_empty() {
        return repeat_row(rng, rows, at);
    }
    let at = *rng.pick(&found);
    let mut row = rows[at].clone();
    let end = row.iter().rposition(|&b| b == b',').unwrap_or(0);
    row.truncate(end + 1);
    row.push(*rng.pick(&LETTERS));
    let group_end = at + rows[at..].iter().take_while(|r| r.first() == row.first()).count();
    rows.insert(rng.between(at, group_end), row);
}

/// Puts another number in the place of one.
fn harm_number(rng: &mut Rng, row: &mut Vec<u8>) {
    let digit = |at: usize| row.get(at).is_some_and(u8::is_ascii_digit);
    let starts: Vec<usize> =
        (0..row.len()).filter(|&at| digit(at) && (at == 0 || !digit(at - 1))).collect();
    if starts.is_empty() {
        return row.push(b',');
    }
    let start = *rng.pick(&starts);
    let end = (start..).find(|&at| !digit(at)).unwrap_or(row.len());
    row.splice(start..end, rng.pick(NUMBERS).bytes());
}

/// Puts a site at the edge in the place of a site.
fn harm_site(rng: &mut Rng, row: &mut Vec<u8>, n: u8) {
    let is_site =
        |at: &usize| row[*at] == b's' && row.get(at + 1).is_some_and(|b| b.is_ascii_digit());
    let starts: Vec<usize> = (0..row.len()).filter(is_site).collect();
    if starts.is_empty() {
        return harm_number(rng, row);
    }
    let start = *rng.pick(&starts);
    let end = row[start..].iter().position(|&b| b == b',').map_or(row.len(), |at| start + at);
    let edge = [n, n, n + 1, n.saturating_sub(1)].map(|site| format!("s{site}"));
    let others = ["s31", "s32", "s999", "s1000", "s00", "self", "u0", "!u0", "s", "u31", "u32"];
    if rng.chance(70) {
        row.splice(start..end, rng.pick(&edge).bytes());
    } else {
        row.splice(start..end, rng.pick(&others).bytes());
    }
}

fn harm_rights(rng: &mut Rng, rows: &mut Rows) {
    let speaks = |row: &Vec<u8>| matches!(row.first(), Some(b'R' | b'D' | b'E'));
    let found: Vec<usize> = (0..rows.len()).filter(|&at| speaks(&rows[at])).collect();
    if found.is_empty() {
        let at = rng.below(rows.len());
        return harm_byte(rng, &mut rows[at]);
    }
    let row = &mut rows[*rng.pick(&found)];
    let end = row.iter().rposition(|&b| b == b',').unwrap_or(0);
    row.truncate(end + 1);
    row.extend(rng.pick(RIGHTS).bytes());
}

/// Lengthens or shortens a row by whole fields.
fn harm_length(rng: &mut Rng, row: &mut Vec<u8>) {
    if rng.chance(50) {
        for _ in 0..rng.between(1, 5) {
            row.extend(rng.pick(&[",s0", ",self", ",u0", ",!u1", ",0", ","]).bytes());
        }
    } else {
        for _ in 0..rng.between(1, 3) {
            let end = row.iter().rposition(|&b| b == b',').unwrap_or(0);
            row.truncate(end);
        }
    }
}

fn harm_ends(rng: &mut Rng, rows: &mut Rows, at: usize) {
    match rng.below(5) {
        0 => rows.iter_mut().for_each(|row| row.push(b'\r')),
        1 => rows.insert(at, Vec::new()),
        2 => rows[at].push(b' '),
        3 => rows.insert(at, b".".to_vec()),
        _ => rows[at].push(b'\r'),
    }
}

fn move_row(rng: &mut Rng, rows: &mut Rows, at: usize) {
    let row = rows.remove(at);
    rows.insert(rng.below(rows.len() + 1), row);
}

fn harm_first(rng: &mut Rng, row: &mut Vec<u8>, n: u8) {
    let fewer = n.saturating_sub(1);
    let other = [
        "N,0".to_string(),
        "N,33".to_string(),
        "N,32".to_string(),
        "N,1".to_string(),
        format!("N,{fewer}"),
        format!("N,{fewer}"),
        format!("N,0{n}"),
        format!("N,{n},"),
    ];
    *row = rng.pick(&other).clone().into_bytes();
}

/// One damage to the lines and roots of a net: refusals 5 to 8.
pub fn harm_net(rng: &mut Rng, net: &mut Net) {
    match rng.weighted(&[30, 20, 18, 8, 8, 8, 8]) {
        0 | 1 => harm_lines(rng, &mut net.lines),
        2 => swap_child(rng, &mut net.lines),
        3 if !net.roots.is_empty() => {
            let at = rng.below(net.roots.len());
            net.roots.remove(at);
        }
        4 if !net.roots.is_full() => {
            let line = rng.below((net.lines.len() + 2).min(MAX_LINES)) as u8;
            let site = Site(rng.below(usize::from(net.sites)) as u8);
            net.roots.push(Root { site, line });
        }
        5 if !net.roots.is_empty() => {
            let at = rng.below(net.roots.len());
            net.roots[at].line = rng.below((net.lines.len() + 1).min(MAX_LINES)) as u8;
        }
        6 if !net.lines.is_empty() => net.lines.remove(net.lines.len() - 1),
        _ => harm_lines(rng, &mut net.lines),
    }
}

/// A child number of some line becomes another number.
pub fn swap_child(rng: &mut Rng, lines: &mut [Line]) {
    let count = lines.len();
    let parents: Vec<usize> = (0..count).filter(|&q| lines[q] != Line::Nil).collect();
    if parents.is_empty() {
        return;
    }
    let q = *rng.pick(&parents);
    let mut children = children_mut(&mut lines[q]);
    let at = rng.below(children.len());
    *children[at] = match rng.below(4) {
        0 => rng.below((count + 2).min(MAX_LINES)) as u8,
        1 => q as u8,
        2 => count.min(MAX_LINES - 1) as u8,
        _ => rng.between(q, count - 1) as u8,
    };
}

/// A field becomes a variable or a binder: refusals 7 and 8, or none.
pub fn harm_lines(rng: &mut Rng, lines: &mut [Line]) {
    let has_terms = |line: &Line| {
        matches!(line, Line::Out { .. } | Line::In { .. } | Line::Read { .. } | Line::Eval { .. })
    };
    let found: Vec<usize> = (0..lines.len()).filter(|&q| has_terms(&lines[q])).collect();
    if found.is_empty() {
        return swap_child(rng, lines);
    }
    let u = Var(rng.below(4) as u8);
    match &mut lines[*rng.pick(&found)] {
        Line::Eval { target, .. } => *target = Term::Var(u),
        Line::Out { target, fields, .. } => {
            if rng.chance(40) {
                *target = Term::Var(u);
            } else {
                fields.items[rng.below(usize::from(fields.len))] = Term::Var(u);
            }
        }
        Line::In { fields, .. } | Line::Read { fields, .. } => {
            let at = rng.below(usize::from(fields.len));
            fields.items[at] = if rng.chance(50) { Term::Var(u) } else { Term::Bind(u) };
            if rng.chance(70) {
                let other = rng.below(MAX_FIELDS);
                fields.len = fields.len.max(other as u8 + 1);
                fields.items[other] = Term::Bind(u);
            }
        }
        _ => {}
    }
}

/// Takes one row of the estimate away, or some of an E row's rights.
pub fn drop_row(rng: &mut Rng, estimate: &mut Estimate) {
    let binds: Vec<usize> = (0..VARS).filter(|&u| estimate.binds[u] != 0).collect();
    let rights: Vec<(usize, usize)> = (0..SITES * SITES)
        .map(|at| (at / SITES, at % SITES))
        .filter(|&(s, t)| estimate.rights[s][t] != 0)
        .collect();
    match rng.weighted(&[30, 40, 30]) {
        0 if !binds.is_empty() => {
            let mask = &mut estimate.binds[*rng.pick(&binds)];
            *mask &= !(1 << rng.member(*mask));
        }
        1 if !rights.is_empty() => {
            // A site's rights towards itself show how sandboxes are evaluated.
            let own: Vec<(usize, usize)> = rights.iter().copied().filter(|(s, t)| s == t).collect();
            let from = if own.is_empty() || rng.chance(50) { &rights } else { &own };
            let (s, t) = *rng.pick(from);
            let held = &mut estimate.rights[s][t];
            *held &= !(1 << rng.member(u32::from(*held)));
        }
        _ if !estimate.tuples.is_empty() => {
            let at = rng.below(estimate.tuples.len());
            estimate.tuples.remove(at);
        }
        _ => {}
    }
}
