//! Texts at the boundary counts and around 65,536 bytes.

use super::damage::harm_rows;
use super::listings::assemble;
use super::nets::{accepted, close, own_row, some_rights, OwnRows, Style, LISTING};
use super::process::{Maker, PLAIN};
use super::rng::Rng;
use super::text::{bytes, estimate_rows, line_row, net_rows, tuple_row, Rows};
use crate::listing::MAX_INPUT;
use crate::rows::*;

/// A text one of whose groups has one row too few, just enough, or one row
/// too many.
pub fn counts(rng: &mut Rng, style: &Style) -> Vec<u8> {
    let (mut net, mut estimate) = accepted(rng, style);
    let n = net.sites;
    let off = rng.weighted(&[25, 40, 35]);
    let less = usize::from(off == 0);
    let group = rng.weighted(&[20, 20, 20, 40]);
    match group {
        0 => {
            more_tuples(rng, &mut net.tuples, n, MAX_TUPLES - less);
            estimate.tuples = net.tuples.clone();
        }
        1 => more_tuples(rng, &mut estimate.tuples, n, MAX_TUPLES - less),
        2 => more_roots(&mut net, MAX_ROOTS - less),
        _ => chain(&mut net, MAX_LINES - less),
    }
    let (mut net_text, mut estimate_text) = (net_rows(&net), estimate_rows(&estimate));
    if off == 2 {
        match group {
            0 => insert_last(rng, &mut net_text, "T,s0,s0,s0,s0"),
            1 => insert_last(rng, &mut estimate_text, "A,s0,s0,s0,s0"),
            2 => insert_last(rng, &mut net_text, "L,s0,255"),
            _ => insert_last(rng, &mut net_text, "Q,255,nil"),
        }
    }
    if rng.chance(15) {
        let text = if rng.chance(50) { &mut net_text } else { &mut estimate_text };
        harm_rows(rng, text, n);
    }
    assemble(&net_text, &estimate_text)
}

/// Puts a row behind the last row of its group; sometimes a copy of that
/// row, sometimes a row at the end of the text, out of order.
fn insert_last(rng: &mut Rng, rows: &mut Rows, row: &str) {
    let row = row.as_bytes().to_vec();
    let last = rows.iter().rposition(|other| other.first() == row.first());
    match (rng.below(4), last) {
        (0, Some(last)) => rows.insert(last + 1, rows[last].clone()),
        (2 | 3, Some(last)) => rows.insert(last + 1, row),
        _ => rows.push(row),
    }
}

/// Different tuples up to `count`, as far as there are as many.
fn more_tuples(rng: &mut Rng, tuples: &mut List<Tuple, MAX_TUPLES>, n: u8, count: usize) {
    let n = usize::from(n);
    let start = rng.below(n);
    for at in 0..n.pow(4).min(2 * MAX_TUPLES) {
        let site = |power: u32| Site(((at / n.pow(power) + start) % n) as u8);
        let fields = [site(0), site(1), site(2), site(3)];
        let tuple = Tuple { site: site(1), len: 4, fields };
        if tuples.len() < count && !tuples.contains(&tuple) {
            tuples.push(tuple);
        }
    }
}

/// Roots on new lines `nil` up to `count`.
fn more_roots(net: &mut Net, count: usize) {
    while net.roots.len() < count && !net.lines.is_full() {
        let site = Site(net.roots.len() as u8 % net.sites);
        net.roots.push(Root { site, line: net.lines.len() as u8 });
        net.lines.push(Line::Nil);
    }
}

/// One more root with a chain of `rep` lines that brings the lines to `count`.
fn chain(net: &mut Net, count: usize) {
    if net.lines.len() >= count || net.roots.is_full() {
        return;
    }
    net.roots.push(Root { site: Site(0), line: net.lines.len() as u8 });
    while net.lines.len() < count - 1 {
        let next = net.lines.len() as u8 + 1;
        net.lines.push(Line::Rep { next });
    }
    net.lines.push(Line::Nil);
}

/// A text of 65,535, 65,536 or 65,537 bytes.
pub fn sizes(rng: &mut Rng) -> Vec<u8> {
    let size = MAX_INPUT - 1 + rng.weighted(&[25, 50, 25]);
    if rng.chance(30) {
        return padded(rng, size);
    }
    let (net, mut rest) = full_rows(rng);
    let mut text = [bytes(&net), b".\n".to_vec()].concat();
    let harm = rng.chance(20);
    if harm {
        harm_rows(rng, &mut rest, SITES as u8);
    }
    for row in &rest {
        if text.len() + row.len() < size {
            text.extend_from_slice(row);
            text.push(b'\n');
        }
    }
    fill_rights(&mut text, size);
    text
}

/// A net with every row of R and D, 256 tuples and 256 lines, and every row
/// of B, A and E, the longest rights in the E rows left to be filled in.
fn full_rows(rng: &mut Rng) -> (Rows, Rows) {
    let mut net = Net::empty();
    net.sites = SITES as u8;
    net.home = [[ALL_RIGHTS; SITES]; SITES];
    for _ in 0..*rng.pick(&[0, 5, 500]) {
        net.home[rng.below(SITES)][rng.below(SITES)] = some_rights(rng);
    }
    net.sandboxes = [Sandbox { towards: [ALL_RIGHTS; SITES], own: Some(ALL_RIGHTS) }; SANDBOXES];
    for at in 0..MAX_TUPLES {
        let site = |low: usize| Site(((at >> low) % SITES) as u8);
        net.tuples.push(Tuple {
            site: site(0),
            len: 4,
            fields: [site(3), site(1), site(2), site(0)],
        });
    }
    let mut estimate = Estimate::empty();
    estimate.binds = [below(SITES as u8); VARS];
    estimate.tuples = net.tuples.clone();
    estimate.rights = [[1; SITES]; SITES];
    net.roots.push(Root { site: Site(31), line: 0 });
    let fields = Terms { len: 4, items: [Term::Bind(Var(29)), Term::Own, Term::Own, Term::Own] };
    for next in 1..=255 {
        net.lines.push(Line::Read { next, target: Term::Own, fields });
    }
    net.lines.push(Line::Nil);
    (net_rows(&net), estimate_rows(&estimate))
}

/// A net of many lines whose variables may be any site: much to be judged,
/// whether the rules hold or not.
pub fn wide(rng: &mut Rng, wildcards: usize, own_rows: OwnRows) -> Vec<u8> {
    let mut net = Net::empty();
    net.sites = SITES as u8;
    more_tuples(rng, &mut net.tuples, net.sites, MAX_TUPLES);
    let shapes = net.tuples.to_vec();
    // Lines nil, par, rep, out, in, read, eval, accept.
    let quiet = [4, 20, 10, 0, 20, 20, 30, 10];
    let weights = if rng.chance(70) { quiet } else { PLAIN };
    let (n, max_lines, lines) = (net.sites, MAX_LINES, vec![]);
    let (shapes, vars, sandboxes) = (&shapes, 3, SANDBOXES);
    let mut maker = Maker { rng, n, shapes, vars, sandboxes, weights, wildcards, lines, max_lines };
    while maker.lines.len() < max_lines - 2 && !net.roots.is_full() {
        let site = Site(maker.lines.len() as u8 % n);
        net.roots.push(Root { site, line: maker.grow(0, 0) });
    }
    maker.lines.into_iter().for_each(|line| net.lines.push(line));
    for sandbox in &mut net.sandboxes {
        sandbox.towards = [some_rights(rng); SITES];
        sandbox.own = match own_rows {
            OwnRows::Fitted => Some(some_rights(rng)),
            OwnRows::Drawn => own_row(rng),
        };
    }
    let mut estimate = Estimate::empty();
    estimate.binds = [below(n); VARS];
    estimate.tuples = net.tuples.clone();
    let estimate = close(&net, estimate.clone()).unwrap_or(estimate);
    assemble(&net_rows(&net), &estimate_rows(&estimate))
}

/// Lengthens E rows at the end of the text up to the wanted size.
fn fill_rights(text: &mut Vec<u8>, size: usize) {
    let mut at = text.len();
    while text.len() < size {
        let Some(end) = text[..at].windows(3).rposition(|bytes| bytes == b",o\n") else {
            return;
        };
        let more = (size - text.len()).min(4);
        text.splice(end + 2..end + 2, LETTERS[1..=more].iter().copied());
        at = end;
    }
}

/// A small text made longer with rows that are refused, or repeated.
fn padded(rng: &mut Rng, size: usize) -> Vec<u8> {
    let (net, estimate) = accepted(rng, &LISTING);
    let mut text = assemble(&net_rows(&net), &estimate_rows(&estimate));
    let row = match rng.below(4) {
        0 => line_row(0, &Line::Nil),
        1 => tuple_row('A', &Tuple { len: 4, ..Tuple::BLANK }),
        2 => String::new(),
        _ => "x".repeat(size),
    };
    while text.len() < size {
        text.extend_from_slice(row.as_bytes());
        text.push(b'\n');
    }
    text.truncate(size);
    if rng.chance(50) {
        text[size - 1] = b'\n';
    }
    text
}
