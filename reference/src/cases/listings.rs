//! Inputs for `lotcheck`.

use super::big;
use super::damage::{drop_row, harm_net, harm_rows};
use super::nets::{accepted, OwnRows, Style, LISTING};
use super::process::TEMPLATES;
use super::rng::Rng;
use super::sandboxes;
use super::shares::{make_halves, FEWEST_SITES};
use super::text::{bytes, estimate_rows, net_rows, Rows};
use super::wildcards::{add_taken_row, bind_spare, harm_wildcard, unbind};
use crate::rows::{Estimate, Net};

/// How many of a hundred seeds have wildcards, if they are not about the rows
/// of sandboxes.
const WILDCARD_SEEDS: usize = 12;

/// How many of a hundred seeds are about the rows of sandboxes.
const SANDBOX_SEEDS: usize = 12;

/// One input. Whether it has wildcards is drawn behind all else, and whether it
/// is about the rows of sandboxes behind that, so that every other seed keeps
/// its text.
pub fn case(rng: &mut Rng) -> Vec<u8> {
    let mut text = plain(rng);
    if rng.chance(WILDCARD_SEEDS) {
        text = with_wildcards(rng);
    }
    if rng.chance(SANDBOX_SEEDS) {
        text = sandboxes::listing(rng);
    }
    text
}

fn plain(rng: &mut Rng) -> Vec<u8> {
    match rng.weighted(&[38, 10, 26, 12, 9, 2, 3]) {
        0 => well_formed(rng, &LISTING, 0),
        1 => well_formed(rng, &LISTING, 1),
        2 => damaged_rows(rng, &LISTING),
        3 => damaged_net(rng, &LISTING),
        4 => big::counts(rng, &LISTING),
        5 => big::sizes(rng),
        _ => big::wide(rng, 0, OwnRows::Fitted),
    }
}

fn with_wildcards(rng: &mut Rng) -> Vec<u8> {
    let style = Style { weights: TEMPLATES, ..LISTING }.with_wildcards(rng);
    match rng.weighted(&[24, 28, 30, 12, 3, 3]) {
        0 => well_formed(rng, &style, 0),
        1 => well_formed(rng, &style, 1),
        2 => damaged_rows(rng, &style),
        3 => damaged_net(rng, &style),
        4 => big::counts(rng, &style),
        _ => big::wide(rng, style.wildcards, OwnRows::Fitted),
    }
}

pub fn assemble(net: &Rows, estimate: &Rows) -> Vec<u8> {
    [bytes(net), b".\n".to_vec(), bytes(estimate)].concat()
}

/// Puts the rows of each group but N and Q in another order.
fn shuffle_groups(rng: &mut Rng, rows: &mut Rows) {
    let mut start = 0;
    while start < rows.len() {
        let letter = rows[start].first().copied();
        let end = start + rows[start..].iter().take_while(|r| r.first().copied() == letter).count();
        if letter != Some(b'Q') {
            rng.shuffle(&mut rows[start..end]);
        }
        start = end;
    }
}

/// A net with its estimate, from which `drops` or more rows are taken. With
/// all rows, shares are sometimes made halves: drawn last, so that every
/// other seed keeps its text.
fn well_formed(rng: &mut Rng, style: &Style, drops: usize) -> Vec<u8> {
    let (mut net, mut estimate) = accepted(rng, style);
    if drops > 0 {
        for _ in 0..rng.between(drops, drops + 1) {
            break_rule(rng, style, &mut net, &mut estimate);
        }
    }
    let text = written(rng, &net, &estimate);
    if drops == 0 && net.sites >= FEWEST_SITES && rng.chance(12) {
        make_halves(rng, &mut net, &mut estimate);
        return written(rng, &net, &estimate);
    }
    text
}

/// Most often breaks a rule: the estimate loses a row. In nets with wildcards
/// it may also get an A row that one takes, or a wildcard become a binder.
fn break_rule(rng: &mut Rng, style: &Style, net: &mut Net, estimate: &mut Estimate) {
    let ways = if style.wildcards > 0 { rng.weighted(&[20, 60, 20]) } else { 0 };
    match ways {
        0 => drop_row(rng, estimate),
        1 => add_taken_row(rng, net, estimate),
        _ => bind_spare(rng, &mut net.lines),
    }
}

/// The text of a net and an estimate; some groups in another order.
fn written(rng: &mut Rng, net: &Net, estimate: &Estimate) -> Vec<u8> {
    arranged(rng, net_rows(net), estimate_rows(estimate))
}

pub fn arranged(rng: &mut Rng, mut net: Rows, mut estimate: Rows) -> Vec<u8> {
    if rng.chance(40) {
        shuffle_groups(rng, &mut net);
        shuffle_groups(rng, &mut estimate);
    }
    if estimate.is_empty() && rng.chance(50) {
        return bytes(&net);
    }
    assemble(&net, &estimate)
}

fn damaged_rows(rng: &mut Rng, style: &Style) -> Vec<u8> {
    let (net, estimate) = accepted(rng, style);
    let n = net.sites;
    let (mut net, mut estimate) = (net_rows(&net), estimate_rows(&estimate));
    for _ in 0..rng.weighted(&[10, 70, 20]) {
        let rows = if rng.chance(62) { &mut net } else { &mut estimate };
        if style.wildcards > 0 && rng.chance(75) {
            harm_wildcard(rng, rows, n);
        } else {
            harm_rows(rng, rows, n);
        }
    }
    let mut text = assemble(&net, &estimate);
    if rng.chance(12) {
        harm_end(rng, &mut text);
    }
    text
}

/// Damage to the end of the text or to the row `.`.
fn harm_end(rng: &mut Rng, text: &mut Vec<u8>) {
    match rng.below(7) {
        0 => {
            text.pop();
        }
        1 => text.extend_from_slice(b"."),
        2 => text.extend_from_slice(b".\n"),
        3 => text.extend_from_slice(b"E,s0,s0,o"),
        4 => {
            let end = rng.below(text.len() + 1);
            text.truncate(end);
        }
        5 => text.retain(|&b| b != b'.'),
        _ => text.insert(0, *rng.pick(b".\n\r N")),
    }
}

fn damaged_net(rng: &mut Rng, style: &Style) -> Vec<u8> {
    let (mut net, estimate) = accepted(rng, style);
    for _ in 0..rng.weighted(&[0, 80, 20]) {
        if style.wildcards > 0 && rng.chance(40) {
            unbind(rng, &mut net.lines);
        } else {
            harm_net(rng, &mut net);
        }
    }
    let n = net.sites;
    let (mut net, mut estimate) = (net_rows(&net), estimate_rows(&estimate));
    if rng.chance(15) {
        harm_rows(rng, &mut estimate, n);
    }
    if rng.chance(6) {
        harm_rows(rng, &mut net, n);
    }
    assemble(&net, &estimate)
}
