//! `lotcheck`: bytes to bytes ("The March listing").

use crate::flow::*;
use crate::rows::*;
use std::cmp::Ordering;

/// "At most 64 KiB; longer is 2, row 0."
pub const MAX_INPUT: usize = 65_536;

/// Parts a text at its first row `.`; without one the second part is empty.
pub fn part(text: &[u8]) -> (&[u8], &[u8]) {
    let mut start = 0;
    while let Some(len) = text[start..].iter().position(|&b| b == b'\n') {
        let end = start + len;
        if &text[start..end] == b"." {
            return (&text[..start], &text[end + 1..]);
        }
        start = end + 1;
    }
    (text, &[])
}

/// The whole listing for one input.
pub fn list(input: &[u8]) -> Vec<u8> {
    let mut out = Vec::new();
    if input.len() > MAX_INPUT {
        write_refusal(&mut out, Refusal::whole(OVER_LIMIT));
        return out;
    }
    let (net_text, estimate_text) = part(input);
    let (mut net, mut estimate) = (Net::empty(), Estimate::empty());
    if let Err(refusal) = read_both(net_text, estimate_text, &mut net, &mut estimate) {
        write_refusal(&mut out, refusal);
        return out;
    }
    let places = net_places(&net, &estimate);
    match first_broken(&net, &estimate, &places) {
        Some(broken) => write_broken(&mut out, broken),
        None => write_accepted(&mut out, &net, &estimate, &places),
    }
    out
}

pub fn write_text(out: &mut Vec<u8>, text: &str) {
    out.extend_from_slice(text.as_bytes());
}

pub fn write_refusal(out: &mut Vec<u8>, refusal: Refusal) {
    write_text(out, &format!("refused,{},{}\n", refusal.number, refusal.row));
}

fn write_broken(out: &mut Vec<u8>, broken: Broken) {
    match broken {
        Broken::Tuple(row) => write_text(out, &format!("broken,T,{row}\n")),
        Broken::Line(line) => write_text(out, &format!("broken,Q,{line}\n")),
    }
}

pub fn letters(rights: u8) -> String {
    let held = |bit: &usize| rights & (1 << bit) != 0;
    (0..LETTERS.len()).filter(held).map(|bit| char::from(LETTERS[bit])).collect()
}

fn write_accepted(out: &mut Vec<u8>, net: &Net, estimate: &Estimate, places: &Places) {
    let report = report(net, estimate, places);
    write_text(out, &format!("accepted,{}\n", count_rights(&report)));
    for (at, &rights) in report.iter().enumerate().filter(|(_, &rights)| rights != 0) {
        let (subject, object) = (at / SITES, at % SITES);
        write_text(out, &format!("V,s{subject},s{object},{}\n", letters(rights)));
    }
    for site in members(below(net.sites)) {
        let (held, used) = usage(net, estimate, site);
        let share = share(held, used);
        write_text(out, &format!("U,s{},{held},{used},{share}\n", site.0));
    }
}

/// The rights "in a root's use map there or in its E rows".
pub fn usable(net: &Net, estimate: &Estimate, site: Site) -> Policy {
    let mut uses = estimate.rights[site.index()];
    for root in net.roots.iter().filter(|root| root.site == site) {
        join(&mut uses, &use_map(net, estimate, root.line, site.bit()));
    }
    uses
}

/// "Rights in its home policy, those also in a root's use map there or in
/// its E rows."
pub fn usage(net: &Net, estimate: &Estimate, site: Site) -> (u32, u32) {
    let home = &net.home[site.index()];
    let mut used = usable(net, estimate, site);
    meet(&mut used, home);
    (count_rights(home), count_rights(&used))
}

/// Used of held in thousandths, "to the nearest thousandth, a half going to
/// the even one" (document 02, No. 7), "0 of 0 being 0".
pub fn share(held: u32, used: u32) -> u32 {
    if held == 0 {
        return 0;
    }
    let (down, rest) = (used * 1000 / held, used * 1000 % held);
    match (2 * rest).cmp(&held) {
        Ordering::Less => down,
        Ordering::Equal => down + down % 2,
        Ordering::Greater => down + 1,
    }
}
