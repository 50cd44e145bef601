//! Every set of rights: its letters, and nets whose reports have each set
//! but the empty one.

use super::listings::assemble;
use super::nets::close;
use super::text::{estimate_rows, net_rows};
use crate::rows::*;

/// The letters of every set, by its number. Each letter doubles the list: all
/// sets so far, then the same with the letter added.
pub fn by_number() -> Vec<String> {
    let mut sets = vec![String::new()];
    for letter in LETTERS.map(char::from) {
        for at in 0..sets.len() {
            sets.push(format!("{}{letter}", sets[at]));
        }
    }
    sets
}

/// Inputs that print each set but the empty one once, in the order of their
/// numbers.
pub fn every_set() -> [Vec<u8>; 3] {
    [by_estimate(), by_home(), by_lines()]
        .map(|(net, estimate)| assemble(&net_rows(&net), &estimate_rows(&estimate)))
}

/// A net of so many sites, and no other row.
fn bare(sites: u8) -> (Net, Estimate) {
    (Net { sites, ..Net::empty() }, Estimate::empty())
}

/// E rows alone; as many sites as sets that are printed, each the subject of
/// one and the object of one.
fn by_estimate() -> (Net, Estimate) {
    let (net, mut estimate) = bare(ALL_RIGHTS);
    for set in 1..=ALL_RIGHTS {
        estimate.rights[usize::from(set - 1)][usize::from(ALL_RIGHTS - set)] = set;
    }
    (net, estimate)
}

/// E rows with all rights, of which home policies have all but the set. The
/// empty set stands first, and is not printed.
fn by_home() -> (Net, Estimate) {
    let sites = 8;
    let (mut net, mut estimate) = bare(sites);
    for set in 0..=ALL_RIGHTS {
        let (s, t) = (usize::from(set / sites), usize::from(set % sites));
        net.home[s][t] = ALL_RIGHTS - set;
        estimate.rights[s][t] = ALL_RIGHTS;
    }
    (net, estimate)
}

/// A root for each set, at a site of its own, that uses the rights there.
fn by_lines() -> (Net, Estimate) {
    let (mut net, estimate) = bare(ALL_RIGHTS);
    for set in 1..=ALL_RIGHTS {
        net.roots.push(Root { site: Site(set - 1), line: net.lines.len() as u8 });
        branches(&mut net, set);
    }
    let estimate = close(&net, estimate).expect("there are 16 outs, an A row for each");
    (net, estimate)
}

/// Lines that use the rights of a set at `self`, a branch for each right.
fn branches(net: &mut Net, set: u8) {
    let mut rest = set;
    while rest != 0 {
        let right = 1 << rest.trailing_zeros();
        rest -= right;
        let nils = if right == EVAL { 2 } else { 1 };
        if rest != 0 {
            let next = net.lines.len() as u8 + 1;
            net.lines.push(Line::Par { next, second: next + 1 + nils });
        }
        net.lines.push(using(right, net.lines.len() as u8 + 1));
        (0..nils).for_each(|_| net.lines.push(Line::Nil));
    }
}

/// A line that uses a right at `self`. Sandbox 0 is empty; the body of an
/// eval is the line behind `next`.
fn using(right: u8, next: u8) -> Line {
    let (target, fields) = (Term::Own, Terms { len: 1, ..Terms::BLANK });
    match right {
        OUT => Line::Out { next, target, fields },
        IN => Line::In { next, target, fields },
        READ => Line::Read { next, target, fields },
        EVAL => Line::Eval { next, target, body: next + 1, sandbox: 0 },
        _ => Line::Accept { next, sandbox: 0 },
    }
}

/// The letters in the V rows of an input's listing.
#[cfg(test)]
pub fn printed(input: &[u8]) -> Vec<String> {
    let listing = String::from_utf8(crate::listing::list(input)).unwrap();
    let rows = listing.lines().filter(|row| row.starts_with("V,"));
    rows.map(|row| row.rsplit(',').next().unwrap().to_string()).collect()
}

#[cfg(test)]
mod tests {
    use super::*;

    #[test]
    fn every_set_is_printed_once() {
        for case in every_set() {
            assert_eq!(printed(&case), by_number()[1..]);
        }
    }
}
