//! The cases of the stored runs: those of documents 01 and 02, those that print
//! every set of rights but the empty one, those about a ledger's columns, about
//! a carrier's agents and about an inspector, such seeds that every thing which
//! can be seen in a case is seen several times, and arrivals of the greatest
//! length.

use super::carriers;
use super::cover::{seen, Cover};
use super::heavy::{ESTIMATE, NET};
use super::inspectors;
use super::ledgers;
use super::letters::every_set;
use super::limits;
use super::Kind;
use std::collections::BTreeMap;

struct Plan {
    /// Seeds looked at, from 1 on.
    seeds: u64,
    /// Fewest cases in all.
    count: usize,
    /// Most bytes of a small case.
    small: usize,
}

const LISTINGS: Plan = Plan { seeds: 20_000, count: 460, small: 2500 };
const SCRIPTS: Plan = Plan { seeds: 6000, count: 140, small: 5000 };

/// A small case is taken while something in it was seen in fewer cases, a
/// large one while something in it was seen in fewer than the lower number.
const WANTED: usize = 8;
const WANTED_LARGE: usize = 2;

/// Rows without which net M breaks a rule.
const NEEDED: [&str; 4] = ["A,s0,s5\n", "B,u1,s5\n", "A,s2,s3,s4\n", "E,s1,s2,r\n"];

/// Small inputs, those of the table of numbers among them.
const SMALL: [&str; 16] = [
    "",
    "\n",
    ".\n",
    "N,1",
    "N,32\n",
    "N,33\n",
    "N,0\n",
    "N,2\nR,s0,s1\n",
    "N,1\nL,s0,0\nT,s0,s0\nQ,0,nil\n",
    "N,2\nT,s2,s0\n",
    "N,1\nL,s0,0\nQ,0,rep,0\n",
    "N,2\nL,s0,0\nL,s1,0\nQ,0,nil\n",
    "N,1\nL,s0,0\nQ,0,in,1,s0,!u2,u2\nQ,1,nil\n",
    "N,1\nL,s0,0\nQ,0,out,1,u3,s0\nQ,1,nil\n",
    "N,1\n.\n.\n",
    "N,1\n.\nB,u0,s0",
];

/// The shares that document 02, No. 7, names: 1 of 16, 3 of 16, 3 of 4.
const SHARES: [&str; 3] = [
    "N,4\nR,s0,s0,oirea\nR,s0,s1,oirea\nR,s0,s2,oirea\nR,s0,s3,o\n.\nE,s0,s3,o\n",
    "N,4\nR,s0,s0,oirea\nR,s0,s1,oirea\nR,s0,s2,oirea\nR,s0,s3,o\n.\nE,s0,s1,oia\n",
    "N,1\nR,s0,s0,oire\n.\nE,s0,s0,oir\n",
];

/// Document 01's own cases.
fn march_listings() -> Vec<String> {
    let whole = format!("{NET}.\n{ESTIMATE}");
    let mut texts = vec![whole.clone(), whole.replace("R,s1,s2,oir", "R,s1,s1,a\nR,s1,s2,oir")];
    texts.extend(NEEDED.map(|row| whole.replace(row, "")));
    texts.extend(SMALL.map(String::from));
    texts
}

fn fixed_listings() -> Vec<Vec<u8>> {
    let mut texts = march_listings();
    texts.extend(SHARES.map(String::from));
    let mut cases = as_bytes(texts);
    cases.extend(every_set());
    cases.extend(as_bytes(ledgers::listings()));
    cases.extend(as_bytes(inspectors::listings()));
    cases
}

fn as_bytes(texts: Vec<String>) -> Vec<Vec<u8>> {
    texts.into_iter().map(String::into_bytes).collect()
}

/// The cases that a kind begins with.
pub fn fixed(kind: Kind) -> Vec<Vec<u8>> {
    match kind {
        Kind::Listing => fixed_listings(),
        Kind::Script => {
            as_bytes([ledgers::scripts(), carriers::scripts(), inspectors::scripts()].concat())
        }
    }
}

/// The cases that a kind ends with. Seeds are chosen without regard to them.
fn last(kind: Kind) -> Vec<Vec<u8>> {
    match kind {
        Kind::Listing => vec![],
        Kind::Script => as_bytes(vec![limits::arrival_lengths().text]),
    }
}

/// The stored cases of a kind, and what they cover.
pub fn choose(kind: Kind) -> (Vec<Vec<u8>>, Cover) {
    let plan = match kind {
        Kind::Listing => &LISTINGS,
        Kind::Script => &SCRIPTS,
    };
    let mut cover = Cover::default();
    let mut cases = fixed(kind);
    cases.iter().for_each(|case| cover.add(&seen(kind, case)));
    let mut chosen = BTreeMap::new();
    for (most, wanted) in
        [(plan.small, WANTED), (usize::MAX, WANTED_LARGE), (plan.small, usize::MAX)]
    {
        for seed in 1..=plan.seeds {
            let enough = wanted == usize::MAX && cases.len() + chosen.len() >= plan.count;
            let case = kind.case(seed);
            if enough || case.len() > most || chosen.contains_key(&seed) {
                continue;
            }
            let seen = seen(kind, &case);
            if cover.wants(&seen, wanted) {
                cover.add(&seen);
                chosen.insert(seed, case);
            }
        }
    }
    cases.extend(chosen.into_values());
    for case in last(kind) {
        cover.add(&seen(kind, &case));
        cases.push(case);
    }
    (cases, cover)
}
