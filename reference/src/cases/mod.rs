//! Seeded cases: inputs for `lotcheck` and `lotrun`.

mod answered;
mod arrivals;
mod big;
mod carriers;
#[cfg(test)]
mod checks;
#[cfg(test)]
mod checks_sandboxes;
#[cfg(test)]
mod checks_wildcards;
#[cfg(test)]
mod checks_withdrawals;
pub mod cover;
mod cover_sandboxes;
mod cover_wildcards;
mod cover_withdrawals;
mod damage;
pub mod frames;
pub mod heavy;
mod inspectors;
mod ledgers;
mod letters;
pub mod limits;
mod listings;
mod nets;
#[cfg(test)]
mod plain;
mod process;
mod required;
mod rng;
mod sandboxes;
mod scripts;
mod seasons;
mod shares;
pub mod stored;
mod text;
mod wildcards;

use crate::{listing, script};
use rng::Rng;

/// What a case is an input of.
#[derive(Clone, Copy, PartialEq, Eq, Debug)]
pub enum Kind {
    Listing,
    Script,
}

impl Kind {
    pub const ALL: [Kind; 2] = [Kind::Listing, Kind::Script];

    pub fn name(self) -> &'static str {
        match self {
            Kind::Listing => "listing",
            Kind::Script => "script",
        }
    }

    pub fn named(name: &str) -> Option<Kind> {
        Kind::ALL.into_iter().find(|kind| kind.name() == name)
    }

    /// The case of a seed; the same seed always gives the same bytes.
    pub fn case(self, seed: u64) -> Vec<u8> {
        let mut rng = Rng::new(seed);
        match self {
            Kind::Listing => listings::case(&mut rng),
            Kind::Script => scripts::case(&mut rng),
        }
    }

    /// What the program prints for a case.
    pub fn output(self, case: &[u8]) -> Vec<u8> {
        match self {
            Kind::Listing => listing::list(case),
            Kind::Script => script::run(case),
        }
    }
}
