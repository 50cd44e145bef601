//! Rows of nets, estimates and arrivals: limits, sorts, and what the texts
//! hold once they are read.

mod form;
mod list;
mod reader;

pub use form::{parse_row, Group, Row};
pub use list::List;
pub use reader::{read_arrival, read_estimate, read_net, Refusal};

pub const SITES: usize = 32;
pub const VARS: usize = 32;
pub const SANDBOXES: usize = 32;
pub const MAX_FIELDS: usize = 4;
pub const MAX_TUPLES: usize = 256;
pub const MAX_ROOTS: usize = 64;
pub const MAX_LINES: usize = 256;

/// Rights are bits: o 1, i 2, r 4, e 8, a 16.
pub const OUT: u8 = 1;
pub const IN: u8 = 2;
pub const READ: u8 = 4;
pub const EVAL: u8 = 8;
pub const ACCEPT: u8 = 16;
pub const ALL_RIGHTS: u8 = OUT | IN | READ | EVAL | ACCEPT;
pub const NO_RIGHTS: u8 = 0;
/// The letters of the rights, lowest bit first.
pub const LETTERS: [u8; 5] = *b"oirea";

/// Numbers of the refusals of texts (document 01, "Numbers on the gate slip").
pub const BAD_FORM: u8 = 1;
pub const OVER_LIMIT: u8 = 2;
pub const OUT_OF_ORDER: u8 = 3;
pub const NO_SITE: u8 = 4;
pub const BAD_NUMBERING: u8 = 5;
pub const BAD_NAMING: u8 = 6;
pub const BAD_TEMPLATE: u8 = 7;
pub const FREE_VARIABLE: u8 = 8;
pub const SHORT_BUFFER: u8 = 9;

/// "A set of sites is a 32-bit number, bit n for site n."
pub type Mask = u32;

/// "A policy gives each site a set of rights, empty where no row speaks."
pub type Policy = [u8; SITES];

pub const EMPTY_POLICY: Policy = [NO_RIGHTS; SITES];

#[derive(Clone, Copy, PartialEq, Eq, Debug)]
pub struct Site(pub u8);

#[derive(Clone, Copy, PartialEq, Eq, Debug)]
pub struct Var(pub u8);

impl Site {
    pub fn bit(self) -> Mask {
        1 << self.0
    }

    pub fn index(self) -> usize {
        usize::from(self.0)
    }
}

impl Var {
    pub fn bit(self) -> u32 {
        1 << self.0
    }

    pub fn index(self) -> usize {
        usize::from(self.0)
    }
}

/// The set of sites s0 to s(n-1).
pub fn below(n: u8) -> Mask {
    ((1u64 << n) - 1) as Mask
}

/// The sites of a set, rising.
pub fn members(mask: Mask) -> impl Iterator<Item = Site> {
    let mut rest = mask;
    std::iter::from_fn(move || {
        if rest == 0 {
            return None;
        }
        let site = Site(rest.trailing_zeros() as u8);
        rest &= rest - 1;
        Some(site)
    })
}

pub fn join(into: &mut Policy, other: &Policy) {
    for (mine, theirs) in into.iter_mut().zip(other) {
        *mine |= theirs;
    }
}

pub fn meet(into: &mut Policy, other: &Policy) {
    for (mine, theirs) in into.iter_mut().zip(other) {
        *mine &= theirs;
    }
}

/// The rights of `policy` that `other` lacks.
pub fn less(policy: &Policy, other: &Policy) -> Policy {
    let mut rest = *policy;
    for (mine, theirs) in rest.iter_mut().zip(other) {
        *mine &= !theirs;
    }
    rest
}

pub fn within(policy: &Policy, other: &Policy) -> bool {
    less(policy, other) == EMPTY_POLICY
}

/// Number of pairs (object, right) that a policy holds.
pub fn count_rights(policy: &[u8]) -> u32 {
    policy.iter().map(|rights| rights.count_ones()).sum()
}

#[derive(Clone, Copy, PartialEq, Eq, Debug)]
pub struct Sandbox {
    pub towards: Policy,
    /// The row for `self`, if there is one.
    pub own: Option<u8>,
}

impl Sandbox {
    /// A sandbox without rows.
    pub const SILENT: Sandbox = Sandbox { towards: EMPTY_POLICY, own: None };

    /// "a sandbox with no `self` row has all five rights for `self`" (document
    /// 02, No. 3).
    pub fn for_self(&self) -> u8 {
        self.own.unwrap_or(ALL_RIGHTS)
    }

    /// "Evaluated at site l, sandbox d gives site t the set d(t), but gives
    /// l itself d(l) ∩ d(self)."
    pub fn at(&self, l: Site) -> Policy {
        let mut policy = self.towards;
        policy[l.index()] &= self.for_self();
        policy
    }
}

/// A tuple of 1 to 4 sites at a site; fields past `len` are s0.
#[derive(Clone, Copy, PartialEq, Eq, Debug)]
pub struct Tuple {
    pub site: Site,
    pub len: u8,
    pub fields: [Site; MAX_FIELDS],
}

impl Tuple {
    pub const BLANK: Tuple = Tuple { site: Site(0), len: 0, fields: [Site(0); MAX_FIELDS] };

    pub fn fields(&self) -> &[Site] {
        &self.fields[..usize::from(self.len)]
    }
}

#[derive(Clone, Copy, PartialEq, Eq, Debug)]
pub enum Term {
    Site(Site),
    Own,
    Var(Var),
    Bind(Var),
    /// `_`, "which agrees with any site and binds nothing" (document 02, No. 1).
    Wildcard,
}

impl Term {
    /// Whether a template's field agrees with any site, be it bound or not.
    pub fn takes_any(self) -> bool {
        matches!(self, Term::Bind(_) | Term::Wildcard)
    }
}

/// The 1 to 4 fields of an action; those past `len` are `self`.
#[derive(Clone, Copy, PartialEq, Eq, Debug)]
pub struct Terms {
    pub len: u8,
    pub items: [Term; MAX_FIELDS],
}

impl Terms {
    pub const BLANK: Terms = Terms { len: 0, items: [Term::Own; MAX_FIELDS] };

    pub fn slice(&self) -> &[Term] {
        &self.items[..usize::from(self.len)]
    }

    /// The variables that the fields bind.
    pub fn binds(&self) -> u32 {
        self.slice().iter().fold(0, |mask, term| match term {
            Term::Bind(u) => mask | u.bit(),
            _ => mask,
        })
    }
}

/// A process line: `next` is the a of document 01, `second` and `body` its b.
#[derive(Clone, Copy, PartialEq, Eq, Debug)]
pub enum Line {
    Nil,
    Par { next: u8, second: u8 },
    Rep { next: u8 },
    Out { next: u8, target: Term, fields: Terms },
    In { next: u8, target: Term, fields: Terms },
    Read { next: u8, target: Term, fields: Terms },
    Eval { next: u8, target: Term, body: u8, sandbox: u8 },
    Accept { next: u8, sandbox: u8 },
}

impl Line {
    /// The lines named by this one: what follows, then branch or body.
    pub fn children(&self) -> [Option<u8>; 2] {
        match *self {
            Line::Nil => [None, None],
            Line::Par { next, second } => [Some(next), Some(second)],
            Line::Eval { next, body, .. } => [Some(next), Some(body)],
            Line::Rep { next }
            | Line::Out { next, .. }
            | Line::In { next, .. }
            | Line::Read { next, .. }
            | Line::Accept { next, .. } => [Some(next), None],
        }
    }

    /// The same line with every child number raised by `base`.
    pub fn renumbered(mut self, base: u8) -> Line {
        match &mut self {
            Line::Nil => {}
            Line::Par { next, second: other } | Line::Eval { next, body: other, .. } => {
                *next += base;
                *other += base;
            }
            Line::Rep { next }
            | Line::Out { next, .. }
            | Line::In { next, .. }
            | Line::Read { next, .. }
            | Line::Accept { next, .. } => *next += base,
        }
        self
    }
}

/// `L,s,q`.
#[derive(Clone, Copy, PartialEq, Eq, Debug)]
pub struct Root {
    pub site: Site,
    pub line: u8,
}

#[derive(Clone, PartialEq, Eq, Debug)]
pub struct Net {
    /// The n of the N row; 0 until it is read.
    pub sites: u8,
    pub home: [Policy; SITES],
    pub sandboxes: [Sandbox; SANDBOXES],
    pub tuples: List<Tuple, MAX_TUPLES>,
    pub roots: List<Root, MAX_ROOTS>,
    pub lines: List<Line, MAX_LINES>,
}

impl Net {
    pub fn empty() -> Net {
        Net {
            sites: 0,
            home: [EMPTY_POLICY; SITES],
            sandboxes: [Sandbox::SILENT; SANDBOXES],
            tuples: List::filled(Tuple::BLANK),
            roots: List::filled(Root { site: Site(0), line: 0 }),
            lines: List::filled(Line::Nil),
        }
    }
}

#[derive(Clone, PartialEq, Eq, Debug)]
pub struct Estimate {
    /// B rows: the sites a variable may become.
    pub binds: [Mask; VARS],
    /// A rows: the tuples that may stand.
    pub tuples: List<Tuple, MAX_TUPLES>,
    /// E rows: what sandboxes at a site may hold.
    pub rights: [Policy; SITES],
}

impl Estimate {
    pub fn empty() -> Estimate {
        Estimate {
            binds: [0; VARS],
            tuples: List::filled(Tuple::BLANK),
            rights: [EMPTY_POLICY; SITES],
        }
    }
}
