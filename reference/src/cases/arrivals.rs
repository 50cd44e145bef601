//! Arrivals made to pass the door at a site under a sandbox, as far as the
//! estimate has rows for it.

use super::process::draws_wildcard;
use super::rng::Rng;
use crate::engine::State;
use crate::rows::*;

/// The rights that have a line kind of their own.
const ACTIONS: [u8; 5] = [OUT, IN, READ, EVAL, ACCEPT];

pub struct Friendly<'a> {
    pub rng: &'a mut Rng,
    pub state: &'a State,
    /// Chance that a template's field is a wildcard.
    wildcards: usize,
    lines: Vec<Line>,
}

/// Lines numbered from 0 that often pass the door at l under sandbox d.
pub fn friendly(rng: &mut Rng, state: &State, wildcards: usize, l: Site, d: usize) -> Vec<Line> {
    acting(rng, state, wildcards, l, &state.net.sandboxes[d].at(l))
}

/// Lines numbered from 0 of an arrival at l that uses rights within `allowed`.
pub fn acting(
    rng: &mut Rng,
    state: &State,
    wildcards: usize,
    l: Site,
    allowed: &Policy,
) -> Vec<Line> {
    let mut maker = Friendly { rng, state, wildcards, lines: vec![] };
    if maker.rng.chance(25) {
        maker.lines.push(Line::Rep { next: 1 });
    }
    if maker.rng.chance(25) {
        let at = maker.lines.len();
        maker.lines.push(Line::Nil);
        maker.chain(l, allowed, 2, 0);
        let second = maker.lines.len() as u8;
        maker.lines[at] = Line::Par { next: at as u8 + 1, second };
    }
    let length = maker.rng.between(1, 4);
    maker.chain(l, allowed, length, 0);
    maker.lines
}

/// Lines numbered from 0 of an arrival at l under sandbox d that sends a body to
/// another site and ends; the body begins with `par`, which takes no right. None
/// where the sandbox has no right e on another site.
pub fn sender(
    rng: &mut Rng,
    state: &State,
    wildcards: usize,
    l: Site,
    d: usize,
) -> Option<Vec<Line>> {
    let allowed = state.net.sandboxes[d].at(l);
    let others: Vec<Site> = members(below(state.net.sites))
        .filter(|&t| t != l && allowed[t.index()] & EVAL != 0)
        .collect();
    if others.is_empty() {
        return None;
    }
    let target = *rng.pick(&others);
    let mut maker = Friendly { rng, state, wildcards, lines: vec![] };
    let sandbox = maker.sandbox(target)?;
    // The first line is set when the number of the last one is known.
    maker.lines = vec![Line::Nil, Line::Par { next: 2, second: 3 }, Line::Nil];
    maker.chain(target, &state.net.sandboxes[usize::from(sandbox)].at(target), 2, 0);
    let next = maker.lines.len() as u8;
    maker.lines[0] = Line::Eval { next, target: Term::Site(target), body: 1, sandbox };
    maker.lines.push(Line::Nil);
    Some(maker.lines)
}

/// The number of the line behind one; past the last there is none, and it
/// begins anew, so that such an arrival is refused.
fn behind(at: usize) -> u8 {
    (at as u8).wrapping_add(1)
}

impl Friendly<'_> {
    /// Up to `length` actions at l within `allowed`, then nil; the variables
    /// of `scope` are bound. Past the limit of lines there are no more.
    fn chain(&mut self, l: Site, allowed: &Policy, length: usize, scope: u32) {
        let mut scope = scope;
        for _ in 0..length {
            if self.lines.len() >= MAX_LINES {
                break;
            }
            let choices: Vec<(Site, u8)> = members(below(self.state.net.sites))
                .flat_map(|t| ACTIONS.map(|right| (t, right)))
                .filter(|&(t, right)| allowed[t.index()] & right != 0)
                .collect();
            if choices.is_empty() {
                break;
            }
            let (t, right) = *self.rng.pick(&choices);
            match right {
                EVAL => self.eval(t, scope),
                ACCEPT if t == l => self.accept(l, allowed),
                ACCEPT => {}
                _ => scope |= self.action(l, t, right),
            }
        }
        self.lines.push(Line::Nil);
    }

    /// A line out, in or read over an A row at t; the variables it binds.
    fn action(&mut self, l: Site, t: Site, right: u8) -> u32 {
        let estimate = &self.state.estimate;
        let rows: Vec<Tuple> =
            estimate.tuples.iter().filter(|row| row.site == t).copied().collect();
        let next = behind(self.lines.len());
        let target = if t == l && self.rng.chance(50) { Term::Own } else { Term::Site(t) };
        if rows.is_empty() {
            // No A row can match, so a template demands nothing.
            if right != OUT {
                let fields = Terms { len: 1, items: [Term::Own; MAX_FIELDS] };
                self.lines.push(Line::Read { next, target, fields });
            }
            return 0;
        }
        let row = *self.rng.pick(&rows);
        let mut fields = Terms { len: row.len, ..Terms::BLANK };
        let mut bound = 0;
        for (at, &field) in row.fields().iter().enumerate() {
            fields.items[at] = self.field(l, field, right, &mut bound);
        }
        self.lines.push(match right {
            OUT => Line::Out { next, target, fields },
            IN => Line::In { next, target, fields },
            _ => Line::Read { next, target, fields },
        });
        bound
    }

    /// A field at l that agrees with the row's; a variable that it binds is
    /// added to `bound`.
    fn field(&mut self, l: Site, field: Site, right: u8, bound: &mut u32) -> Term {
        if right != OUT && draws_wildcard(self.rng, self.wildcards) {
            return Term::Wildcard;
        }
        let binds = &self.state.estimate.binds;
        let fitting = (0..VARS as u8)
            .map(Var)
            .find(|u| *bound & u.bit() == 0 && binds[u.index()] & field.bit() != 0);
        match fitting {
            Some(u) if right != OUT && self.rng.chance(50) => {
                *bound |= u.bit();
                Term::Bind(u)
            }
            _ if field == l && self.rng.chance(50) => Term::Own,
            _ => Term::Site(field),
        }
    }

    /// A sandbox that lies within the E rights of t.
    fn sandbox(&mut self, t: Site) -> Option<u8> {
        let estimate = &self.state.estimate;
        let fitting: Vec<u8> = (0..SANDBOXES as u8)
            .filter(|&k| {
                let rights = self.state.net.sandboxes[usize::from(k)].at(t);
                within(&rights, &estimate.rights[t.index()])
            })
            .collect();
        (!fitting.is_empty()).then(|| *self.rng.pick(&fitting))
    }

    /// An eval at t, or at a variable, of a body that mostly does what its
    /// sandbox lets it do.
    fn eval(&mut self, t: Site, scope: u32) {
        let Some(sandbox) = self.sandbox(t) else { return };
        let target = if scope != 0 && self.rng.chance(50) {
            Term::Var(Var(self.rng.member(scope)))
        } else {
            Term::Site(t)
        };
        let at = self.lines.len();
        self.lines.push(Line::Nil);
        let mut allowed = self.state.net.sandboxes[usize::from(sandbox)].at(t);
        if self.rng.chance(30) {
            allowed[self.rng.below(usize::from(self.state.net.sites))] |= OUT | READ;
        }
        self.chain(t, &allowed, 2, scope);
        let next = self.lines.len() as u8;
        self.lines[at] = Line::Eval { next, target, body: behind(at), sandbox };
    }

    fn accept(&mut self, l: Site, allowed: &Policy) {
        let next = behind(self.lines.len());
        let fits = |k: &u8| within(&self.state.net.sandboxes[usize::from(*k)].at(l), allowed);
        let any = Some(self.rng.below(4) as u8);
        let fitting = if self.rng.chance(50) { any } else { (0..SANDBOXES as u8).find(fits) };
        if let Some(sandbox) = fitting {
            self.lines.push(Line::Accept { next, sandbox });
        }
    }
}
