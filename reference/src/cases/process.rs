//! Random process lines over a store of tuple shapes, so that what is put
//! out is often taken in elsewhere.

use super::rng::Rng;
use crate::rows::*;

const MAX_DEPTH: usize = 14;

/// How often each kind of line is chosen: nil, par, rep, out, in, read,
/// eval, accept.
pub type Weights = [usize; 8];

pub const PLAIN: Weights = [14, 14, 7, 24, 17, 17, 13, 8];
pub const BUSY: Weights = [4, 16, 12, 20, 20, 20, 12, 14];
/// More templates, for nets with wildcards.
pub const TEMPLATES: Weights = [12, 12, 6, 20, 26, 26, 12, 6];

pub struct Maker<'a> {
    pub rng: &'a mut Rng,
    pub n: u8,
    pub shapes: &'a [Tuple],
    /// Variables and sandboxes are taken below these numbers.
    pub vars: usize,
    pub sandboxes: usize,
    pub weights: Weights,
    /// Chance that a template's field is a wildcard.
    pub wildcards: usize,
    pub lines: Vec<Line>,
    pub max_lines: usize,
}

impl Maker<'_> {
    /// Adds a process whose free variables lie in `scope`; its line number.
    pub fn grow(&mut self, scope: u32, depth: usize) -> u8 {
        let at = self.lines.len();
        self.lines.push(Line::Nil);
        // This line may need two more, and each line above it one.
        let room = self.max_lines.saturating_sub(self.lines.len());
        if depth > MAX_DEPTH || room < depth + 2 {
            return at as u8;
        }
        let mut weights = self.weights;
        weights[0] = if depth == 0 { 2 } else { weights[0] };
        self.lines[at] = match self.rng.weighted(&weights) {
            0 => Line::Nil,
            1 => {
                let (next, second) = self.two(scope, scope, depth);
                Line::Par { next, second }
            }
            2 => Line::Rep { next: self.grow(scope, depth + 1) },
            3 => self.output(scope, depth),
            4 => self.input(true, scope, depth),
            5 => self.input(false, scope, depth),
            6 => self.eval(scope, depth),
            _ => {
                let sandbox = self.rng.below(self.sandboxes) as u8;
                Line::Accept { next: self.grow(scope, depth + 1), sandbox }
            }
        };
        at as u8
    }

    /// Two children, in either order of their numbers.
    fn two(&mut self, first: u32, second: u32, depth: usize) -> (u8, u8) {
        if self.rng.chance(50) {
            let a = self.grow(first, depth + 1);
            (a, self.grow(second, depth + 1))
        } else {
            let b = self.grow(second, depth + 1);
            (self.grow(first, depth + 1), b)
        }
    }

    fn site(&mut self) -> Site {
        Site(self.rng.below(usize::from(self.n)) as u8)
    }

    fn shape(&mut self) -> Tuple {
        *self.rng.pick(self.shapes)
    }

    /// A term that mostly is `site`.
    fn term(&mut self, site: Site, scope: u32) -> Term {
        match self.rng.weighted(&[52, 20, 28]) {
            1 => Term::Own,
            2 if scope != 0 => Term::Var(Var(self.rng.member(scope))),
            _ if self.rng.chance(5) => Term::Site(self.site()),
            _ => Term::Site(site),
        }
    }

    fn output(&mut self, scope: u32, depth: usize) -> Line {
        let shape = self.shape();
        let target = self.term(shape.site, scope);
        let mut fields = Terms { len: shape.len, ..Terms::BLANK };
        for at in 0..usize::from(shape.len) {
            fields.items[at] = self.term(shape.fields[at], scope);
        }
        Line::Out { next: self.grow(scope, depth + 1), target, fields }
    }

    fn input(&mut self, takes: bool, scope: u32, depth: usize) -> Line {
        let shape = self.shape();
        let target = self.term(shape.site, scope);
        let mut fields = Terms { len: shape.len, ..Terms::BLANK };
        let (mut bound, mut used) = (0u32, 0u32);
        for at in 0..usize::from(shape.len) {
            if draws_wildcard(self.rng, self.wildcards) {
                fields.items[at] = Term::Wildcard;
                continue;
            }
            let fresh = Var(self.rng.below(self.vars) as u8);
            fields.items[at] = if self.rng.chance(50) && (bound | used) & fresh.bit() == 0 {
                bound |= fresh.bit();
                Term::Bind(fresh)
            } else {
                self.term(shape.fields[at], scope & !bound)
            };
            if let Term::Var(u) = fields.items[at] {
                used |= u.bit();
            }
        }
        let next = self.grow(scope | bound, depth + 1);
        if takes {
            Line::In { next, target, fields }
        } else {
            Line::Read { next, target, fields }
        }
    }

    fn eval(&mut self, scope: u32, depth: usize) -> Line {
        let site = self.site();
        let target = if scope != 0 && self.rng.chance(40) {
            Term::Var(Var(self.rng.member(scope)))
        } else {
            self.term(site, scope)
        };
        let sandbox = self.rng.below(self.sandboxes) as u8;
        let (next, body) = self.two(scope, scope, depth);
        Line::Eval { next, target, body, sandbox }
    }
}

/// Where there are to be none, nothing is drawn: cases without wildcards
/// keep their texts.
pub fn draws_wildcard(rng: &mut Rng, chance: usize) -> bool {
    chance > 0 && rng.chance(chance)
}

/// The template of an `in` or a `read`.
pub fn template(line: &Line) -> Option<&Terms> {
    match line {
        Line::In { fields, .. } | Line::Read { fields, .. } => Some(fields),
        _ => None,
    }
}

/// The same, to be changed.
pub fn template_mut(line: &mut Line) -> Option<&mut Terms> {
    match line {
        Line::In { fields, .. } | Line::Read { fields, .. } => Some(fields),
        _ => None,
    }
}

/// Gives the lines other numbers in which children are still greater than
/// their parents; the new number of each old one.
pub fn renumber(rng: &mut Rng, lines: &mut [Line], roots: &[u8]) -> Vec<u8> {
    let mut number = vec![0u8; lines.len()];
    let mut open = roots.to_vec();
    let mut order = Vec::new();
    while !open.is_empty() {
        let at = rng.below(open.len());
        let line = open.swap_remove(at);
        number[usize::from(line)] = order.len() as u8;
        order.push(line);
        open.extend(lines[usize::from(line)].children().into_iter().flatten());
    }
    let old = lines.to_vec();
    for (new, &line) in order.iter().enumerate() {
        let mut moved = old[usize::from(line)];
        for child in children_mut(&mut moved) {
            *child = number[usize::from(*child)];
        }
        lines[new] = moved;
    }
    number
}

/// The child numbers of a line, to be changed.
pub fn children_mut(line: &mut Line) -> Vec<&mut u8> {
    match line {
        Line::Nil => vec![],
        Line::Par { next, second: other } | Line::Eval { next, body: other, .. } => {
            vec![next, other]
        }
        Line::Rep { next }
        | Line::Out { next, .. }
        | Line::In { next, .. }
        | Line::Read { next, .. }
        | Line::Accept { next, .. } => vec![next],
    }
}
