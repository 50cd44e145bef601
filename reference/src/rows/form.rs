//! The form of a single row, of whichever group: refusals 1 and, for
//! numbers over their limits, 2.

use super::*;

/// Row groups in the order of document 01; the first six belong to nets,
/// the last three to estimates.
#[derive(Clone, Copy, PartialEq, Eq, PartialOrd, Ord, Debug)]
pub enum Group {
    N,
    R,
    D,
    T,
    L,
    Q,
    B,
    A,
    E,
}

#[derive(Clone, Copy, PartialEq, Eq, Debug)]
pub enum Row {
    N(u8),
    R(Site, Site, u8),
    /// The second part is `None` for `self`; the rights may be none.
    D(u8, Option<Site>, u8),
    T(Tuple),
    L(Root),
    Q(u8, Line),
    B(Var, Site),
    A(Tuple),
    E(Site, Site, u8),
}

const MAX_SITE: u16 = SITES as u16 - 1;
const MAX_VAR: u16 = VARS as u16 - 1;
const MAX_SANDBOX: u16 = SANDBOXES as u16 - 1;
const MAX_LINE: u16 = MAX_LINES as u16 - 1;
const MAX_DIGITS: usize = 3;

/// The row that `bytes` (without the final 0A) form, and whether a number in
/// it is over its limit; `None` if the form is of no group. The values of a
/// row with a number over its limit mean nothing.
pub fn parse_row(bytes: &[u8]) -> Option<(Row, bool)> {
    let (&letter, rest) = bytes.split_first()?;
    let mut cursor = Cursor { rest, over: false };
    cursor.comma()?;
    let row = match letter {
        b'N' => Row::N(cursor.site_count()?),
        b'R' => cursor.policy_row().map(|(s, t, rights)| Row::R(s, t, rights))?,
        b'D' => cursor.sandbox_row()?,
        b'T' => Row::T(cursor.tuple()?),
        b'L' => cursor.root_row()?,
        b'Q' => cursor.line_row()?,
        b'B' => cursor.bind_row()?,
        b'A' => Row::A(cursor.tuple()?),
        b'E' => cursor.policy_row().map(|(s, t, rights)| Row::E(s, t, rights))?,
        _ => return None,
    };
    cursor.rest.is_empty().then_some((row, cursor.over))
}

/// What is left of a row. Every method takes its part from the front, or
/// answers `None` if the part does not have its form.
struct Cursor<'a> {
    rest: &'a [u8],
    over: bool,
}

impl Cursor<'_> {
    fn word(&mut self, word: &[u8]) -> Option<()> {
        self.rest = self.rest.strip_prefix(word)?;
        Some(())
    }

    fn comma(&mut self) -> Option<()> {
        self.word(b",")
    }

    /// "Numbers are decimal, one to three digits, no leading zero." A digit
    /// too many stays in front and is refused by what is asked next.
    fn number(&mut self) -> Option<u16> {
        if let Some(rest) = self.rest.strip_prefix(b"0") {
            self.rest = rest;
            return Some(0);
        }
        let digits = self.rest.iter().take(MAX_DIGITS).take_while(|b| b.is_ascii_digit()).count();
        if digits == 0 {
            return None;
        }
        let (number, rest) = self.rest.split_at(digits);
        self.rest = rest;
        Some(number.iter().fold(0, |value, digit| value * 10 + u16::from(digit - b'0')))
    }

    /// A number whose limit is `max`.
    fn limited(&mut self, max: u16) -> Option<u8> {
        let value = self.number()?;
        self.over |= value > max;
        Some(value as u8)
    }

    fn site_count(&mut self) -> Option<u8> {
        let n = self.limited(SITES as u16)?;
        self.over |= n == 0;
        Some(n)
    }

    fn site(&mut self) -> Option<Site> {
        self.word(b"s")?;
        Some(Site(self.limited(MAX_SITE)?))
    }

    fn var(&mut self) -> Option<Var> {
        self.word(b"u")?;
        Some(Var(self.limited(MAX_VAR)?))
    }

    fn line(&mut self) -> Option<u8> {
        self.limited(MAX_LINE)
    }

    fn sandbox(&mut self) -> Option<u8> {
        self.limited(MAX_SANDBOX)
    }

    /// "Rights are letters in the order `oirea`, at least one."
    fn rights(&mut self) -> Option<u8> {
        let mut rights = NO_RIGHTS;
        for (bit, &letter) in LETTERS.iter().enumerate() {
            if self.word(&[letter]).is_some() {
                rights |= 1 << bit;
            }
        }
        (rights != NO_RIGHTS).then_some(rights)
    }

    /// The rights of a D row: letters, or `-`, "the empty set, allowed in D rows
    /// only" (document 02, No. 3).
    fn sandbox_rights(&mut self) -> Option<u8> {
        if self.word(b"-").is_some() {
            return Some(NO_RIGHTS);
        }
        self.rights()
    }

    /// Site, `self` or variable; in a template also `!u` and `_`. "`_` in
    /// `out` or as a target is still 1."
    fn term(&mut self, template: bool) -> Option<Term> {
        match self.rest.first()? {
            b's' if self.word(b"self").is_some() => Some(Term::Own),
            b's' => Some(Term::Site(self.site()?)),
            b'u' => Some(Term::Var(self.var()?)),
            b'!' if template => {
                self.word(b"!")?;
                Some(Term::Bind(self.var()?))
            }
            b'_' if template => {
                self.word(b"_")?;
                Some(Term::Wildcard)
            }
            _ => None,
        }
    }

    fn policy_row(&mut self) -> Option<(Site, Site, u8)> {
        let subject = self.site()?;
        self.comma()?;
        let object = self.site()?;
        self.comma()?;
        Some((subject, object, self.rights()?))
    }

    fn sandbox_row(&mut self) -> Option<Row> {
        let number = self.sandbox()?;
        self.comma()?;
        let object = if self.word(b"self").is_some() { None } else { Some(self.site()?) };
        self.comma()?;
        Some(Row::D(number, object, self.sandbox_rights()?))
    }

    /// A site and 1 to 4 sites, to the end of the row.
    fn tuple(&mut self) -> Option<Tuple> {
        let mut tuple = Tuple { site: self.site()?, ..Tuple::BLANK };
        while !self.rest.is_empty() {
            self.comma()?;
            *tuple.fields.get_mut(usize::from(tuple.len))? = self.site()?;
            tuple.len += 1;
        }
        (tuple.len > 0).then_some(tuple)
    }

    /// 1 to 4 fields of an action, to the end of the row.
    fn terms(&mut self, template: bool) -> Option<Terms> {
        let mut terms = Terms::BLANK;
        while !self.rest.is_empty() {
            self.comma()?;
            *terms.items.get_mut(usize::from(terms.len))? = self.term(template)?;
            terms.len += 1;
        }
        (terms.len > 0).then_some(terms)
    }

    fn root_row(&mut self) -> Option<Row> {
        let site = self.site()?;
        self.comma()?;
        Some(Row::L(Root { site, line: self.line()? }))
    }

    fn bind_row(&mut self) -> Option<Row> {
        let var = self.var()?;
        self.comma()?;
        Some(Row::B(var, self.site()?))
    }

    fn line_row(&mut self) -> Option<Row> {
        let number = self.line()?;
        self.comma()?;
        let end = self.rest.iter().position(|&b| b == b',').unwrap_or(self.rest.len());
        let (name, rest) = self.rest.split_at(end);
        self.rest = rest;
        if name == b"nil" {
            return Some(Row::Q(number, Line::Nil));
        }
        self.comma()?;
        let next = self.line()?;
        let line = match name {
            b"rep" => Line::Rep { next },
            b"par" => {
                self.comma()?;
                Line::Par { next, second: self.line()? }
            }
            b"accept" => {
                self.comma()?;
                Line::Accept { next, sandbox: self.sandbox()? }
            }
            _ => self.targeted(name, next)?,
        };
        Some(Row::Q(number, line))
    }

    /// The four kinds of line that have a target.
    fn targeted(&mut self, name: &[u8], next: u8) -> Option<Line> {
        self.comma()?;
        let target = self.term(false)?;
        match name {
            b"out" => Some(Line::Out { next, target, fields: self.terms(false)? }),
            b"in" => Some(Line::In { next, target, fields: self.terms(true)? }),
            b"read" => Some(Line::Read { next, target, fields: self.terms(true)? }),
            b"eval" => {
                self.comma()?;
                let body = self.line()?;
                self.comma()?;
                Some(Line::Eval { next, target, body, sandbox: self.sandbox()? })
            }
            _ => None,
        }
    }
}

impl Row {
    pub fn group(&self) -> Group {
        match self {
            Row::N(..) => Group::N,
            Row::R(..) => Group::R,
            Row::D(..) => Group::D,
            Row::T(..) => Group::T,
            Row::L(..) => Group::L,
            Row::Q(..) => Group::Q,
            Row::B(..) => Group::B,
            Row::A(..) => Group::A,
            Row::E(..) => Group::E,
        }
    }

    /// Every site that the row mentions.
    pub fn sites(&self) -> Mask {
        match self {
            Row::N(_) => 0,
            Row::R(s, t, _) | Row::E(s, t, _) => s.bit() | t.bit(),
            Row::D(_, t, _) => t.map_or(0, Site::bit),
            Row::T(tuple) | Row::A(tuple) => {
                tuple.fields().iter().fold(tuple.site.bit(), |mask, s| mask | s.bit())
            }
            Row::L(root) => root.site.bit(),
            Row::Q(_, line) => line_sites(line),
            Row::B(_, s) => s.bit(),
        }
    }

    /// "`!u` twice, or with u in one template."
    pub fn clashes(&self) -> bool {
        let Row::Q(_, Line::In { fields, .. } | Line::Read { fields, .. }) = self else {
            return false;
        };
        let mut bound = 0;
        let mut used = 0;
        for term in fields.slice() {
            match term {
                Term::Bind(u) if bound & u.bit() != 0 => return true,
                Term::Bind(u) => bound |= u.bit(),
                Term::Var(u) => used |= u.bit(),
                _ => {}
            }
        }
        bound & used != 0
    }
}

fn line_sites(line: &Line) -> Mask {
    match line {
        Line::Out { target, fields, .. }
        | Line::In { target, fields, .. }
        | Line::Read { target, fields, .. } => {
            fields.slice().iter().fold(term_site(target), |mask, term| mask | term_site(term))
        }
        Line::Eval { target, .. } => term_site(target),
        _ => 0,
    }
}

fn term_site(term: &Term) -> Mask {
    if let Term::Site(s) = term {
        s.bit()
    } else {
        0
    }
}
