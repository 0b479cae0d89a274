//! Document 01's grammar as document 02 widens it: the policy that a whole text is, if it is one.

use super::{Mix, Policy};

/// The signs between products.
const SIGNS: [(u8, Mix); 3] = [(b'&', Mix::Both), (b'-', Mix::Minus), (b'^', Mix::Either)];

/// The policy of a text whose atoms nest at most this deep.
pub fn policy(text: &[u8], deepest: usize) -> Option<Policy> {
    let mut reader = Reader { text, at: 0, deepest };
    let policy = reader.sum(0)?;
    (reader.at == text.len()).then_some(policy)
}

struct Reader<'a> {
    text: &'a [u8],
    at: usize,
    deepest: usize,
}

impl Reader<'_> {
    /// Terms joined by `+`, inside so many `(` and `!`.
    fn sum(&mut self, nesting: usize) -> Option<Policy> {
        let mut sum = self.term(nesting)?;
        while self.passes(b'+') {
            sum = Policy::Sum(Box::new(sum), Box::new(self.term(nesting)?));
        }
        Some(sum)
    }

    /// Products joined by the three signs.
    fn term(&mut self, nesting: usize) -> Option<Policy> {
        let mut term = self.product(nesting)?;
        while let Some((_, mix)) = SIGNS.into_iter().find(|&(sign, _)| self.passes(sign)) {
            term = Policy::Mix(mix, Box::new(term), Box::new(self.product(nesting)?));
        }
        Some(term)
    }

    /// Starred items joined by `;`.
    fn product(&mut self, nesting: usize) -> Option<Policy> {
        let mut product = self.starred(nesting)?;
        while self.passes(b';') {
            product = Policy::Product(Box::new(product), Box::new(self.starred(nesting)?));
        }
        Some(product)
    }

    /// An atom and then any number of `*`.
    fn starred(&mut self, nesting: usize) -> Option<Policy> {
        let mut starred = self.atom(nesting)?;
        while self.passes(b'*') {
            starred = Policy::Star(Box::new(starred));
        }
        Some(starred)
    }

    fn atom(&mut self, nesting: usize) -> Option<Policy> {
        if nesting > self.deepest {
            return None;
        }
        let at = self.at;
        match self.next()? {
            b'0' => Some(Policy::Zero),
            b'1' => Some(Policy::One),
            b'T' => Some(Policy::Full),
            b'x' => self.field(at),
            b'!' => Some(Policy::Not { at, operand: Box::new(self.atom(nesting + 1)?) }),
            b'(' => {
                let sum = self.sum(nesting + 1)?;
                self.passes(b')').then_some(sum)
            }
            _ => None,
        }
    }

    /// What follows an `x`: `N=b` or `N:=b`.
    fn field(&mut self, at: usize) -> Option<Policy> {
        let field = self.number()?;
        let assigned = self.passes(b':');
        if !self.passes(b'=') {
            return None;
        }
        let value = match self.next()? {
            b'0' => 0,
            b'1' => 1,
            _ => return None,
        };
        Some(if assigned {
            Policy::Assign { at, field, value }
        } else {
            Policy::Test { at, field, value }
        })
    }

    /// One or two decimal digits without a leading zero.
    fn number(&mut self) -> Option<u32> {
        let digits = self.text[self.at..].iter().take_while(|byte| byte.is_ascii_digit()).count();
        let number = &self.text[self.at..self.at + digits];
        self.at += digits;
        match *number {
            [one] => Some(u32::from(one - b'0')),
            [ten @ b'1'..=b'9', one] => Some(u32::from((ten - b'0') * 10 + one - b'0')),
            _ => None,
        }
    }

    fn next(&mut self) -> Option<u8> {
        let byte = *self.text.get(self.at)?;
        self.at += 1;
        Some(byte)
    }

    /// Goes past this byte where it is next.
    fn passes(&mut self, byte: u8) -> bool {
        let there = self.text.get(self.at) == Some(&byte);
        self.at += usize::from(there);
        there
    }
}
