//! Draws policy texts: within the rules, nested deep, long, damaged, or any bytes.

use crate::random::Random;

/// Bytes to damage a text with, mostly those of policies; a line can hold them.
const BYTES: &[u8] = b"01Tx=:+&-^;*!()0123456789 ,X[a~";

/// The signs between products.
const SIGNS: [&str; 3] = ["&", "-", "^"];

/// How many fields a text names at most, so that its relation stays small.
const NAMED: usize = 4;

/// A text for a store of this many fields.
pub fn text(fields: u32, random: &mut Random) -> Vec<u8> {
    match random.below(100) {
        0..45 => small(fields, random),
        45..48 => long(fields, random),
        48..64 => deep(fields, random),
        64..68 => noise(random),
        _ => {
            let text = if random.once_in(4) { deep(fields, random) } else { small(fields, random) };
            damaged(text, random)
        }
    }
}

/// A text of the grammar: it may name a field that is not there, or negate what is no predicate.
pub fn small(fields: u32, random: &mut Random) -> Vec<u8> {
    let size = if random.once_in(8) { 40 } else { 1 + random.below(12) };
    let mut writer = Writer::new(fields, random);
    writer.sum(size, 0);
    writer.text
}

/// Atoms inside 30 to 34 `(` and `!`, alone or among others.
fn deep(fields: u32, random: &mut Random) -> Vec<u8> {
    let nesting = 30 + random.below(5);
    let negations = random.below(5);
    let mut writer = Writer::new(fields, random);
    if writer.random.once_in(3) {
        writer.product(2, 0);
        writer.push_any(&["+", "+", "&", "-", "^"]);
    }
    let opened: Vec<bool> = (0..nesting).map(|_| writer.random.below(4) < negations).collect();
    for &negated in &opened {
        writer.push(if negated { "!" } else { "(" });
        if !negated && writer.random.once_in(16) {
            writer.push_any(&["1;", "1&", "0^"]);
        }
    }
    writer.predicate = true;
    writer.leaf();
    for _ in opened.iter().filter(|&&negated| !negated) {
        writer.push(")");
    }
    if writer.random.once_in(3) {
        writer.push_any(&[";", ";", "&", "-", "^"]);
        writer.product(2, 0);
    }
    writer.text
}

/// A text of about 4,096 bytes, or of many more.
fn long(fields: u32, random: &mut Random) -> Vec<u8> {
    let more = if random.once_in(8) { random.below(60_000) } else { 0 };
    let bytes = (4090 + random.below(10) + more) as usize;
    let mut writer = Writer::new(fields, random);
    writer.product(3, 0);
    while writer.text.len() < bytes {
        writer.push_any(&["+", "+", ";", ";", ";", "&", "-", "^"]);
        writer.starred(1, 0);
    }
    // Stars of a star change nothing, so they fill up to the length or one byte beyond it.
    let mut text = writer.text;
    text.truncate(bytes);
    while text.last().is_some_and(|byte| !b"01T*)".contains(byte)) {
        text.pop();
    }
    text.resize(bytes + random.below(2) as usize, b'*');
    text
}

/// Any bytes, mostly those of policies.
fn noise(random: &mut Random) -> Vec<u8> {
    let len = random.below(20);
    (0..len).map(|_| random.pick(BYTES)).collect()
}

/// One byte changed, left out, doubled or put in, or the text cut.
fn damaged(mut text: Vec<u8>, random: &mut Random) -> Vec<u8> {
    let at = random.below(text.len() as u32) as usize;
    match random.below(6) {
        0 | 1 => text[at] = random.pick(BYTES),
        2 => drop(text.remove(at)),
        3 => text.insert(at, text[at]),
        4 => text.insert(at, random.pick(BYTES)),
        _ => text.truncate(at),
    }
    text
}

/// Writes a text by the grammar.
struct Writer<'a> {
    random: &'a mut Random,
    /// The fields that it names.
    fields: Vec<u32>,
    /// In the operand of a `!`, where assignments, stars and `T` are rare.
    predicate: bool,
    text: Vec<u8>,
}

impl Writer<'_> {
    fn new(fields: u32, random: &mut Random) -> Writer<'_> {
        let mut named: Vec<u32> = match fields {
            0 => vec![],
            _ => (0..NAMED).map(|_| random.below(fields)).collect(),
        };
        if random.once_in(30) {
            named.push(random.pick(&[fields, fields + 1, 33, 99]).min(99));
        }
        Writer { random, fields: named, predicate: false, text: vec![] }
    }

    fn push(&mut self, part: &str) {
        self.text.extend(part.bytes());
    }

    fn push_any(&mut self, parts: &[&str]) {
        let part = self.random.pick(parts);
        self.push(part);
    }

    /// Terms of about so many leaves together, inside so many `(` and `!`.
    fn sum(&mut self, size: u32, nesting: u32) {
        let terms = 1 + self.random.below(size.min(4));
        for i in 0..terms {
            self.push(if i == 0 { "" } else { "+" });
            self.term(size / terms, nesting);
        }
    }

    fn term(&mut self, size: u32, nesting: u32) {
        let products = 1 + self.random.below(size.clamp(1, 3));
        for i in 0..products {
            self.push_any(if i == 0 { &[""] } else { &SIGNS });
            self.product(size / products, nesting);
        }
    }

    fn product(&mut self, size: u32, nesting: u32) {
        let items = 1 + self.random.below(size.clamp(1, 4));
        for i in 0..items {
            self.push(if i == 0 { "" } else { ";" });
            self.starred(size / items, nesting);
        }
    }

    fn starred(&mut self, size: u32, nesting: u32) {
        self.atom(size, nesting);
        let often = if self.predicate { 100 } else { 6 };
        while self.random.once_in(often) {
            self.push("*");
        }
    }

    fn atom(&mut self, size: u32, nesting: u32) {
        if nesting == 32 || (size <= 1 && !self.random.once_in(8)) {
            return self.leaf();
        }
        if self.random.once_in(3) {
            let outside = std::mem::replace(&mut self.predicate, true);
            self.push("!");
            self.atom(size, nesting + 1);
            self.predicate = outside;
        } else {
            self.push("(");
            self.sum(size, nesting + 1);
            self.push(")");
        }
    }

    /// `0`, `1`, `T`, a test or an assignment.
    fn leaf(&mut self) {
        if self.random.once_in(if self.predicate { 100 } else { 12 }) {
            return self.push("T");
        }
        if self.fields.is_empty() || self.random.once_in(8) {
            return self.push_any(&["0", "1", "1"]);
        }
        let assigned = self.random.once_in(if self.predicate { 100 } else { 2 });
        let (field, value) = (self.random.pick(&self.fields), self.random.below(2));
        let sign = if assigned { ":=" } else { "=" };
        self.push(&format!("x{field}{sign}{value}"));
    }
}
