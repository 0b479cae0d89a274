//! Draws policies as relay tables are written: rules of tests and assignments, their sums, products of tables, stars.

use oracle::random::Random;

/// A run of fields that a table treats as one number, its first field the highest bit.
#[derive(Clone, Copy)]
struct Word {
    first: u32,
    width: u32,
}

/// A policy text over this many fields, of at least so many bytes, seldom more than two times as many.
pub fn text(fields: u32, least: usize, random: &mut Random) -> String {
    let words = words(fields, random);
    let least = least + random.below(least as u32) as usize;
    let mut parts: Vec<String> = vec![];
    while parts.iter().map(String::len).sum::<usize>() < least {
        let mut writer = Writer { words: &words, random };
        parts.push(writer.part());
    }
    parts.join(if random.once_in(3) { ";" } else { "+" })
}

/// A table of so many rules that match one word and rewrite another.
pub fn rules(fields: u32, count: u32, random: &mut Random) -> String {
    let words = words(fields, random);
    let mut writer = Writer { words: &words, random };
    let [from, to] = [writer.word(), writer.word()];
    writer.sum(count, from, to)
}

/// The words of a header: runs of 2 to 5 fields, one after another, a few fields between them left out.
fn words(fields: u32, random: &mut Random) -> Vec<Word> {
    let mut words = vec![];
    let mut first = random.below(2).min(fields - 1);
    while first < fields {
        let width = (2 + random.below(4)).min(fields - first);
        words.push(Word { first, width });
        first += width + random.below(2);
    }
    words
}

struct Writer<'a> {
    words: &'a [Word],
    random: &'a mut Random,
}

impl Writer<'_> {
    /// A part of a policy that can stand in a sum and in a product.
    fn part(&mut self) -> String {
        match self.random.below(8) {
            0..3 => format!("({})", self.table()),
            3 => format!("({})*", self.table()),
            4 => format!("({});({})", self.table(), self.table()),
            5 => self.choice(),
            6 => self.filled(),
            _ => self.relayed(),
        }
    }

    /// A sum of rules that match one word and rewrite others.
    fn table(&mut self) -> String {
        let [from, to] = [self.word(), self.word()];
        self.rules(7, from, to)
    }

    /// A table, and a rule for the packets that none of its rows takes.
    fn filled(&mut self) -> String {
        let [from, to] = [self.word(), self.word()];
        let rows: Vec<[String; 2]> = (0..2 + self.random.below(4))
            .map(|_| [self.tests(from), self.assignments(to)])
            .collect();
        let taken: Vec<&str> = rows.iter().map(|row| row[0].as_str()).collect();
        let rules: Vec<String> = rows.iter().map(|row| row.join(";")).collect();
        let rest = self.assignments(to);
        format!("({}+!({});{rest})", rules.join("+"), taken.join("+"))
    }

    /// One table where a test holds, another where not.
    fn choice(&mut self) -> String {
        let word = self.word();
        let test = self.tests(word);
        let [yes, no] = [self.table(), self.table()];
        format!("(({test});({yes})+!({test});({no}))")
    }

    /// From some packets any number of hops over a table and its links, then to some packets.
    fn relayed(&mut self) -> String {
        let [from, to] = [self.word(), self.word()];
        let [entry, exit] = [self.tests(from), self.tests(to)];
        let hop = self.rules(4, from, to);
        let link = self.rules(4, to, from);
        format!("{entry};(({hop});({link}))*;({hop});{exit}")
    }

    /// A sum of 2 rules to so many.
    fn rules(&mut self, most: u32, from: Word, to: Word) -> String {
        let count = 2 + self.random.below(most - 1);
        self.sum(count, from, to)
    }

    fn sum(&mut self, count: u32, from: Word, to: Word) -> String {
        let rules: Vec<String> = (0..count).map(|_| self.rule(from, to)).collect();
        rules.join("+")
    }

    /// Packets with one word of some value get another word's value, now and then a third word is tested or set too.
    fn rule(&mut self, from: Word, to: Word) -> String {
        let mut items = vec![self.tests(from)];
        if self.random.once_in(4) {
            let third = self.word();
            items.push(self.tests(third));
        }
        items.push(self.assignments(to));
        if self.random.once_in(6) {
            let third = self.word();
            items.push(self.assignments(third));
        }
        items.join(";")
    }

    /// Tests of a word, of all its fields or the first ones.
    fn tests(&mut self, word: Word) -> String {
        let some =
            if self.random.once_in(2) { word.width } else { 1 + self.random.below(word.width) };
        self.items(Word { width: some, ..word }, "=")
    }

    /// Assignments to all fields of a word.
    fn assignments(&mut self, word: Word) -> String {
        self.items(word, ":=")
    }

    fn items(&mut self, word: Word, sign: &str) -> String {
        let fields = word.first..word.first + word.width;
        let items: Vec<String> =
            fields.map(|field| format!("x{field}{sign}{}", self.random.below(2))).collect();
        items.join(";")
    }

    fn word(&mut self) -> Word {
        self.random.pick(self.words)
    }
}
