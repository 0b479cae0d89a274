//! Checks that every operation of the reference means what document 01 says,
//! by brute force against plain sets and relations of packets.

mod bench;
mod meaning;
pub mod members;
mod operands;
pub mod pairs;
mod plain;
mod policies;
mod worked;

use crate::operations::{self, Operation, Sort};
use crate::random::Random;
use bench::Bench;
use meaning::Value;
pub use policies::text_relation;
use std::io::{self, Write};

/// The levels compared are those below this.
const LEVELS: usize = 5;

/// How much to compare of each operation at each level.
pub struct Effort {
    /// All lists of operands where there are at most so many, else random ones.
    pub all_up_to: u64,
    pub random_lists: usize,
    /// `first_path` on all sets and relations of the levels up to this.
    pub all_pairs_to: u32,
    /// `set.next` on all sets and records of the levels up to this.
    pub all_members_to: u32,
}

/// Compares all there is, writes a table, and returns whether all agreed.
pub fn check(effort: &Effort, mut output: impl Write) -> io::Result<bool> {
    let mut checker = Checker { random: Random::new(1), held: 0, doubles: 0 };
    let mut agreed = true;
    writeln!(output, "{:16}level 0  level 1  level 2  level 3  level 4  differ", "operation")?;
    for operation in operations::all() {
        let tally = checker.tally(operation, effort);
        write!(output, "{:14}", operation.name)?;
        tally.cases.iter().try_for_each(|cases| write!(output, "{cases:9}"))?;
        writeln!(output, "{:8}", tally.differ)?;
        if let Some(operands) = tally.first {
            writeln!(output, "  first: {operands:?}")?;
            agreed = false;
        }
    }
    agreed &= pairs::check(effort.all_pairs_to, &mut output)?;
    agreed &= members::check(effort.all_members_to, &mut output)?;
    let Checker { held, doubles, .. } = checker;
    writeln!(output, "handles with the meaning of another: {doubles} of {held}")?;
    let (answers, wrong) = worked::compare();
    writeln!(output, "worked answers that differ: {} of {answers}", wrong.len())?;
    wrong.iter().try_for_each(|call| writeln!(output, "  {call}"))?;
    Ok(agreed && doubles == 0 && wrong.is_empty())
}

/// What was compared of one operation.
#[derive(Default)]
struct Tally {
    /// The cases at each level.
    cases: [usize; LEVELS],
    differ: usize,
    /// The first operands that differed.
    first: Option<Vec<Value>>,
}

struct Checker {
    random: Random,
    /// Handles looked at for equal meanings, and those that had one.
    held: usize,
    doubles: usize,
}

impl Checker {
    fn tally(&mut self, operation: &Operation, effort: &Effort) -> Tally {
        let mut tally = Tally::default();
        // `get` needs a level below its operand, `mk` one above its operands.
        let lowest = usize::from(operation.name.ends_with(".get"));
        for level in lowest..LEVELS {
            let all = operands::all(operation, level as u32, effort.all_up_to);
            let cases = all.unwrap_or_else(|| {
                let list = |_| operands::random(operation, level as u32, &mut self.random);
                (0..effort.random_lists).map(list).collect()
            });
            tally.cases[level] = cases.len();
            self.compare(operation, level as u32, &cases, &mut tally);
        }
        tally
    }

    fn compare(
        &mut self,
        operation: &Operation,
        level: u32,
        cases: &[Vec<Value>],
        tally: &mut Tally,
    ) {
        let mut bench = self.bench(operation, level);
        for operands in cases {
            if bench.is_full() {
                self.close(bench);
                bench = self.bench(operation, level);
            }
            if !bench.agrees(operation, operands) {
                tally.differ += 1;
                tally.first.get_or_insert_with(|| operands.clone());
            }
        }
        self.close(bench);
    }

    /// A store for operands of this level: of as many fields, or more where they may be.
    fn bench(&mut self, operation: &Operation, level: u32) -> Bench {
        let handles = operation.sorts.iter().any(|sort| matches!(sort, Sort::Set | Sort::Relation));
        let above = u32::from(operation.name.ends_with(".mk"));
        let spare = if handles { self.random.below(2) } else { 0 };
        Bench::new(level + above + spare)
    }

    fn close(&mut self, bench: Bench) {
        let (held, doubles) = bench.count_doubles();
        self.held += held;
        self.doubles += doubles;
    }
}
