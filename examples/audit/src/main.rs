//! Audits a relay table of packets with k fields: does each header have a rule, and no more than one? A rule is tests `xN=b` and
//! assignments `xN:=b` joined by `;`. All of the table's work is one list of jobs, which is run eight jobs at a time, as a loader does
//! that has other work between.

use packet_store::jobs::{Answer, JobList, RelationJob, TruthJob};
use packet_store::{new, relations_len, sets_len, JobRefusal, WORK_LEN};
use std::process::ExitCode;

const PLACES: usize = 4096;

/// The jobs run by one call.
const AT_A_TIME: u32 = 8;

fn main() -> ExitCode {
    let words: Vec<String> = std::env::args().skip(1).collect();
    let audited = match &words[..] {
        [k, rules @ ..] if !rules.is_empty() => k.parse().ok().zip(Table::read(rules)),
        _ => None,
    };
    let Some((k, mut table)) = audited else {
        eprintln!("usage: audit K RULE [RULE ..]");
        return ExitCode::from(2);
    };
    match table.run(k) {
        Ok(sound) => ExitCode::from(u8::from(!sound)),
        Err(refusal) => {
            println!("refused: {refusal}");
            ExitCode::from(2)
        }
    }
}

/// A table's work, and the jobs whose answers are asked for.
struct Table {
    list: JobList,
    rules: Vec<Rule>,
    relation: RelationJob,
    every_header: TruthJob,
}

struct Rule {
    relation: RelationJob,
    /// Whether it takes headers of earlier rules; not asked of the first.
    overlaps: Option<TruthJob>,
}

impl Table {
    /// The jobs of a table, where its rules are rules.
    fn read(texts: &[String]) -> Option<Table> {
        let mut list = JobList::new();
        let mut rules: Vec<Rule> = vec![];
        let mut before = None;
        for text in texts {
            let relation = rule(text, &mut list)?;
            let takes = list.relation_bwd(relation);
            let (overlaps, joined) = match before {
                None => (None, (relation, takes)),
                Some((table, taken)) => {
                    let overlaps = list.set_intersects(taken, takes);
                    let table = list.relation_union(table, relation);
                    (Some(overlaps), (table, list.set_union(taken, takes)))
                }
            };
            rules.push(Rule { relation, overlaps });
            before = Some(joined);
        }
        let (relation, taken) = before?;
        let others = list.set_complement(taken);
        let every_header = list.set_is_zero(others);
        Some(Table { list, rules, relation, every_header })
    }

    /// Runs the list and prints the answers: whether each header has exactly one rule. The first refusal is given; those after it may come
    /// of it.
    fn run(&mut self, k: u32) -> Result<bool, JobRefusal> {
        let (relations, sets) =
            (&mut vec![0; relations_len(PLACES)], &mut vec![0; sets_len(PLACES)]);
        let work = &mut vec![0; WORK_LEN];
        new(relations, sets, work, k)?;
        while self.list.run(relations, sets, work, AT_A_TIME)?.jobs == AT_A_TIME {}
        for answer in self.list.answers() {
            if let Answer::Refused(refusal) = answer {
                return Err(refusal);
            }
        }
        let mut sound = self.says(self.every_header);
        for (number, rule) in self.rules.iter().enumerate() {
            let overlaps = rule.overlaps.is_some_and(|job| self.says(job));
            sound &= !overlaps;
            let also = if overlaps { ", takes headers of earlier rules" } else { "" };
            println!("rule {}: handle {}{also}", number + 1, self.handle(rule.relation));
        }
        let headers = if self.says(self.every_header) {
            "every header has a rule"
        } else {
            "some headers have no rule"
        };
        println!("table: handle {}, {headers}", self.handle(self.relation));
        Ok(sound)
    }

    fn says(&self, job: TruthJob) -> bool {
        self.list.answer(job) == Answer::Truth(true)
    }

    fn handle(&self, job: RelationJob) -> u32 {
        match self.list.answer(job) {
            Answer::Relation(handle) => handle,
            other => panic!("no refused job is left, but {other:?}"),
        }
    }
}

/// Adds the jobs of a rule's items, one after the other: the last has its relation.
fn rule(text: &str, list: &mut JobList) -> Option<RelationJob> {
    let mut relation = None;
    for text in text.split(';') {
        let item = item(text, list)?;
        relation = Some(match relation {
            None => item,
            Some(before) => list.relation_sequence(before, item),
        });
    }
    relation
}

/// Adds the job of a test or an assignment.
fn item(text: &str, list: &mut JobList) -> Option<RelationJob> {
    let (field, value) = text.strip_prefix('x')?.split_once('=')?;
    let value: u32 = value.parse().ok()?;
    match field.strip_suffix(':') {
        Some(field) => Some(list.relation_assign(field.parse::<u32>().ok()?, value)),
        None => Some(list.relation_test(field.parse::<u32>().ok()?, value)),
    }
}
