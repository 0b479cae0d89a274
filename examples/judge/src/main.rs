//! Judges two relay tables, policy texts of packets with k fields: do they relate the same packets? Of four fields, the same
//! table for all but the test frames, which have 1 in fields 2 and 3, written by difference and by negation:
//!
//! ```text
//! judge 4 '(x0=0;x1:=1+x0=1;x1:=0)-x2=1;x3=1;T' '(!x2=1+!x3=1);(x0=0;x1:=1+x0=1;x1:=0)'
//! ```
//!
//! prints `equal`.

use packet_store::{new, policy, relations_len, sets_len, PolicyRefusal, WORK_LEN};
use std::process::ExitCode;

const PLACES: usize = 4096;

fn main() -> ExitCode {
    let words: Vec<String> = std::env::args().skip(1).collect();
    let numbered = |k: &String| k.parse().ok();
    let (Some(k), [_, one, other]) = (words.first().and_then(numbered), &words[..]) else {
        eprintln!("usage: judge K TABLE TABLE");
        return ExitCode::from(2);
    };
    match equal(k, one, other) {
        Ok(true) => {
            println!("equal");
            ExitCode::SUCCESS
        }
        Ok(false) => {
            println!("different");
            ExitCode::FAILURE
        }
        Err(refusal) => {
            println!("refused: {refusal}");
            ExitCode::from(2)
        }
    }
}

/// Whether two tables have one handle; a refused `new` is a refusal too.
fn equal(k: u32, one: &str, other: &str) -> Result<bool, PolicyRefusal> {
    let (mut relations, mut sets) = (vec![0; relations_len(PLACES)], vec![0; sets_len(PLACES)]);
    // strangers write the tables: four times the recommended working memory
    let mut work = vec![0; 4 * WORK_LEN];
    new(&mut relations, &mut sets, &mut work, k)?;
    let mut judge = |table: &str| policy(&mut relations, &sets, &mut work, table.as_bytes());
    Ok(judge(one)?.handle == judge(other)?.handle)
}
