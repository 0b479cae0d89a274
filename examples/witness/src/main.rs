//! Judges two relay tables, policy texts of packets with k fields, and where they differ shows a header that they treat
//! differently: the first pair that one of them relates and the other does not.

use packet_store::{
    new, policy, relation_first_path, relation_relates, relation_xor, relations_len, set_one,
    sets_len, PolicyRefusal, Refusal, WORK_LEN,
};
use std::process::ExitCode;

const PLACES: usize = 4096;

fn main() -> ExitCode {
    let words: Vec<String> = std::env::args().skip(1).collect();
    let numbered = |k: &String| k.parse().ok();
    let (Some(k), [_, one, other]) = (words.first().and_then(numbered), &words[..]) else {
        eprintln!("usage: witness K TABLE TABLE");
        return ExitCode::from(2);
    };
    match judge(k, one, other) {
        Ok(Verdict::Equal) => {
            println!("equal");
            ExitCode::SUCCESS
        }
        Ok(Verdict::Sends { by, input, output }) => {
            let [input, output] = [input, output].map(|packet| header(packet, k));
            println!("different: the {by} table alone sends {input} to {output}");
            ExitCode::FAILURE
        }
        Ok(Verdict::NoRoom) => {
            println!("different, with no places left to say where");
            ExitCode::FAILURE
        }
        Err(refusal) => {
            println!("refused: {refusal}");
            ExitCode::from(2)
        }
    }
}

enum Verdict {
    Equal,
    /// The first pair that one table alone relates.
    Sends {
        by: &'static str,
        input: u32,
        output: u32,
    },
    /// The tables differ, and the relation of the pairs where they do has no room.
    NoRoom,
}

/// Judges two tables; a refused `new` is a refusal too.
fn judge(k: u32, one: &str, other: &str) -> Result<Verdict, PolicyRefusal> {
    let (relations, sets) = (&mut vec![0; relations_len(PLACES)], &mut vec![0; sets_len(PLACES)]);
    // strangers write the tables: four times the recommended working memory
    let work = &mut vec![0; 4 * WORK_LEN];
    new(relations, sets, work, k)?;
    let one = policy(relations, sets, work, one.as_bytes())?.handle;
    let other = policy(relations, sets, work, other.as_bytes())?.handle;
    if one == other {
        return Ok(Verdict::Equal);
    }
    let differing = match relation_xor(relations, sets, work, one, other) {
        Err(Refusal::UsedUp) => return Ok(Verdict::NoRoom),
        answer => answer?.handle,
    };
    let all = set_one(relations, sets, work)?.handle;
    let pair = relation_first_path(relations, sets, work, all, differing, all)?;
    let (input, output) = pair.expect("two handles of one store differ somewhere");
    let by_one = relation_relates(relations, sets, work, one, input, output)?;
    Ok(Verdict::Sends { by: if by_one { "first" } else { "second" }, input, output })
}

/// A header's bits, field 0 first; a header of no fields is a dash.
fn header(packet: u32, k: u32) -> String {
    match k {
        0 => "-".into(),
        _ => (0..k).map(|field| if packet >> field & 1 == 1 { '1' } else { '0' }).collect(),
    }
}
