//! Where a text that the grammar refuses goes wrong, by which of its beginnings can be gone on with.

use super::{grammar, MOST_NESTING};
use crate::answer::{Answer, Fault};

/// Ends of an item, at least one for each place in it where a text may stop.
const ENDS: [&str; 4] = ["", "0", "=0", "0=0"];

/// The fault of a text that is no policy. Up to its offset the text can be gone on with; one byte further it can
/// only be if atoms may nest deeper, which is 9, or not at all, which is 7.
pub fn fault(text: &[u8]) -> Answer {
    let lengths: Vec<usize> = (1..=text.len()).collect();
    // A beginning of what can be gone on with can be gone on with too.
    let at = lengths.partition_point(|&len| goes_on(&text[..len], MOST_NESTING));
    let deeper = at < text.len() && goes_on(&text[..at + 1], MOST_NESTING + 1);
    Answer::RefusedAt(if deeper { Fault::TooDeep } else { Fault::NotPolicy }, at)
}

/// Whether some policy begins so: an item is ended and all parentheses are closed.
fn goes_on(text: &[u8], deepest: usize) -> bool {
    let count = |byte| text.iter().filter(|&&other| other == byte).count();
    let open = count(b'(').saturating_sub(count(b')'));
    ENDS.iter().any(|end| {
        let whole = [text, end.as_bytes(), &vec![b')'; open]].concat();
        grammar::policy(&whole, deepest).is_some()
    })
}
