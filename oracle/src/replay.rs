//! Runs a list of calls, one a line, and writes a line for each.

use crate::call::Call;
use crate::store::Store;
use std::io::{self, BufRead, Write};

/// Each line written is the answer, then the counts of relation nodes and set nodes.
pub fn replay(input: impl BufRead, mut output: impl Write) -> io::Result<()> {
    let mut store = empty_store();
    for (number, line) in input.lines().enumerate() {
        let call: Call = line?.parse().map_err(|fault: String| {
            let message = format!("line {}: {fault}", number + 1);
            io::Error::new(io::ErrorKind::InvalidData, message)
        })?;
        let answer = call.make(&mut store);
        let (relations, sets) = store.counts();
        writeln!(output, "{answer} {relations} {sets}")?;
    }
    output.flush()
}

/// The store before the first `new`: no fields, no places.
pub fn empty_store() -> Store {
    Store::new(0, 0, 0).expect("no fields need no places")
}
