//! Texts damaged at each byte: every answer, and both memories after each.

use crate::case::{Case, Difference};
use crate::lent::{Guard, WorkLengths};
use crate::library::Asked;
use crate::lists::{policy, Counts};
use crate::memory::lengths;
use oracle::draw::texts::small;
use oracle::random::Random;
use oracle::store::Store;

/// The fields of the stores in turn, each with as many places to spare.
const STORES: [(u32, u32); 6] = [(0, 0), (1, 40), (2, 600), (3, 12), (12, 4096), (32, 900)];

/// Longer texts are passed over.
const MOST_BYTES: usize = 60;

/// Draws this many texts and judges each, then all that one byte changes, removes or adds.
pub fn compare(seed: u64, count: usize) -> Result<String, Difference> {
    let mut counts = Counts::default();
    let mut random = Random::new(seed);
    let mut noise = Random::new(!seed);
    let mut work = WorkLengths::new();
    for number in 0..count {
        let (fields, spare) = STORES[number % STORES.len()];
        let places = (3 * fields + spare, fields);
        let mut store = Store::new(fields, places.0, places.1).expect("places for new");
        let lengths = lengths(places.0 as usize, places.1 as usize, (3, 1));
        let mut case = Case::noise(lengths, Guard::Words, &mut noise);
        case.encode(&store);
        counts.stores += 1;
        let text = std::iter::repeat_with(|| small(fields, &mut random))
            .find(|text| text.len() <= MOST_BYTES)
            .expect("an endless list");
        for damaged in damages(&text, &mut random) {
            case.work = work.next(fields, true);
            let made = policy(&damaged, &mut store, &mut case, &mut counts, &mut noise);
            made.map_err(|what| {
                let context = format!("seed {seed}, text {}, store of {fields} fields", number + 1);
                Difference { context, call: Asked::Policy(&damaged).to_string(), what }
            })?;
        }
    }
    Ok(counts.summary(seed))
}

/// The text, and at each of its offsets: cut there, the byte left out, each byte of a policy and any other in its place and
/// before it.
fn damages(text: &[u8], random: &mut Random) -> Vec<Vec<u8>> {
    let mut all = vec![text.to_vec()];
    for at in 0..=text.len() {
        let (before, after) = text.split_at(at);
        all.push(before.to_vec());
        all.push([before, &after[after.len().min(1)..]].concat());
        for &byte in b"012Tx=:+&-^;*!()".iter().chain(&[random.bits() as u8]) {
            all.push([before, &[byte], after].concat());
            all.push([before, &[byte], &after[after.len().min(1)..]].concat());
        }
    }
    all
}
