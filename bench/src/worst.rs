//! The texts on which the proved store was slowest beside the Rust, of those that a search found.

use crate::rounds::{least, rounds, Round, Text, OURS, RUST};
use crate::rows::{self, WORKS};

const FIELDS: u32 = 32;
const TEXTS: &str = include_str!("../worst-texts.txt");
const ROUNDS: usize = 41;

/// The least times of each text.
pub fn table() -> String {
    let texts: Vec<Text> = TEXTS.lines().map(|text| Text::new(FIELDS, text.into())).collect();
    let times = WORKS.map(|work| {
        let rounds: Vec<Round> = rounds(&texts, FIELDS, work, ROUNDS).collect();
        [OURS, RUST].map(|side| least(&rounds, side))
    });
    let mut table = rows::head("k = 32, the worst texts: least times, ms");
    for (number, text) in texts.iter().enumerate() {
        let rust = times.iter().map(|[_, rust]| rust[number] / 1e6).fold(f64::INFINITY, f64::min);
        let cells = times.each_ref().map(|[ours, _]| rows::cell(ours[number] / 1e6, rust));
        table += &rows::row(&format!("text {}", number + 1), text.nodes, rust, &cells);
    }
    table
}
