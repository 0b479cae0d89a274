//! Tables with a line for each text or call: the Rust's time, and beside it ours with each working memory.

/// The working memories in bytes.
pub const WORKS: [usize; 3] = [64 << 10, 256 << 10, 1 << 20];

/// The title and the names of the columns.
pub fn head(title: &str) -> String {
    let works: String =
        WORKS.iter().map(|bytes| format!("{:>12} KiB   ratio", bytes >> 10)).collect();
    format!("{title}\n{:<12}{:>6}{:>12}{works}\n", "", "nodes", "Rust, ms")
}

/// A line with a cell for each working memory.
pub fn row(name: &str, nodes: u32, rust: f64, cells: &[String]) -> String {
    let cells: String = cells.iter().map(|cell| format!("{cell:>24}")).collect();
    format!("{name:<12}{nodes:>6}{rust:>12.2}{cells}\n")
}

/// Our time and its ratio to the Rust's.
pub fn cell(ours: f64, rust: f64) -> String {
    format!("{ours:.2}{:>8.2}", ours / rust)
}
