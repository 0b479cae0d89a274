//! The reference Rust run as document 01's store, to compare other stores with.

pub mod answer;
pub mod call;
pub mod check;
pub mod draw;
mod first_path;
pub mod jobs;
pub mod next_member;
pub mod operations;
pub mod packet;
pub mod policy;
pub mod random;
pub mod replay;
pub mod store;
