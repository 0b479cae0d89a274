//! The reference Rust, compiled unchanged from the folder that `build.rs` finds,
//! with an `access` module in each part for the private things the oracle needs.

pub mod expr;

// `expr` has only the variants that the reference names, so its last case is never reached.
#[allow(unreachable_patterns, clippy::all)]
pub mod sp {
    include!(concat!(env!("REFERENCE_FOLDER"), "/src/sp.rs"));

    #[warn(unreachable_patterns, clippy::all)]
    mod access;
}

#[allow(clippy::all)]
pub mod spp {
    include!(concat!(env!("REFERENCE_FOLDER"), "/src/spp.rs"));

    #[warn(clippy::all)]
    mod access;
}
