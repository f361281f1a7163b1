//! The published files of wsts (net.rs, taproot.rs, state_machine/mod.rs,
//! state_machine/coordinator/mod.rs and fire.rs), compiled unchanged, over stand-ins for the
//! files that are not at hand. The stand-ins hold no cryptography: points and scalars are
//! opaque bytes, and the caller decides what signatures and the aggregator say (see `harness`).
#![allow(dead_code, unused_variables, unexpected_cfgs, clippy::all)]

pub mod common;
pub mod compute;
pub mod curve;
pub mod errors;
pub mod harness;
pub mod schnorr;
pub mod traits;
pub mod util;

include!(concat!(env!("OUT_DIR"), "/published.rs"));
