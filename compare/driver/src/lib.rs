//! fire.rs of wsts, compiled unchanged, and libroundcabinet.a, called through C: the same calls on
//! both, compared after each.
//!
//! "01" in comments is the paper that the library is built from; its refusal numbers and packet
//! kinds are used as they are.

// fire.rs's own error is that large.
#![allow(clippy::result_large_err)]

pub mod arrivals;
pub mod bench;
pub mod both;
pub mod buffers;
pub mod c;
pub mod calls;
pub mod clock;
pub mod faults;
pub mod fields;
pub mod fire;
pub mod fire_answers;
pub mod fire_fields;
pub mod generate;
pub mod library;
pub mod library_fields;
pub mod mark;
pub mod packet;
pub mod parse;
pub mod places;
pub mod probes;
pub mod reached;
pub mod responses;
pub mod rng;
pub mod same;
pub mod saved;
pub mod shrink;
pub mod signature_type;
pub mod states;
pub mod text;
pub mod view;
