//! Where the fields of a saved state stand. The constants are the library's own, from the file that
//! its save and load are proved with (build.rs takes it over), so that no place is typed a second time here.

/// 01's limits, as crates/layout names them. A test holds them, and the length of a state that
/// follows from them, to the header.
pub mod layout {
    pub use crate::packet::{LIST_LIMIT, MESSAGE_LIMIT};

    pub const SIGNER_LIMIT: usize = 10;
    pub const RECORD_LIMIT: usize = 4;
    pub const ROOT_LENGTH: usize = 32;
}

include!(concat!(env!("OUT_DIR"), "/places.rs"));
