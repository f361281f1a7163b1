//! 01's packet layout, to and from the structs of net.rs.

mod read;
mod write;

pub use read::{decode, fits, laid_out, parts, response_fits, u32_at, u64_at};
pub use write::{arrivals, encode, insufficient_signers, job, nonce_timeout, JobIds};

pub const MESSAGE_LIMIT: usize = 256;
pub const LIST_LIMIT: usize = 16;
pub const NESTED_LIMIT: usize = 10;

/// The fixed first 32 bytes, less the number of pairs.
#[derive(Clone, Copy, Default)]
pub struct Head {
    pub kind: u8,
    pub signature_type: u8,
    pub signer_id: u32,
    pub dkg_id: u64,
    pub sign_id: u64,
    pub sign_iter_id: u64,
}
