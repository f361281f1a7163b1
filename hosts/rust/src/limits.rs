//! Lengths and limits: those of include/roundcabinet.h.

/// Bytes of a saved state.
pub const STATE_LENGTH: usize = 3520;
/// Bytes of a saved store.
pub const STORE_LENGTH: usize = 52_224;
/// Bytes of the largest packet, result or job: the length of the answer buffer.
pub const ANSWER_LENGTH: usize = 19_232;
/// Bytes of the longest message.
pub const MESSAGE_LIMIT: usize = 256;
/// Signers of the largest configuration.
pub const SIGNER_LIMIT: usize = 10;
/// Keys of the largest key set.
pub const KEY_LIMIT: usize = 16;
/// Bytes of the longest packet of kind 2.
pub const NONCE_RESPONSE_LIMIT: usize = 1432;
/// Bytes of the longest packet of kind 4.
pub const SHARE_RESPONSE_LIMIT: usize = 800;
/// The version of a saved state, in bytes 8 to 15 of it. A state of another version is refused with 4.
///
/// Version 1, of 3,200 bytes, is that of the releases before this one: once no round is in hand the coordinator has to be
/// commissioned anew, and the results taken again.
pub const STATE_VERSION: u32 = 2;

/// The version of the archive that is linked: 65536 for each major, 256 for each minor, 1 for each patch number.
///
/// ```
/// assert_eq!(roundcabinet::version(), 1024); // 0.4.0
/// ```
pub fn version() -> u32 {
    crate::ffi::version()
}
