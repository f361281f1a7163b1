//! Numbers of signers, keys and rounds. Signers and keys both have 32 bits, and neither is taken for the other.

use std::fmt;

/// A signer's number.
///
/// ```compile_fail,E0308
/// use roundcabinet::{KeyId, Signer};
/// let wrong = Signer::new(KeyId(0), []); // a key's number where a signer's is wanted
/// ```
#[derive(Clone, Copy, Debug, PartialEq, Eq, PartialOrd, Ord, Hash)]
pub struct SignerId(pub u32);

/// A key's number.
#[derive(Clone, Copy, Debug, PartialEq, Eq, PartialOrd, Ord, Hash)]
pub struct KeyId(pub u32);

/// What a packet says of the round that it belongs to.
#[derive(Clone, Copy, Debug, Default, PartialEq, Eq, Hash)]
pub struct RoundIds {
    /// The key generation whose keys sign.
    pub dkg_id: u64,
    /// The signing round.
    pub sign_id: u64,
    /// The try within that round: a retry has one more than the last.
    pub iteration: u64,
}

impl fmt::Display for SignerId {
    fn fmt(&self, f: &mut fmt::Formatter<'_>) -> fmt::Result {
        self.0.fmt(f)
    }
}

impl fmt::Display for KeyId {
    fn fmt(&self, f: &mut fmt::Formatter<'_>) -> fmt::Result {
        self.0.fmt(f)
    }
}
