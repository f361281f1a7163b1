//! Signature types: what a round is asked to make, and what it made.

/// What sort of signature a round makes. A Taproot root is part of it: two roots are two types.
#[derive(Clone, Copy, Debug, PartialEq, Eq, Hash)]
pub enum SignatureType {
    /// FROST's own signature.
    Frost,
    /// A Schnorr signature (BIP 340).
    Schnorr,
    /// A Taproot signature, the key tweaked with no root.
    Taproot,
    /// A Taproot signature, the key tweaked with this root.
    TaprootRoot([u8; 32]),
}

/// What sort of signature a round has made.
#[derive(Clone, Copy, Debug, PartialEq, Eq, Hash)]
pub enum SignatureKind {
    /// FROST's own signature.
    Frost,
    /// A Schnorr signature.
    Schnorr,
    /// A Taproot signature, with a root or without.
    Taproot,
}

impl SignatureType {
    /// What kind of signature a round of this type ends with.
    ///
    /// ```
    /// use roundcabinet::{SignatureKind, SignatureType};
    /// assert_eq!(SignatureType::TaprootRoot([7; 32]).kind(), SignatureKind::Taproot);
    /// ```
    pub fn kind(self) -> SignatureKind {
        match self {
            SignatureType::Frost => SignatureKind::Frost,
            SignatureType::Schnorr => SignatureKind::Schnorr,
            SignatureType::Taproot | SignatureType::TaprootRoot(_) => SignatureKind::Taproot,
        }
    }

    /// The type's byte in a packet.
    pub(crate) fn byte(self) -> u8 {
        match self {
            SignatureType::Frost => 0,
            SignatureType::Schnorr => 1,
            SignatureType::Taproot => 2,
            SignatureType::TaprootRoot(_) => 3,
        }
    }

    /// The root, of no bytes where the type has none.
    pub(crate) fn root(&self) -> &[u8] {
        match self {
            SignatureType::TaprootRoot(root) => root,
            _ => &[],
        }
    }

    /// The type that a byte and the root beside it say.
    pub(crate) fn of(byte: u8, root: &[u8]) -> Option<SignatureType> {
        match byte {
            0 => Some(SignatureType::Frost),
            1 => Some(SignatureType::Schnorr),
            2 => Some(SignatureType::Taproot),
            3 => Some(SignatureType::TaprootRoot(root.try_into().ok()?)),
            _ => None,
        }
    }
}

impl SignatureKind {
    pub(crate) fn of(number: u64) -> Option<SignatureKind> {
        match number {
            0 => Some(SignatureKind::Frost),
            1 => Some(SignatureKind::Schnorr),
            2 => Some(SignatureKind::Taproot),
            _ => None,
        }
    }
}
