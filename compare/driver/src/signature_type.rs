//! Signature types by 01's codes.

use wsts::net::SignatureType;

/// A signature type as 01's code (0 Frost, 1 Schnorr, 2 Taproot, 3 Taproot with root) and the
/// root, which is zero unless the code is 3.
#[derive(Clone, Copy, Debug, Default, PartialEq, Eq)]
pub struct SigType {
    pub code: u8,
    pub root: [u8; 32],
}

impl SigType {
    /// The root is dropped where the code is not 3.
    pub fn new(code: u8, root: [u8; 32]) -> Self {
        assert!(code < 4);
        SigType { code, root: if code == 3 { root } else { [0; 32] } }
    }

    pub fn from_rust(t: SignatureType) -> Self {
        match t {
            SignatureType::Frost => SigType::new(0, [0; 32]),
            SignatureType::Schnorr => SigType::new(1, [0; 32]),
            SignatureType::Taproot(None) => SigType::new(2, [0; 32]),
            SignatureType::Taproot(Some(root)) => SigType::new(3, root),
        }
    }

    pub fn to_rust(self) -> SignatureType {
        match self.code {
            0 => SignatureType::Frost,
            1 => SignatureType::Schnorr,
            2 => SignatureType::Taproot(None),
            _ => SignatureType::Taproot(Some(self.root)),
        }
    }

    /// The root's part in a packet: 32 bytes for code 3, else none.
    pub fn root_part(&self) -> &[u8] {
        if self.code == 3 {
            &self.root
        } else {
            &[]
        }
    }
}
