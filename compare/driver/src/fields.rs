//! The coordinator's signing fields as plain values: what a difference is printed from.

use std::collections::BTreeMap;

use crate::signature_type::SigType;

/// D and E, 33 bytes each.
pub type Nonce = [u8; 66];

#[derive(Clone, Debug, PartialEq, Eq)]
pub struct Share {
    pub id: u32,
    pub z_i: [u8; 32],
    pub key_ids: Vec<u32>,
}

/// A nonce response as recorded. It keeps its own ids, which can differ from the current ones.
#[derive(Clone, Debug, PartialEq, Eq)]
pub struct Response {
    pub signer_id: u32,
    pub dkg_id: u64,
    pub sign_id: u64,
    pub sign_iter_id: u64,
    pub key_ids: Vec<u32>,
    pub nonces: Vec<Nonce>,
}

/// What is held for one message, ascending.
#[derive(Clone, Debug, Default, PartialEq, Eq)]
pub struct Record {
    pub public_nonces: Vec<Response>,
    pub sign_wait_signer_ids: Vec<u32>,
    /// The library holds no such list: it is found from the responders' key sets.
    pub nonce_recv_key_ids: Vec<u32>,
}

#[derive(Clone, Debug, PartialEq, Eq)]
pub struct Fields {
    pub state: u8,
    pub signature_type: SigType,
    pub dkg_id: u64,
    pub sign_id: u64,
    pub sign_iter_id: u64,
    pub message: Vec<u8>,
    pub message_nonces: BTreeMap<Vec<u8>, Record>,
    pub signature_shares: BTreeMap<u32, Vec<Share>>,
    pub malicious_signer_ids: Vec<u32>,
    /// The signers in `dkg_end_messages`.
    pub dkg_end_signer_ids: Vec<u32>,
    pub nonce_start: Option<u64>,
    pub sign_start: Option<u64>,
    pub group_key: bool,
    pub coordinator_key: bool,
}
