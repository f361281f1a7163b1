//! The lists in a packet's parts: key ids, signer ids, clock readings, nonces and shares, read from bytes and written to bytes.

use crate::ids::{KeyId, SignerId};

const POINT: usize = 33;
const NUMBER: usize = 4;
const CLOCK: usize = 8;

/// A signer's two nonce commitments for one key, as bytes. The library compares them with identity and generator, and nothing else: the
/// host vouches that other bytes are points.
#[derive(Clone, Copy, Debug, PartialEq, Eq, Hash)]
pub struct Nonce {
    /// The hiding commitment.
    pub d: [u8; 33],
    /// The binding commitment.
    pub e: [u8; 33],
}

/// One signature share, as bytes.
#[derive(Clone, Debug, PartialEq, Eq, Hash)]
pub struct Share {
    /// The share's own number. The library carries it and compares it with nothing.
    pub id: u32,
    /// The share's scalar.
    pub z_i: [u8; 32],
    /// The keys that it signs for.
    pub key_ids: Vec<KeyId>,
}

/// A signer that has answered the current message, and when.
#[derive(Clone, Copy, Debug, PartialEq, Eq, Hash)]
pub struct Arrival {
    /// Who answered.
    pub signer: SignerId,
    /// The clock reading of the call that recorded its response.
    pub clock: u64,
}

/// Whole entries of four bytes.
fn numbers(bytes: &[u8]) -> Option<Vec<u32>> {
    let whole = bytes.chunks_exact(NUMBER);
    whole.remainder().is_empty().then(|| whole.map(|n| u32::from_le_bytes([n[0], n[1], n[2], n[3]])).collect())
}

pub(crate) fn key_ids(bytes: &[u8]) -> Option<Vec<KeyId>> {
    Some(numbers(bytes)?.into_iter().map(KeyId).collect())
}

pub(crate) fn signer_ids(bytes: &[u8]) -> Option<Vec<SignerId>> {
    Some(numbers(bytes)?.into_iter().map(SignerId).collect())
}

/// Whole entries of eight bytes.
fn clocks(bytes: &[u8]) -> Option<Vec<u64>> {
    let whole = bytes.chunks_exact(CLOCK);
    if !whole.remainder().is_empty() {
        return None;
    }
    whole.map(|n| Some(u64::from_le_bytes(*n.first_chunk()?))).collect()
}

/// Signers, and a reading for each of them.
pub(crate) fn arrivals(signers: &[u8], readings: &[u8]) -> Option<Vec<Arrival>> {
    let (signers, clocks) = (signer_ids(signers)?, clocks(readings)?);
    let arrival = |(signer, clock)| Arrival { signer, clock };
    (signers.len() == clocks.len()).then(|| signers.into_iter().zip(clocks).map(arrival).collect())
}

pub(crate) fn nonces(bytes: &[u8]) -> Option<Vec<Nonce>> {
    let whole = bytes.chunks_exact(2 * POINT);
    if !whole.remainder().is_empty() {
        return None;
    }
    whole.map(|n| Some(Nonce { d: *n.first_chunk()?, e: *n.last_chunk()? })).collect()
}

pub(crate) fn share(bytes: &[u8]) -> Option<Share> {
    let (id, rest) = bytes.split_first_chunk()?;
    let (z_i, keys) = rest.split_first_chunk()?;
    Some(Share { id: u32::from_le_bytes(*id), z_i: *z_i, key_ids: key_ids(keys)? })
}

pub(crate) fn key_bytes(keys: &[KeyId]) -> Vec<u8> {
    keys.iter().flat_map(|key| key.0.to_le_bytes()).collect()
}

pub(crate) fn nonce_bytes(nonces: &[Nonce]) -> Vec<u8> {
    nonces.iter().flat_map(|nonce| [nonce.d, nonce.e].concat()).collect()
}

/// A share without its keys.
pub(crate) fn share_front(share: &Share) -> Vec<u8> {
    [&share.id.to_le_bytes()[..], &share.z_i].concat()
}
