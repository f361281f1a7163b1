//! What packets of kinds 1 to 7 say, typed. The library reads the packet; the lists in its parts are split here.

use crate::ids::{KeyId, RoundIds, SignerId};
use crate::lists::{self, Nonce, Share};
use crate::packet::{Kind, Packet};
use crate::refusal::Refusal;
use crate::signature::SignatureType;

/// Kind 1: a coordinator asks for nonces.
#[derive(Clone, Debug, PartialEq, Eq)]
pub struct NonceRequest {
    /// The round.
    pub ids: RoundIds,
    /// The signature type, its root with it.
    pub signature_type: SignatureType,
    /// The message to be signed.
    pub message: Vec<u8>,
}

/// Kind 2: a signer sends nonces.
#[derive(Clone, Debug, PartialEq, Eq)]
pub struct NonceResponse {
    /// The round.
    pub ids: RoundIds,
    /// Who sends it.
    pub signer: SignerId,
    /// The message that it answers.
    pub message: Vec<u8>,
    /// The keys that it signs with.
    pub key_ids: Vec<KeyId>,
    /// Its nonces.
    pub nonces: Vec<Nonce>,
}

/// Kind 3: a coordinator asks for shares.
#[derive(Clone, Debug, PartialEq, Eq)]
pub struct ShareRequest {
    /// The round.
    pub ids: RoundIds,
    /// The signature type, its root with it.
    pub signature_type: SignatureType,
    /// The message to be signed.
    pub message: Vec<u8>,
    /// The responses that are signed with, ascending by signer, each as it was sent.
    pub responses: Vec<NonceResponse>,
}

/// Kind 4: a signer sends shares.
#[derive(Clone, Debug, PartialEq, Eq)]
pub struct ShareResponse {
    /// The round.
    pub ids: RoundIds,
    /// Who sends it.
    pub signer: SignerId,
    /// Its shares.
    pub shares: Vec<Share>,
}

/// What a packet says, whatever its kind.
///
/// ```
/// use roundcabinet::{Contents, Refusal};
/// let mut begin = [0; 32];
/// (begin[0], begin[8]) = (5, 9); // DkgBegin of key generation 9
/// assert_eq!(Contents::read(&begin)?, Contents::DkgBegin { dkg_id: 9 });
/// assert_eq!(Contents::read(b"no packet").unwrap_err(), Refusal::Layout);
/// # Ok::<(), Refusal>(())
/// ```
#[derive(Clone, Debug, PartialEq, Eq)]
pub enum Contents {
    /// Kind 1.
    NonceRequest(NonceRequest),
    /// Kind 2.
    NonceResponse(NonceResponse),
    /// Kind 3.
    ShareRequest(ShareRequest),
    /// Kind 4.
    ShareResponse(ShareResponse),
    /// Kind 5.
    DkgBegin {
        /// The key generation that begins.
        dkg_id: u64,
    },
    /// Kind 6.
    DkgSigner {
        /// The key generation.
        dkg_id: u64,
        /// Who sends it.
        signer: SignerId,
    },
    /// Kind 7.
    DkgCoordinator {
        /// The key generation.
        dkg_id: u64,
    },
}

impl Contents {
    /// Reads a packet and what it says. Refused with 8 or 9.
    pub fn read(bytes: &[u8]) -> Result<Contents, Refusal> {
        Contents::of(&Packet::read(bytes)?).ok_or(Refusal::Layout)
    }

    /// None of no packet that the library takes: it has found that every list has whole entries.
    fn of(packet: &Packet<'_>) -> Option<Contents> {
        let header = packet.header();
        let dkg_id = header.ids.dkg_id;
        Some(match header.kind {
            Kind::NonceRequest => Contents::NonceRequest(nonce_request(packet)?),
            Kind::NonceResponse => Contents::NonceResponse(nonce_response(packet)?),
            Kind::ShareRequest => Contents::ShareRequest(share_request(packet)?),
            Kind::ShareResponse => Contents::ShareResponse(share_response(packet)?),
            Kind::DkgBegin => Contents::DkgBegin { dkg_id },
            Kind::DkgSigner => Contents::DkgSigner { dkg_id, signer: header.signer },
            Kind::DkgCoordinator => Contents::DkgCoordinator { dkg_id },
        })
    }
}

fn nonce_request(packet: &Packet<'_>) -> Option<NonceRequest> {
    let header = packet.header();
    let message = packet.part(0)?.to_vec();
    Some(NonceRequest { ids: header.ids, signature_type: header.signature_type, message })
}

fn nonce_response(packet: &Packet<'_>) -> Option<NonceResponse> {
    Some(NonceResponse {
        ids: packet.header().ids,
        signer: packet.header().signer,
        message: packet.part(0)?.to_vec(),
        key_ids: lists::key_ids(packet.part(1)?)?,
        nonces: lists::nonces(packet.part(2)?)?,
    })
}

fn share_request(packet: &Packet<'_>) -> Option<ShareRequest> {
    let NonceRequest { ids, signature_type, message } = nonce_request(packet)?;
    let nested = |part| nonce_response(&Packet::read(part).ok()?);
    let responses = packet.parts().skip(2).map(nested).collect::<Option<_>>()?;
    Some(ShareRequest { ids, signature_type, message, responses })
}

fn share_response(packet: &Packet<'_>) -> Option<ShareResponse> {
    let shares = packet.parts().map(lists::share).collect::<Option<_>>()?;
    Some(ShareResponse { ids: packet.header().ids, signer: packet.header().signer, shares })
}

impl NonceRequest {
    /// Reads a packet of kind 1. Refused with 8 or 9; any other kind with 8.
    pub fn read(bytes: &[u8]) -> Result<NonceRequest, Refusal> {
        match Contents::read(bytes)? {
            Contents::NonceRequest(request) => Ok(request),
            _ => Err(Refusal::Layout),
        }
    }
}

impl NonceResponse {
    /// Whether its list names a key twice. The library records such a response, as fire.rs does, and a job that joins it is not whole. A
    /// host may leave it unheard: its signer is then late with its nonces, which leaves nobody out.
    pub fn names_key_twice(&self) -> bool {
        self.key_ids.iter().enumerate().any(|(i, key)| self.key_ids[..i].contains(key))
    }

    /// Reads a packet of kind 2. Refused with 8 or 9; any other kind with 8.
    pub fn read(bytes: &[u8]) -> Result<NonceResponse, Refusal> {
        match Contents::read(bytes)? {
            Contents::NonceResponse(response) => Ok(response),
            _ => Err(Refusal::Layout),
        }
    }
}

impl ShareRequest {
    /// The first key that is named twice, and who named it: one signer, whose own list names it twice, or two, whose key sets both
    /// have it. A job of this request will not be whole then.
    pub fn key_named_twice(&self) -> Option<(KeyId, SignerId, SignerId)> {
        let named: Vec<(KeyId, SignerId)> =
            self.responses.iter().flat_map(|r| r.key_ids.iter().map(|key| (*key, r.signer))).collect();
        let earlier = |(i, (key, second)): (usize, &(KeyId, SignerId))| {
            named[..i].iter().find(|(other, _)| other == key).map(|(_, first)| (*key, *first, *second))
        };
        named.iter().enumerate().find_map(earlier)
    }

    /// Reads a packet of kind 3. Refused with 8 or 9; any other kind with 8.
    pub fn read(bytes: &[u8]) -> Result<ShareRequest, Refusal> {
        match Contents::read(bytes)? {
            Contents::ShareRequest(request) => Ok(request),
            _ => Err(Refusal::Layout),
        }
    }
}

impl ShareResponse {
    /// Reads a packet of kind 4. Refused with 8 or 9; any other kind with 8.
    pub fn read(bytes: &[u8]) -> Result<ShareResponse, Refusal> {
        match Contents::read(bytes)? {
            Contents::ShareResponse(response) => Ok(response),
            _ => Err(Refusal::Layout),
        }
    }
}
