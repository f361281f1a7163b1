//! Packets of a host's own, written by the library: kinds 1, 3, 5 to 7 and 32 to 35. A coordinator's calls write what it sends by
//! themselves, and need none of this.
//!
//! Each function gives the packet, or is refused with 9 where a message or a list is over 01's limits. The questions that are asked of
//! a buffer (7) and of a type's number (8) are always answered yes here. What a signer sends (kinds 2 and 4) is written by
//! [`signer`](crate::signer).
//!
//! ```
//! use roundcabinet::{write, Contents, NonceRequest, Refusal, RoundIds, SignatureType, SignerId};
//! let ids = RoundIds { dkg_id: 7, sign_id: 1, iteration: 1 };
//! let packet = write::nonce_request(write::Head { ids, signature_type: SignatureType::Schnorr, message: b"pay" })?;
//! assert_eq!(NonceRequest::read(&packet)?.message, b"pay");
//!
//! let packet = write::dkg_signer(SignerId(3), 7)?;
//! assert_eq!(Contents::read(&packet)?, Contents::DkgSigner { dkg_id: 7, signer: SignerId(3) });
//! # Ok::<(), Refusal>(())
//! ```

use crate::contents::NonceResponse;
use crate::ffi::{
    self, RcArrival, RcArrivals, RcHead, RcJobPlace, RcJobPlaces, RcPlace, RcResponse, RcResponses, RcSignerIds,
    RcWritten,
};
use crate::ids::{KeyId, RoundIds, SignerId};
use crate::limits::ANSWER_LENGTH;
use crate::lists::{key_bytes, nonce_bytes, share_front, Arrival, Nonce, Share};
use crate::refusal::Refusal;
use crate::signature::SignatureType;

/// What a request and a job both say.
#[derive(Clone, Copy, Debug, PartialEq, Eq)]
pub struct Head<'a> {
    /// The round.
    pub ids: RoundIds,
    /// The signature type, its root with it.
    pub signature_type: SignatureType,
    /// The message to be signed: at most 256 bytes.
    pub message: &'a [u8],
}

/// A signer's part of a job: at most 16 key ids, 16 nonces, and 16 shares with 16 key ids in all.
#[derive(Clone, Copy, Debug, PartialEq, Eq)]
pub struct JobPart<'a> {
    /// The signer's keys.
    pub key_ids: &'a [KeyId],
    /// Its nonces.
    pub nonces: &'a [Nonce],
    /// Its shares; none where none are held.
    pub shares: &'a [Share],
}

/// Kind 1: asks for nonces.
///
/// ```
/// use roundcabinet::{write, NonceRequest, Refusal, RoundIds, SignatureType};
/// let (ids, signature_type) = (RoundIds { dkg_id: 7, sign_id: 2, iteration: 3 }, SignatureType::TaprootRoot([9; 32]));
/// let packet = write::nonce_request(write::Head { ids, signature_type, message: b"pay" })?;
/// assert_eq!(NonceRequest::read(&packet)?, NonceRequest { ids, signature_type, message: b"pay".to_vec() });
///
/// let too_long = write::nonce_request(write::Head { ids, signature_type, message: &[0; 257] });
/// assert_eq!(too_long, Err(Refusal::Limit));
/// # Ok::<(), Refusal>(())
/// ```
pub fn nonce_request(head: Head<'_>) -> Result<Vec<u8>, Refusal> {
    written(|out| ffi::write_nonce_request(out, head.plain(), head.message))
}

/// Kind 3: asks for shares, with at most ten responses nested, in the order given. A coordinator's are ascending by signer.
///
/// ```
/// use roundcabinet::{write, KeyId, Nonce, NonceResponse, Refusal, RoundIds, ShareRequest, SignatureType, SignerId};
/// let ids = RoundIds { dkg_id: 7, sign_id: 1, iteration: 1 };
/// let response = NonceResponse {
///     ids,
///     signer: SignerId(4),
///     message: b"pay".to_vec(),
///     key_ids: vec![KeyId(2)],
///     nonces: vec![Nonce { d: [2; 33], e: [3; 33] }],
/// };
/// let head = write::Head { ids, signature_type: SignatureType::Frost, message: b"pay" };
/// let packet = write::share_request(head, &[response.clone()])?;
/// assert_eq!(ShareRequest::read(&packet)?.responses, [response]);
/// # Ok::<(), Refusal>(())
/// ```
pub fn share_request(head: Head<'_>, responses: &[NonceResponse]) -> Result<Vec<u8>, Refusal> {
    let mut source = Source::default();
    let mut given = RcResponses { count: responses.len() as u64, ..Default::default() };
    for (place, response) in given.places.iter_mut().zip(responses) {
        *place = source.response(response);
    }
    written(|out| ffi::write_signature_share_request(out, head.plain(), head.message, &source.0, given))
}

/// Kind 32: a job for the aggregator, of at most ten signers. Give them in ascending order of their ids, as a coordinator does; the
/// lists are joined in the order given.
///
/// ```
/// use roundcabinet::{write, Job, KeyId, Nonce, Refusal, RoundIds, Share, SignatureType};
/// let head = write::Head { ids: RoundIds::default(), signature_type: SignatureType::Taproot, message: b"pay" };
/// let (nonce, share) = (Nonce { d: [2; 33], e: [3; 33] }, Share { id: 1, z_i: [9; 32], key_ids: vec![KeyId(5)] });
/// let packet = write::job(head, &[
///     write::JobPart { key_ids: &[KeyId(5)], nonces: &[nonce], shares: &[share.clone()] },
///     write::JobPart { key_ids: &[KeyId(8), KeyId(6)], nonces: &[nonce, nonce], shares: &[] },
/// ])?;
/// let job = Job::read(&packet)?;
/// assert_eq!((job.key_ids, job.shares), (vec![KeyId(5), KeyId(8), KeyId(6)], vec![share]));
/// # Ok::<(), Refusal>(())
/// ```
pub fn job(head: Head<'_>, signers: &[JobPart<'_>]) -> Result<Vec<u8>, Refusal> {
    let mut source = Source::default();
    let mut given = RcJobPlaces { count: signers.len() as u64, ..Default::default() };
    for (place, part) in given.places.iter_mut().zip(signers) {
        *place = source.job_part(part);
    }
    written(|out| ffi::write_job(out, head.plain(), head.message, &source.0, given))
}

/// Kind 5: key generation begins.
///
/// ```
/// use roundcabinet::{write, Contents, Refusal};
/// assert_eq!(Contents::read(&write::dkg_begin(7)?)?, Contents::DkgBegin { dkg_id: 7 });
/// # Ok::<(), Refusal>(())
/// ```
pub fn dkg_begin(dkg_id: u64) -> Result<Vec<u8>, Refusal> {
    written(|out| ffi::write_dkg_begin(out, dkg_id))
}

/// Kind 6: another message of key generation, a signer's.
///
/// ```
/// use roundcabinet::{write, Contents, Refusal, SignerId};
/// let signer = SignerId(3);
/// assert_eq!(Contents::read(&write::dkg_signer(signer, 7)?)?, Contents::DkgSigner { dkg_id: 7, signer });
/// # Ok::<(), Refusal>(())
/// ```
pub fn dkg_signer(signer: SignerId, dkg_id: u64) -> Result<Vec<u8>, Refusal> {
    written(|out| ffi::write_dkg_signer(out, signer.0, dkg_id))
}

/// Kind 7: another message of key generation, a coordinator's.
///
/// ```
/// use roundcabinet::{write, Contents, Refusal};
/// assert_eq!(Contents::read(&write::dkg_coordinator(7)?)?, Contents::DkgCoordinator { dkg_id: 7 });
/// # Ok::<(), Refusal>(())
/// ```
pub fn dkg_coordinator(dkg_id: u64) -> Result<Vec<u8>, Refusal> {
    written(|out| ffi::write_dkg_coordinator(out, dkg_id))
}

/// Kind 33: nonces were late. At most ten signers in each list, in the order given.
///
/// ```
/// use roundcabinet::{write, Outgoing, Refusal, SignerId};
/// let packet = write::nonce_timeout(&[SignerId(1), SignerId(4)], &[SignerId(2)])?;
/// let (waiters, malicious) = (vec![SignerId(1), SignerId(4)], vec![SignerId(2)]);
/// assert_eq!(Outgoing::read(&packet)?, Outgoing::NonceTimeout { waiters, malicious });
/// # Ok::<(), Refusal>(())
/// ```
pub fn nonce_timeout(waiters: &[SignerId], malicious: &[SignerId]) -> Result<Vec<u8>, Refusal> {
    written(|out| ffi::write_nonce_timeout(out, signer_ids(waiters), signer_ids(malicious)))
}

/// Kind 34: shares were late, and too few keys are left. At most ten signers, in the order given.
///
/// ```
/// use roundcabinet::{write, Outgoing, Refusal, SignerId};
/// let packet = write::insufficient_signers(&[SignerId(2)])?;
/// assert_eq!(Outgoing::read(&packet)?, Outgoing::InsufficientSigners { malicious: vec![SignerId(2)] });
/// assert_eq!(write::insufficient_signers(&[SignerId(2); 11]), Err(Refusal::Limit));
/// # Ok::<(), Refusal>(())
/// ```
pub fn insufficient_signers(malicious: &[SignerId]) -> Result<Vec<u8>, Refusal> {
    written(|out| ffi::write_insufficient_signers(out, signer_ids(malicious)))
}

/// Kind 35: who has answered, and when. At most ten signers, in the order given. A coordinator's are ascending by signer.
///
/// ```
/// use roundcabinet::{write, Arrival, Outgoing, Refusal, SignerId};
/// let arrivals = [Arrival { signer: SignerId(1), clock: 103 }, Arrival { signer: SignerId(4), clock: 101 }];
/// let packet = write::arrivals(&arrivals)?;
/// assert_eq!(Outgoing::read(&packet)?, Outgoing::Arrivals(arrivals.to_vec()));
/// assert_eq!(write::arrivals(&[arrivals[0]; 11]), Err(Refusal::Limit));
/// # Ok::<(), Refusal>(())
/// ```
pub fn arrivals(arrivals: &[Arrival]) -> Result<Vec<u8>, Refusal> {
    let mut given = RcArrivals { count: arrivals.len() as u64, ..Default::default() };
    for (place, arrival) in given.arrivals.iter_mut().zip(arrivals) {
        *place = RcArrival { signer_id: arrival.signer.0, reserved: 0, clock: arrival.clock };
    }
    written(|out| ffi::write_arrivals(out, given))
}

/// What a writer leaves in a buffer that is long enough for any packet.
fn written(write: impl FnOnce(&mut [u8]) -> RcWritten) -> Result<Vec<u8>, Refusal> {
    let mut out = vec![0; ANSWER_LENGTH];
    let length = length(write(&mut out))?;
    out.truncate(length);
    Ok(out)
}

/// The length of the packet that a writer says it wrote, which is no longer than the buffer.
pub(crate) fn length(written: RcWritten) -> Result<usize, Refusal> {
    match written.refusal {
        0 => Ok(written.length as usize),
        number => Err(Refusal::of_number(number).unwrap_or(Refusal::Other { class: ffi::ERROR, number })),
    }
}

impl Head<'_> {
    fn plain(self) -> RcHead {
        let root = match self.signature_type {
            SignatureType::TaprootRoot(root) => root,
            _ => [0; 32],
        };
        RcHead {
            dkg_id: self.ids.dkg_id,
            sign_id: self.ids.sign_id,
            sign_iter_id: self.ids.iteration,
            signature_type: self.signature_type.byte(),
            reserved: [0; 7],
            root,
        }
    }
}

/// Signers that have no place are counted all the same, and refused for that.
fn signer_ids(signers: &[SignerId]) -> RcSignerIds {
    let mut given = RcSignerIds { count: signers.len() as u64, ..Default::default() };
    for (place, signer) in given.ids.iter_mut().zip(signers) {
        *place = signer.0;
    }
    given
}

/// The bytes that a writer is lent: lists, one behind the other.
#[derive(Default)]
struct Source(Vec<u8>);

impl Source {
    /// Lays a list of so many entries, and says where it lies.
    fn lay(&mut self, list: &[u8], count: usize) -> RcPlace {
        let at = self.0.len() as u64;
        self.0.extend(list);
        RcPlace { at, count: count as u64 }
    }

    fn response(&mut self, response: &NonceResponse) -> RcResponse {
        RcResponse {
            dkg_id: response.ids.dkg_id,
            sign_id: response.ids.sign_id,
            sign_iter_id: response.ids.iteration,
            signer_id: response.signer.0,
            reserved: 0,
            message: self.lay(&response.message, response.message.len()),
            key_ids: self.lay(&key_bytes(&response.key_ids), response.key_ids.len()),
            nonces: self.lay(&nonce_bytes(&response.nonces), response.nonces.len()),
        }
    }

    fn job_part(&mut self, part: &JobPart<'_>) -> RcJobPlace {
        let fronts: Vec<u8> = part.shares.iter().flat_map(share_front).collect();
        let keys: Vec<KeyId> = part.shares.iter().flat_map(|share| &share.key_ids).copied().collect();
        RcJobPlace {
            key_ids: self.lay(&key_bytes(part.key_ids), part.key_ids.len()),
            nonces: self.lay(&nonce_bytes(part.nonces), part.nonces.len()),
            shares: self.lay(&fronts, part.shares.len()),
            share_keys_at: self.lay(&key_bytes(&keys), keys.len()).at,
            share_key_counts: key_counts(part.shares),
        }
    }
}

/// The keys of each share. A 17th share has no count, and is refused for its own; more keys than a byte counts are over the limit
/// in any case.
fn key_counts<const N: usize>(shares: &[Share]) -> [u8; N] {
    let count = |share: &Share| u8::try_from(share.key_ids.len()).unwrap_or(u8::MAX);
    std::array::from_fn(|i| shares.get(i).map_or(0, count))
}
