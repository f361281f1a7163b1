//! What a signer sends, written by the library: the nonce response (kind 2) and the share response (kind 4), from plain fields and lists.
//! A signer's program needs no coordinator for it.
//!
//! [`nonce_response`] and [`share_response`] write to the front of a lent buffer, which may be as short as the packet, and give the
//! packet's length; [`answer`] and [`share`] give the packet. They are refused with 9 where a message or a list is over 01's limits (256
//! bytes; 16 keys and 16 nonces; 16 shares with 16 keys in all), and then with 26 where the buffer is shorter than the packet. A refusal
//! writes nothing. Lists are written as they are given, empty ones and repeats too; no point and no key is checked.

use crate::contents::{NonceRequest, ShareRequest};
use crate::ffi::{self, RcResponseHead, Shares};
use crate::ids::{KeyId, RoundIds, SignerId};
use crate::limits::{NONCE_RESPONSE_LIMIT, SHARE_RESPONSE_LIMIT};
use crate::lists::{nonce_bytes, Nonce, Share};
use crate::refusal::Refusal;
use crate::write;

/// Who responds, and to which request.
#[derive(Clone, Copy, Debug, PartialEq, Eq)]
pub struct Head {
    /// The request's round.
    pub ids: RoundIds,
    /// Who responds.
    pub signer: SignerId,
}

/// A signer's answer to a nonce request: kind 2, with the request's ids and message.
///
/// ```
/// use roundcabinet::{signer, KeyId, Nonce, NonceRequest, NonceResponse, Refusal, RoundIds, SignatureType, SignerId};
/// let ids = RoundIds { dkg_id: 7, sign_id: 1, iteration: 1 };
/// let request = NonceRequest { ids, signature_type: SignatureType::Frost, message: b"pay".to_vec() };
/// let nonce = Nonce { d: [2; 33], e: [3; 33] };
/// let packet = signer::answer(&request, SignerId(4), &[KeyId(2)], &[nonce])?;
/// assert_eq!(NonceResponse::read(&packet)?.key_ids, [KeyId(2)]);
/// assert_eq!(signer::answer(&request, SignerId(4), &[KeyId(2); 17], &[nonce]), Err(Refusal::Limit));
/// # Ok::<(), Refusal>(())
/// ```
pub fn answer(request: &NonceRequest, signer: SignerId, keys: &[KeyId], nonces: &[Nonce]) -> Result<Vec<u8>, Refusal> {
    let mut out = vec![0; NONCE_RESPONSE_LIMIT];
    let length = nonce_response(&mut out, Head { ids: request.ids, signer }, &request.message, keys, nonces)?;
    out.truncate(length);
    Ok(out)
}

/// A signer's answer to a share request: kind 4, with the request's ids.
pub fn share(request: &ShareRequest, signer: SignerId, shares: &[Share]) -> Result<Vec<u8>, Refusal> {
    let mut out = vec![0; SHARE_RESPONSE_LIMIT];
    let length = share_response(&mut out, Head { ids: request.ids, signer }, shares)?;
    out.truncate(length);
    Ok(out)
}

/// Writes a packet of kind 2, of 56 bytes, the message, 4 for each key and 66 for each nonce.
///
/// ```
/// use roundcabinet::{signer, KeyId, Nonce, NonceResponse, Refusal, RoundIds, SignerId};
/// let head = signer::Head { ids: RoundIds { dkg_id: 7, sign_id: 1, iteration: 1 }, signer: SignerId(1) };
/// let (keys, nonces) = ([KeyId(2), KeyId(3)], [Nonce { d: [2; 33], e: [3; 33] }; 2]);
/// let mut out = [0; 197];
/// assert_eq!(signer::nonce_response(&mut out[..196], head, b"a", &keys, &nonces), Err(Refusal::Buffer));
/// assert_eq!(signer::nonce_response(&mut out, head, b"a", &keys, &nonces), Ok(197));
/// assert_eq!(NonceResponse::read(&out)?.key_ids, keys);
/// # Ok::<(), Refusal>(())
/// ```
pub fn nonce_response(
    out: &mut [u8],
    head: Head,
    message: &[u8],
    keys: &[KeyId],
    nonces: &[Nonce],
) -> Result<usize, Refusal> {
    write::length(ffi::write_nonce_response(out, head.plain(), message, &numbers(keys), &nonce_bytes(nonces)))
}

/// Writes a packet of kind 4, of 32 bytes, 44 for each share and 4 for each key.
///
/// ```
/// use roundcabinet::{signer, KeyId, Refusal, RoundIds, Share, ShareResponse, SignerId};
/// let head = signer::Head { ids: RoundIds { dkg_id: 7, sign_id: 1, iteration: 1 }, signer: SignerId(1) };
/// let shares = [Share { id: 1, z_i: [9; 32], key_ids: vec![KeyId(2), KeyId(3)] }];
/// let mut out = [0; 84];
/// assert_eq!(signer::share_response(&mut out, head, &shares), Ok(84));
/// assert_eq!(ShareResponse::read(&out)?.shares, shares);
/// # Ok::<(), Refusal>(())
/// ```
pub fn share_response(out: &mut [u8], head: Head, shares: &[Share]) -> Result<usize, Refusal> {
    let (mut ids, mut z_i, mut key_counts, mut key_ids) = (vec![], vec![], vec![], vec![]);
    for share in shares {
        ids.push(share.id);
        z_i.extend(share.z_i);
        // more keys than the count can say are over the limit in any case
        key_counts.push(u32::try_from(share.key_ids.len()).unwrap_or(u32::MAX));
        key_ids.extend(numbers(&share.key_ids));
    }
    let lists = Shares { ids: &ids, z_i: &z_i, key_counts: &key_counts, key_ids: &key_ids };
    write::length(ffi::write_signature_share_response(out, head.plain(), &lists))
}

fn numbers(keys: &[KeyId]) -> Vec<u32> {
    keys.iter().map(|key| key.0).collect()
}

impl Head {
    fn plain(self) -> RcResponseHead {
        RcResponseHead {
            dkg_id: self.ids.dkg_id,
            sign_id: self.ids.sign_id,
            sign_iter_id: self.ids.iteration,
            signer_id: self.signer.0,
            reserved: 0,
        }
    }
}
