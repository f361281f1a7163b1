//! Packets, read: questions 8 and 9.

use wsts::{
    common::{PublicNonce, SignatureShare},
    curve::{point::Point, scalar::Scalar},
    net::{
        DkgBegin, DkgEnd, DkgEndBegin, DkgStatus, Message, NonceRequest, NonceResponse,
        SignatureShareRequest, SignatureShareResponse,
    },
};

use super::{Head, LIST_LIMIT, MESSAGE_LIMIT, NESTED_LIMIT};
use crate::signature_type::SigType;

pub fn u32_at(b: &[u8], at: usize) -> u32 {
    u32::from_le_bytes(b[at..at + 4].try_into().unwrap())
}

pub fn u64_at(b: &[u8], at: usize) -> u64 {
    u64::from_le_bytes(b[at..at + 8].try_into().unwrap())
}

/// The parts of a packet whose pairs tile it.
pub fn parts(b: &[u8]) -> Option<Vec<&[u8]>> {
    if b.len() < 32 {
        return None;
    }
    let pairs = u16::from_le_bytes([b[2], b[3]]) as usize;
    let mut at = 32 + 8 * pairs;
    if b.len() < at {
        return None;
    }
    let mut parts = Vec::with_capacity(pairs);
    for i in 0..pairs {
        let offset = u32_at(b, 32 + 8 * i) as usize;
        let length = u32_at(b, 36 + 8 * i) as usize;
        if offset != at || b.len() - at < length {
            return None;
        }
        parts.push(&b[at..at + length]);
        at += length;
    }
    (at == b.len()).then_some(parts)
}

fn split(b: &[u8]) -> Option<(Head, Vec<&[u8]>)> {
    let parts = parts(b)?;
    let head = Head {
        kind: b[0],
        signature_type: b[1],
        signer_id: u32_at(b, 4),
        dkg_id: u64_at(b, 8),
        sign_id: u64_at(b, 16),
        sign_iter_id: u64_at(b, 24),
    };
    Some((head, parts))
}

fn id_list(b: &[u8]) -> Option<Vec<u32>> {
    let entries = b.chunks_exact(4);
    entries.remainder().is_empty().then(|| entries.map(|e| u32_at(e, 0)).collect())
}

fn nonce_from(bytes: &[u8]) -> PublicNonce {
    PublicNonce {
        D: Point(bytes[..33].try_into().unwrap()),
        E: Point(bytes[33..66].try_into().unwrap()),
    }
}

fn nonce_list(b: &[u8]) -> Option<Vec<PublicNonce>> {
    let entries = b.chunks_exact(66);
    entries.remainder().is_empty().then(|| entries.map(nonce_from).collect())
}

fn sig_type(head: &Head, root: &[u8]) -> Option<SigType> {
    match (head.signature_type, root.len()) {
        (0..=2, 0) => Some(SigType::new(head.signature_type, [0; 32])),
        (3, 32) => Some(SigType::new(3, root.try_into().unwrap())),
        _ => None,
    }
}

fn share(b: &[u8]) -> Option<SignatureShare> {
    (b.len() >= 36).then_some(())?;
    Some(SignatureShare {
        id: u32_at(b, 0),
        z_i: Scalar(b[4..36].try_into().unwrap()),
        key_ids: id_list(&b[36..])?,
    })
}

fn nonce_request(h: &Head, parts: &[&[u8]]) -> Option<Message> {
    let [message, root] = parts else {
        return None;
    };
    (h.signer_id == 0).then_some(())?;
    Some(Message::NonceRequest(NonceRequest {
        dkg_id: h.dkg_id,
        sign_id: h.sign_id,
        sign_iter_id: h.sign_iter_id,
        message: message.to_vec(),
        signature_type: sig_type(h, root)?.to_rust(),
    }))
}

fn nonce_response(h: &Head, parts: &[&[u8]]) -> Option<NonceResponse> {
    let [message, key_ids, nonces] = parts else {
        return None;
    };
    (h.signature_type == 0).then_some(())?;
    Some(NonceResponse {
        dkg_id: h.dkg_id,
        sign_id: h.sign_id,
        sign_iter_id: h.sign_iter_id,
        signer_id: h.signer_id,
        key_ids: id_list(key_ids)?,
        nonces: nonce_list(nonces)?,
        message: message.to_vec(),
    })
}

fn nested(b: &[u8]) -> Option<NonceResponse> {
    let (head, parts) = split(b)?;
    (head.kind == 2).then_some(())?;
    nonce_response(&head, &parts)
}

fn share_request(h: &Head, parts: &[&[u8]]) -> Option<Message> {
    let [message, root, responses @ ..] = parts else {
        return None;
    };
    (h.signer_id == 0).then_some(())?;
    Some(Message::SignatureShareRequest(SignatureShareRequest {
        dkg_id: h.dkg_id,
        sign_id: h.sign_id,
        sign_iter_id: h.sign_iter_id,
        nonce_responses: responses.iter().map(|b| nested(b)).collect::<Option<_>>()?,
        message: message.to_vec(),
        signature_type: sig_type(h, root)?.to_rust(),
    }))
}

fn share_response(h: &Head, parts: &[&[u8]]) -> Option<Message> {
    (h.signature_type == 0).then_some(())?;
    Some(Message::SignatureShareResponse(SignatureShareResponse {
        dkg_id: h.dkg_id,
        sign_id: h.sign_id,
        sign_iter_id: h.sign_iter_id,
        signer_id: h.signer_id,
        signature_shares: parts.iter().map(|b| share(b)).collect::<Option<_>>()?,
    }))
}

/// Kinds 5 to 7. In signing all messages of kind 6 do the same, and all of kind 7.
fn key_generation(h: &Head, parts: &[&[u8]]) -> Option<Message> {
    let lacks = h.signature_type == 0
        && h.sign_id == 0
        && h.sign_iter_id == 0
        && (h.kind == 6 || h.signer_id == 0)
        && parts.is_empty();
    lacks.then_some(())?;
    let dkg_id = h.dkg_id;
    Some(match h.kind {
        5 => Message::DkgBegin(DkgBegin { dkg_id }),
        6 => Message::DkgEnd(DkgEnd { dkg_id, signer_id: h.signer_id, status: DkgStatus::Success }),
        _ => Message::DkgEndBegin(DkgEndBegin {
            dkg_id,
            signer_ids: Vec::new(),
            key_ids: Vec::new(),
        }),
    })
}

/// The message of a packet that is laid out as 01 says (question 8). Fields that a kind lacks
/// must be 0.
pub fn laid_out(b: &[u8]) -> Option<Message> {
    let (head, parts) = split(b)?;
    match head.kind {
        1 => nonce_request(&head, &parts),
        2 => nonce_response(&head, &parts).map(Message::NonceResponse),
        3 => share_request(&head, &parts),
        4 => share_response(&head, &parts),
        5..=7 => key_generation(&head, &parts),
        _ => None,
    }
}

pub fn response_fits(m: &NonceResponse) -> bool {
    m.message.len() <= MESSAGE_LIMIT
        && m.key_ids.len() <= LIST_LIMIT
        && m.nonces.len() <= LIST_LIMIT
}

/// Question 9.
pub fn fits(m: &Message) -> bool {
    match m {
        Message::NonceRequest(m) => m.message.len() <= MESSAGE_LIMIT,
        Message::NonceResponse(m) => response_fits(m),
        Message::SignatureShareRequest(m) => {
            m.message.len() <= MESSAGE_LIMIT
                && m.nonce_responses.len() <= NESTED_LIMIT
                && m.nonce_responses.iter().all(response_fits)
        }
        Message::SignatureShareResponse(m) => {
            let keys: usize = m.signature_shares.iter().map(|s| s.key_ids.len()).sum();
            m.signature_shares.len() <= LIST_LIMIT && keys <= LIST_LIMIT
        }
        _ => true,
    }
}

/// The message in a packet, or the number (8 or 9) of the question answered no.
pub fn decode(b: &[u8]) -> Result<Message, u8> {
    let m = laid_out(b).ok_or(8)?;
    if fits(&m) {
        Ok(m)
    } else {
        Err(9)
    }
}
