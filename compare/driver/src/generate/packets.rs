//! Messages that come in.

use wsts::{
    common::{PublicNonce, SignatureShare},
    curve::{
        point::{Point, G, IDENTITY},
        scalar::Scalar,
    },
    net::{
        DkgBegin, DkgEnd, DkgEndBegin, DkgStatus, Message, NonceRequest, NonceResponse,
        SignatureShareRequest, SignatureShareResponse,
    },
};

use super::scene::Scene;
use crate::rng::Rng;

fn point(r: &mut Rng) -> Point {
    let mut bytes = [0; 33];
    r.fill(&mut bytes);
    bytes[0] = 2 + (bytes[0] & 1);
    Point(bytes)
}

/// Now and then the identity or G, or one bit beside it.
fn nonce(r: &mut Rng, k: &Scene) -> PublicNonce {
    let mut pair = [point(r), point(r)];
    if k.noisy(r) && r.percent(60) {
        let mut near_g = G;
        near_g.0[0] = 3;
        let mut near_identity = IDENTITY;
        near_identity.0[32] = 1;
        pair[r.below(2)] = *r.pick(&[IDENTITY, G, near_g, near_identity]);
    }
    PublicNonce { D: pair[0], E: pair[1] }
}

/// A key list for this signer: its set in some order, with repeats, or something else.
fn keys(r: &mut Rng, k: &Scene, signer_id: u32) -> Vec<u32> {
    let mut keys = k.c.entry(signer_id).and_then(|e| e.clone()).unwrap_or_default();
    r.shuffle(&mut keys);
    while r.percent(20) && !keys.is_empty() && keys.len() < 16 {
        let again = *r.pick(&keys);
        let at = r.below(keys.len() + 1);
        keys.insert(at, again);
    }
    if k.noisy(r) {
        match r.below(3) {
            0 if !keys.is_empty() => {
                let at = r.below(keys.len());
                keys.remove(at);
            }
            1 if keys.len() < 16 => keys.push(r.within(0, 20) as u32),
            _ => keys.clear(),
        }
    }
    keys
}

/// A signer whose response to this message would be recorded, if there is one.
fn ready_signer(r: &mut Rng, k: &Scene, message: &[u8]) -> Option<u32> {
    let answered = k.s.message_nonces.get(message).map(|i| &i.public_nonces);
    let ready = |id: &u32| {
        k.s.dkg_end_messages.contains_key(id)
            && !k.s.malicious_signer_ids.contains(id)
            && !answered.is_some_and(|a| a.contains_key(id))
    };
    let with_keys = k.c.signers.iter().filter(|s| s.1.is_some()).map(|s| s.0);
    let ids: Vec<u32> = with_keys.filter(ready).collect();
    (!ids.is_empty() && r.percent(80)).then(|| *r.pick(&ids))
}

pub fn nonce_response(r: &mut Rng, k: &Scene) -> NonceResponse {
    let message = match r.weighted(&[55, 20, 25]) {
        0 => k.s.message.clone(),
        1 => k.recorded_message(r).cloned().unwrap_or_else(|| k.any_message(r)),
        _ => k.any_message(r),
    };
    let signer_id = ready_signer(r, k, &message).unwrap_or_else(|| k.any_signer(r));
    let key_ids = keys(r, k, signer_id);
    let count = match r.weighted(&[75, 8, 14, 3]) {
        _ if k.temper.large => 16,
        0 => key_ids.len(),
        1 => 0,
        2 => r.within(0, 4),
        _ => 16,
    };
    NonceResponse {
        dkg_id: k.id(r, k.s.current_dkg_id),
        sign_id: k.id(r, k.s.current_sign_id),
        sign_iter_id: k.id(r, k.s.current_sign_iter_id),
        signer_id,
        key_ids,
        nonces: (0..count).map(|_| nonce(r, k)).collect(),
        message,
    }
}

/// `keys` spread over `count` shares.
fn shares(r: &mut Rng, count: usize, keys: &[u32]) -> Vec<SignatureShare> {
    let mut shares: Vec<SignatureShare> = Vec::with_capacity(count);
    for i in 0..count {
        let mut z_i = [0; 32];
        r.fill(&mut z_i);
        let id = if r.percent(80) { i as u32 } else { r.draw() as u32 };
        shares.push(SignatureShare { id, z_i: Scalar(z_i), key_ids: Vec::new() });
    }
    for key in keys {
        if !shares.is_empty() {
            let at = r.below(shares.len());
            shares[at].key_ids.push(*key);
        }
    }
    shares
}

pub fn share_response(r: &mut Rng, k: &Scene) -> SignatureShareResponse {
    let waiting = k.s.message_nonces.get(&k.s.message).map(|i| &i.sign_wait_signer_ids);
    let mut waiting: Vec<u32> = waiting.into_iter().flatten().copied().collect();
    // The Rust's set has no order, and another one each time.
    waiting.sort();
    let signer_id =
        if !waiting.is_empty() && r.percent(85) { *r.pick(&waiting) } else { k.any_signer(r) };
    let keys = keys(r, k, signer_id);
    let count = match r.weighted(&[50, 30, 15, 5]) {
        _ if k.temper.large => 16,
        0 => 1,
        1 => keys.len().max(r.below(2)),
        2 => r.within(1, 4),
        _ => r.within(1, 16),
    };
    let iteration = k.s.current_sign_iter_id;
    SignatureShareResponse {
        dkg_id: k.id(r, k.s.current_dkg_id),
        sign_id: k.id(r, k.s.current_sign_id),
        sign_iter_id: if r.percent(75) { iteration } else { k.wrong_id(r, iteration) },
        signer_id,
        signature_shares: shares(r, count, &keys),
    }
}

pub fn nonce_request(r: &mut Rng, k: &Scene) -> NonceRequest {
    let dkg_id = k.s.current_dkg_id;
    let sign_id = if r.percent(25) { k.s.current_sign_id } else { k.sign_id(r) };
    NonceRequest {
        dkg_id: if r.percent(60) { dkg_id } else { k.wrong_id(r, dkg_id) },
        sign_id,
        sign_iter_id: match r.below(4) {
            0 => 0,
            1 => u64::MAX,
            2 => 1,
            _ => r.draw(),
        },
        message: k.any_message(r),
        signature_type: k.any_type(r).to_rust(),
    }
}

fn share_request(r: &mut Rng, k: &Scene) -> SignatureShareRequest {
    let nested = if r.percent(5) { 10 } else { r.below(3) };
    SignatureShareRequest {
        dkg_id: k.id(r, k.s.current_dkg_id),
        sign_id: k.s.current_sign_id,
        sign_iter_id: k.s.current_sign_iter_id,
        nonce_responses: (0..nested).map(|_| nonce_response(r, k)).collect(),
        message: k.any_message(r),
        signature_type: k.any_type(r).to_rust(),
    }
}

fn dkg_end(r: &mut Rng, k: &Scene) -> DkgEnd {
    let dkg_id = k.id(r, k.s.current_dkg_id);
    DkgEnd { dkg_id, signer_id: k.any_signer(r), status: DkgStatus::Success }
}

fn dkg_end_begin(r: &mut Rng, k: &Scene) -> DkgEndBegin {
    let dkg_id = k.id(r, k.s.current_dkg_id);
    DkgEndBegin { dkg_id, signer_ids: Vec::new(), key_ids: Vec::new() }
}

/// Any kind, whether it fits the state or not.
pub fn any(r: &mut Rng, k: &Scene) -> Message {
    let dkg_id = k.s.current_dkg_id;
    match r.below(7) {
        0 => Message::NonceRequest(nonce_request(r, k)),
        1 => Message::NonceResponse(nonce_response(r, k)),
        2 => Message::SignatureShareRequest(share_request(r, k)),
        3 => Message::SignatureShareResponse(share_response(r, k)),
        4 if r.percent(90) => Message::DkgBegin(DkgBegin { dkg_id }),
        4 => Message::DkgBegin(DkgBegin { dkg_id: k.wrong_id(r, dkg_id) }),
        5 => Message::DkgEnd(dkg_end(r, k)),
        _ => Message::DkgEndBegin(dkg_end_begin(r, k)),
    }
}
