//! Calls that are mostly outside 01's domain: the library has to refuse them by their number.

use wsts::net::{Message, SignatureShareRequest};

use super::{choose, packets, scene::Scene};
use crate::{
    calls::{Call, Commission},
    packet,
    rng::Rng,
    signature_type::SigType,
};

/// A packet with one thing changed. Some of them are still taken.
fn mangled(r: &mut Rng, k: &Scene) -> Vec<u8> {
    let mut b = packet::encode(&packets::any(r, k));
    match r.below(6) {
        0 => b.truncate(r.below(b.len() + 1)),
        1 => b.extend(r.bytes(1)),
        2 => {
            let at = r.below(32.min(b.len()));
            b[at] ^= 1 << r.below(8);
        }
        3 => {
            // a pair
            let at = (32 + r.below(24)).min(b.len() - 1);
            b[at] ^= 1 << r.below(8);
        }
        4 => b[0] = *r.pick(&[0, 8, 32, 33, 34, 255]),
        _ => {
            let at = r.below(b.len());
            b[at] = r.draw() as u8;
        }
    }
    b
}

/// A list or a message one longer than the limit, somewhere in the packet.
fn too_long(r: &mut Rng, k: &Scene) -> Message {
    let mut response = packets::nonce_response(r, k);
    match r.below(5) {
        0 => response.message = r.bytes(257),
        1 => response.key_ids = (0..17).collect(),
        2 => {
            let mut shares = packets::share_response(r, k);
            shares.signature_shares.truncate(1);
            shares.signature_shares.iter_mut().for_each(|s| s.key_ids = (0..17).collect());
            return Message::SignatureShareResponse(shares);
        }
        3 => {
            let mut shares = packets::share_response(r, k);
            if let Some(first) = shares.signature_shares.first().cloned() {
                shares.signature_shares.resize(17, first);
            }
            return Message::SignatureShareResponse(shares);
        }
        _ => {}
    }
    let nested = *r.pick(&[1, 2, 11]);
    Message::SignatureShareRequest(SignatureShareRequest {
        dkg_id: k.s.current_dkg_id,
        sign_id: k.s.current_sign_id,
        sign_iter_id: k.s.current_sign_iter_id,
        nonce_responses: vec![response; nested],
        message: k.any_message(r),
        signature_type: k.any_type(r).to_rust(),
    })
}

/// 1, 2 or 3.
fn commission(r: &mut Rng, k: &Scene) -> Call {
    let mut c: Commission = k.c.clone();
    match r.below(5) {
        0 => c.signers = (0..11).map(|i| (i, None)).collect(),
        1 => c.signers = vec![(3, None), (4, None), (3, None)],
        2 => c.signers = vec![(3, Some((0..17).collect()))],
        3 => c.signers = vec![(3, Some(vec![5, 6, 5]))],
        _ => {
            c.signers = vec![(3, Some(vec![5])), (4, Some(vec![5]))];
            c.num_keys = 1;
        }
    }
    Call::Commission(c)
}

pub fn outside(r: &mut Rng, k: &Scene) -> Call {
    match r.weighted(&[50, 20, 5, 5, 10, 10]) {
        0 => {
            let b = mangled(r, k);
            choose::send_bytes(r, k, b)
        }
        1 => {
            let b = packet::encode(&too_long(r, k));
            choose::send_bytes(r, k, b)
        }
        2 => {
            let (message, signature_type) = (r.bytes(257), SigType::default());
            Call::Start { message, signature_type, sign_id: None }
        }
        3 => commission(r, k),
        4 => choose::all_results(r, k),
        _ => {
            let known = k.c.signers.first().map_or(77, |s| s.0);
            let ended = if r.percent(50) { vec![77] } else { vec![known; 11] };
            Call::DkgResults { dkg_id: 1, ended }
        }
    }
}
