//! The rounds that are timed: how many signers, keys and messages, and the packets of such a
//! round.

use wsts::{
    common::{PublicNonce, SignatureShare},
    curve::{point::Point, scalar::Scalar},
    net::{Message, NonceResponse, Packet, SignatureShareRequest, SignatureShareResponse},
};

use crate::{
    calls::{Commission, Inbound},
    packet, saved,
    signature_type::SigType,
};

#[derive(Clone, Copy)]
pub struct Shape {
    pub signers: u32,
    pub keys: u32,
    /// Messages that are answered, the round's own among them.
    pub messages: usize,
    pub message_length: usize,
    /// Shares of a signer; its keys are spread over them.
    pub shares: usize,
    pub signature_type: SigType,
}

/// A packet as each side gets it: fire.rs alone the structs of net.rs, fire.rs that survives a
/// crash the bytes that serde gives them, the library 01's bytes.
pub struct Both {
    pub decoded: Packet,
    pub serialised: Vec<u8>,
    pub inbound: Inbound,
}

/// The ids of a round.
#[derive(Clone, Copy)]
pub struct Ids {
    pub dkg_id: u64,
    pub sign_id: u64,
    pub sign_iter_id: u64,
}

fn point(n: u32) -> Point {
    let mut bytes = [7; 33];
    bytes[0] = 2;
    bytes[1..5].copy_from_slice(&n.to_le_bytes());
    Point(bytes)
}

fn both(msg: Message) -> Both {
    let inbound = Inbound { packet: packet::encode(&msg), verdict: true, agg_ok: true };
    let decoded = Packet { msg, sig: vec![1] };
    let mut serialised = Vec::new();
    saved::write_packet(&decoded, &mut serialised);
    Both { decoded, serialised, inbound }
}

impl Shape {
    /// Ten signers of sixteen keys, one message of 32 bytes, one share a signer.
    pub fn full() -> Shape {
        Shape {
            signers: 10,
            keys: 16,
            messages: 1,
            message_length: 32,
            shares: 1,
            signature_type: SigType::default(),
        }
    }

    /// The longest packets that there are.
    pub fn longest() -> Shape {
        let signature_type = SigType::new(3, [9; 32]);
        Shape { message_length: 256, shares: 16, signature_type, ..Shape::full() }
    }

    /// Every key is needed, so the last response completes the threshold.
    pub fn commission(&self) -> Commission {
        let num_keys = self.signers * self.keys;
        Commission {
            num_signers: self.signers,
            num_keys,
            threshold: num_keys,
            dkg_threshold: num_keys,
            sign_threshold: num_keys,
            nonce_timeout: Some(1_000_000),
            sign_timeout: Some(1_000_000),
            verify_packet_sigs: false,
            signers: (0..self.signers).map(|i| (i, Some(self.key_ids(i)))).collect(),
        }
    }

    fn key_ids(&self, signer: u32) -> Vec<u32> {
        (self.keys * signer + 1..=self.keys * (signer + 1)).collect()
    }

    pub fn message(&self, number: usize) -> Vec<u8> {
        vec![number as u8; self.message_length]
    }

    fn nonce_response(&self, ids: Ids, signer_id: u32, message: usize) -> NonceResponse {
        let key_ids = self.key_ids(signer_id);
        let nonce = |k: &u32| PublicNonce { D: point(*k), E: point(k + 1000) };
        NonceResponse {
            dkg_id: ids.dkg_id,
            sign_id: ids.sign_id,
            sign_iter_id: ids.sign_iter_id,
            signer_id,
            nonces: key_ids.iter().map(nonce).collect(),
            key_ids,
            message: self.message(message),
        }
    }

    pub fn response(&self, ids: Ids, signer_id: u32, message: usize) -> Both {
        both(Message::NonceResponse(self.nonce_response(ids, signer_id, message)))
    }

    pub fn share(&self, ids: Ids, signer_id: u32) -> Both {
        let blank = SignatureShare { id: signer_id, z_i: Scalar([5; 32]), key_ids: Vec::new() };
        let mut signature_shares = vec![blank; self.shares];
        for (i, key) in self.key_ids(signer_id).into_iter().enumerate() {
            signature_shares[i % self.shares].key_ids.push(key);
        }
        both(Message::SignatureShareResponse(SignatureShareResponse {
            dkg_id: ids.dkg_id,
            sign_id: ids.sign_id,
            sign_iter_id: ids.sign_iter_id,
            signer_id,
            signature_shares,
        }))
    }

    /// A share request, as another coordinator would send it: the longest packet that can come in.
    pub fn share_request(&self, ids: Ids) -> Both {
        let responses = (0..self.signers).map(|i| self.nonce_response(ids, i, 0));
        both(Message::SignatureShareRequest(SignatureShareRequest {
            dkg_id: ids.dkg_id,
            sign_id: ids.sign_id,
            sign_iter_id: ids.sign_iter_id,
            nonce_responses: responses.collect(),
            message: self.message(0),
            signature_type: self.signature_type.to_rust(),
        }))
    }
}
