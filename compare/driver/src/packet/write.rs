//! Packets, written.

use wsts::{
    common::{PublicNonce, SignatureShare},
    harness::{Asked, Inputs},
    net::{
        Message, NonceRequest, NonceResponse, SignatureShareRequest, SignatureShareResponse,
        SignatureType,
    },
};

use super::Head;
use crate::signature_type::SigType;

/// A packet in the making: the pairs' places are kept free and filled as parts are ended.
struct Writer {
    out: Vec<u8>,
    next_pair: usize,
    part_start: usize,
}

impl Writer {
    fn new(head: Head, pairs: usize, room: usize) -> Self {
        let mut out = Vec::with_capacity(32 + 8 * pairs + room);
        out.extend([head.kind, head.signature_type]);
        out.extend((pairs as u16).to_le_bytes());
        out.extend(head.signer_id.to_le_bytes());
        out.extend(head.dkg_id.to_le_bytes());
        out.extend(head.sign_id.to_le_bytes());
        out.extend(head.sign_iter_id.to_le_bytes());
        out.resize(32 + 8 * pairs, 0);
        let part_start = out.len();
        Writer { out, next_pair: 32, part_start }
    }

    fn end_part(&mut self) {
        let length = self.out.len() - self.part_start;
        let pair = &mut self.out[self.next_pair..self.next_pair + 8];
        pair[..4].copy_from_slice(&(self.part_start as u32).to_le_bytes());
        pair[4..].copy_from_slice(&(length as u32).to_le_bytes());
        self.next_pair += 8;
        self.part_start = self.out.len();
    }

    fn part(&mut self, bytes: &[u8]) {
        self.out.extend_from_slice(bytes);
        self.end_part();
    }

    fn ids(&mut self, list: &[u32]) {
        for id in list {
            self.out.extend_from_slice(&id.to_le_bytes());
        }
    }

    fn nonces(&mut self, list: &[PublicNonce]) {
        for n in list {
            self.out.extend_from_slice(&n.D.0);
            self.out.extend_from_slice(&n.E.0);
        }
    }

    fn shares(&mut self, list: &[SignatureShare]) {
        for s in list {
            self.out.extend_from_slice(&s.id.to_le_bytes());
            self.out.extend_from_slice(&s.z_i.0);
            self.ids(&s.key_ids);
            self.end_part();
        }
    }
}

fn nonce_request(m: &NonceRequest) -> Vec<u8> {
    let t = SigType::from_rust(m.signature_type);
    let head = Head {
        kind: 1,
        signature_type: t.code,
        signer_id: 0,
        dkg_id: m.dkg_id,
        sign_id: m.sign_id,
        sign_iter_id: m.sign_iter_id,
    };
    let mut w = Writer::new(head, 2, m.message.len() + 32);
    w.part(&m.message);
    w.part(t.root_part());
    w.out
}

fn nonce_response(m: &NonceResponse) -> Vec<u8> {
    let head = Head {
        kind: 2,
        signature_type: 0,
        signer_id: m.signer_id,
        dkg_id: m.dkg_id,
        sign_id: m.sign_id,
        sign_iter_id: m.sign_iter_id,
    };
    let room = m.message.len() + 4 * m.key_ids.len() + 66 * m.nonces.len();
    let mut w = Writer::new(head, 3, room);
    w.part(&m.message);
    w.ids(&m.key_ids);
    w.end_part();
    w.nonces(&m.nonces);
    w.end_part();
    w.out
}

fn share_request(m: &SignatureShareRequest) -> Vec<u8> {
    let t = SigType::from_rust(m.signature_type);
    let head = Head {
        kind: 3,
        signature_type: t.code,
        signer_id: 0,
        dkg_id: m.dkg_id,
        sign_id: m.sign_id,
        sign_iter_id: m.sign_iter_id,
    };
    let mut w = Writer::new(head, 2 + m.nonce_responses.len(), 2048);
    w.part(&m.message);
    w.part(t.root_part());
    for response in &m.nonce_responses {
        w.part(&nonce_response(response));
    }
    w.out
}

fn share_response(m: &SignatureShareResponse) -> Vec<u8> {
    let head = Head {
        kind: 4,
        signature_type: 0,
        signer_id: m.signer_id,
        dkg_id: m.dkg_id,
        sign_id: m.sign_id,
        sign_iter_id: m.sign_iter_id,
    };
    let mut w = Writer::new(head, m.signature_shares.len(), 40 * m.signature_shares.len() + 64);
    w.shares(&m.signature_shares);
    w.out
}

fn bare(kind: u8, signer_id: u32, dkg_id: u64) -> Vec<u8> {
    Writer::new(Head { kind, signer_id, dkg_id, ..Head::default() }, 0, 0).out
}

/// The packet of a message. Of the key-generation messages one stands for each of kinds 6 and 7.
pub fn encode(message: &Message) -> Vec<u8> {
    match message {
        Message::NonceRequest(m) => nonce_request(m),
        Message::NonceResponse(m) => nonce_response(m),
        Message::SignatureShareRequest(m) => share_request(m),
        Message::SignatureShareResponse(m) => share_response(m),
        Message::DkgBegin(m) => bare(5, 0, m.dkg_id),
        Message::DkgEnd(m) => bare(6, m.signer_id, m.dkg_id),
        Message::DkgEndBegin(m) => bare(7, 0, m.dkg_id),
        m => panic!("not made here: {m:?}"),
    }
}

/// The round's ids, which the aggregator is not given.
pub struct JobIds {
    pub dkg_id: u64,
    pub sign_id: u64,
    pub sign_iter_id: u64,
}

/// Kind 32, from what the aggregator was given.
pub fn job(ids: &JobIds, i: &Inputs) -> Vec<u8> {
    let t = SigType::from_rust(match i.asked {
        Asked::Sign => SignatureType::Frost,
        Asked::Schnorr => SignatureType::Schnorr,
        Asked::Taproot(root) => SignatureType::Taproot(root),
    });
    let head = Head {
        kind: 32,
        signature_type: t.code,
        signer_id: 0,
        dkg_id: ids.dkg_id,
        sign_id: ids.sign_id,
        sign_iter_id: ids.sign_iter_id,
    };
    let room = 300 + 70 * i.nonces.len() + 40 * i.shares.len() + 4 * i.key_ids.len();
    let mut w = Writer::new(head, 4 + i.shares.len(), room);
    w.part(&i.message);
    w.part(t.root_part());
    w.ids(&i.key_ids);
    w.end_part();
    w.nonces(&i.nonces);
    w.end_part();
    w.shares(&i.shares);
    w.out
}

/// Kind 33.
pub fn nonce_timeout(sign_wait_signer_ids: &[u32], malicious_signer_ids: &[u32]) -> Vec<u8> {
    let mut w = Writer::new(Head { kind: 33, ..Head::default() }, 2, 80);
    w.ids(sign_wait_signer_ids);
    w.end_part();
    w.ids(malicious_signer_ids);
    w.end_part();
    w.out
}

/// Kind 34.
pub fn insufficient_signers(malicious_signer_ids: &[u32]) -> Vec<u8> {
    let mut w = Writer::new(Head { kind: 34, ..Head::default() }, 1, 40);
    w.ids(malicious_signer_ids);
    w.end_part();
    w.out
}

/// Kind 35, of signers with their readings.
pub fn arrivals(came: &[(u32, u64)]) -> Vec<u8> {
    let mut w = Writer::new(Head { kind: 35, ..Head::default() }, 2, 12 * came.len());
    w.ids(&came.iter().map(|(id, _)| *id).collect::<Vec<u32>>());
    w.end_part();
    came.iter().for_each(|(_, now)| w.out.extend_from_slice(&now.to_le_bytes()));
    w.end_part();
    w.out
}
