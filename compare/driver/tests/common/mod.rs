//! A small round for tests, on fire.rs and on the library: short ways to make packets and calls.
#![allow(dead_code)]

use compare::{
    both::Both,
    calls::{Answer, Call, Commission, Inbound, Step},
    fields::Fields,
    fire_fields,
    library::Surplus,
    library_fields, packet,
    probes::Probe,
    signature_type::SigType,
};
use wsts::{
    common::{PublicNonce, SignatureShare},
    curve::{point::Point, scalar::Scalar},
    net::{Message, NonceRequest, NonceResponse, SignatureShareResponse, SignatureType},
};

pub const FROST: u8 = 0;
pub const SCHNORR: u8 = 1;
pub const ROOT: [u8; 32] = [9; 32];
pub const DKG: u64 = 5;

/// 01's worked rounds: signers 0, 1, 2; keys {1}, {2, 3}, {4}; num_keys 4, both thresholds 3,
/// both timeouts 10.
pub fn worked() -> Commission {
    Commission {
        num_signers: 3,
        num_keys: 4,
        threshold: 3,
        dkg_threshold: 4,
        sign_threshold: 3,
        nonce_timeout: Some(10),
        sign_timeout: Some(10),
        verify_packet_sigs: false,
        signers: vec![(0, Some(vec![1])), (1, Some(vec![2, 3])), (2, Some(vec![4]))],
    }
}

/// Signers 0 {1} and 1 {2}, sign_threshold 2.
pub fn two() -> Commission {
    Commission {
        num_signers: 2,
        num_keys: 2,
        threshold: 1,
        dkg_threshold: 2,
        sign_threshold: 2,
        signers: vec![(0, Some(vec![1])), (1, Some(vec![2]))],
        ..worked()
    }
}

pub struct Round {
    pub both: Both,
    pub now: u64,
}

pub fn point(n: u8) -> Point {
    let mut bytes = [n; 33];
    bytes[0] = 2;
    Point(bytes)
}

impl Round {
    /// Commissioned, group key and coordinator key held, every signer ended with dkg id 5.
    pub fn new(c: Commission) -> Self {
        let mut r = Round { both: Both::new(Surplus::default(), None), now: 100 };
        let ended = c.signers.iter().map(|s| s.0).collect();
        for call in [
            Call::Commission(c),
            Call::SetGroupKey(true),
            Call::SetCoordinatorKey(true),
            Call::DkgResults { dkg_id: DKG, ended },
        ] {
            assert_eq!(r.call(call), Answer::Nothing);
        }
        r
    }

    /// What both sides answered; a difference fails the test.
    pub fn call(&mut self, call: Call) -> Answer {
        let step = Step { now: self.now, call, probe: Probe::OtherBuffers };
        let answer = self.both.step(&step).expect("no difference");
        assert_eq!(library_fields::fields(&self.both.view()), self.f());
        answer
    }

    pub fn f(&self) -> Fields {
        fire_fields::fields(self.both.fire.saved().unwrap())
    }

    pub fn send(&mut self, m: Message) -> Answer {
        self.send_with(m, true)
    }

    pub fn send_with(&mut self, m: Message, agg_ok: bool) -> Answer {
        self.call(Call::Process(Inbound { packet: packet::encode(&m), verdict: true, agg_ok }))
    }

    pub fn start(&mut self, message: &[u8]) -> Answer {
        self.start_type(message, FROST, None)
    }

    pub fn start_type(&mut self, message: &[u8], code: u8, sign_id: Option<u64>) -> Answer {
        let signature_type = SigType::new(code, ROOT);
        self.call(Call::Start { message: message.to_vec(), signature_type, sign_id })
    }

    /// A nonce response with the current ids.
    pub fn response(&self, signer_id: u32, keys: &[u32], message: &[u8]) -> NonceResponse {
        let f = self.f();
        let nonce = |k: &u32| PublicNonce { D: point(*k as u8), E: point(*k as u8 + 1) };
        NonceResponse {
            dkg_id: f.dkg_id,
            sign_id: f.sign_id,
            sign_iter_id: f.sign_iter_id,
            signer_id,
            key_ids: keys.to_vec(),
            nonces: keys.iter().map(nonce).collect(),
            message: message.to_vec(),
        }
    }

    pub fn respond(&mut self, signer_id: u32, keys: &[u32], message: &[u8]) -> Answer {
        let m = self.response(signer_id, keys, message);
        self.send(Message::NonceResponse(m))
    }

    /// A share response with the current ids, one share with these keys.
    pub fn shares(&self, signer_id: u32, keys: &[u32]) -> SignatureShareResponse {
        let f = self.f();
        let z_i = Scalar([signer_id as u8; 32]);
        SignatureShareResponse {
            dkg_id: f.dkg_id,
            sign_id: f.sign_id,
            sign_iter_id: f.sign_iter_id,
            signer_id,
            signature_shares: vec![SignatureShare { id: signer_id, z_i, key_ids: keys.to_vec() }],
        }
    }

    pub fn share(&mut self, signer_id: u32, keys: &[u32]) -> Answer {
        let m = self.shares(signer_id, keys);
        self.send(Message::SignatureShareResponse(m))
    }

    /// Round of message "m", with the responses of 0 and 1 of the worked rounds in.
    pub fn gathering_shares(c: Commission) -> Self {
        let mut r = Round::new(c);
        assert_kind(&r.start(b"m"), 1);
        assert_eq!(r.respond(0, &[1], b"m"), Answer::Nothing);
        assert_kind(&r.respond(1, &[2, 3], b"m"), 3);
        r
    }

    /// 0 answers "b" and "a", 1 answers "a": shares of "a" are gathered, and "b" has a record.
    pub fn two_records() -> Round {
        let mut r = Round::new(two());
        assert_kind(&r.start(b"a"), 1);
        assert_eq!(r.respond(0, &[1], b"b"), Answer::Nothing);
        assert_eq!(r.respond(0, &[1], b"a"), Answer::Nothing);
        assert_kind(&r.respond(1, &[2], b"a"), 3);
        r
    }
}

pub fn request(sign_id: u64, sign_iter_id: u64, message: &[u8]) -> Message {
    Message::NonceRequest(NonceRequest {
        dkg_id: 77,
        sign_id,
        sign_iter_id,
        message: message.to_vec(),
        signature_type: SignatureType::Frost,
    })
}

pub fn bytes(a: &Answer) -> &[u8] {
    match a {
        Answer::Packet(b) | Answer::Late(b) => b,
        Answer::Job { bytes, .. } => bytes,
        _ => panic!("no packet: {a:?}"),
    }
}

#[track_caller]
pub fn assert_kind(a: &Answer, kind: u8) {
    assert_eq!(bytes(a)[0], kind);
}

#[track_caller]
pub fn assert_refused(a: &Answer, wanted: u8, expected: &[u64]) {
    let Answer::Refused { number, values, .. } = a else { panic!("not refused: {a:?}") };
    assert_eq!((*number, &values[..]), (wanted, expected));
}

/// The message of a packet in an answer.
#[track_caller]
pub fn sent(a: &Answer) -> Message {
    packet::decode(bytes(a)).expect("an own packet")
}
