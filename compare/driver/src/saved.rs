//! fire.rs's saved state as bytes. SavedState has no serde derive, so it goes field by field, in
//! its own order; what net.rs and the stand-ins derive is serialised by bincode as it is.
//!
//! An instant has no serialised form at all: its reading of the test clock stands for it.

use std::{collections::BTreeMap, time::Instant};

use bincode::Result;
use serde::{de::DeserializeOwned, Serialize};
use wsts::{
    net::Packet,
    state_machine::{
        coordinator::{Config, SavedState, SignRoundInfo, State},
        PublicKeys,
    },
    taproot::SchnorrProof,
};

use crate::{clock, signature_type::SigType, states};

fn put<T: Serialize + ?Sized>(to: &mut Vec<u8>, field: &T) {
    bincode::serialize_into(to, field).expect("a Vec takes every byte");
}

/// The layout that bincode gives a Vec<u8>, but copied whole.
fn put_bytes(to: &mut Vec<u8>, bytes: &[u8]) {
    put(to, &(bytes.len() as u64));
    to.extend_from_slice(bytes);
}

fn put_config(to: &mut Vec<u8>, c: &Config) {
    put(to, &(c.num_signers, c.num_keys, c.threshold, c.dkg_threshold, c.sign_threshold));
    put(to, &c.message_private_key);
    put(to, &(c.dkg_public_timeout, c.dkg_private_timeout, c.dkg_end_timeout));
    put(to, &(c.nonce_timeout, c.sign_timeout));
    put(to, &c.public_keys.signers);
    put(to, &c.public_keys.key_ids);
    put(to, &c.public_keys.signer_key_ids);
    put(to, &c.verify_packet_sigs);
}

fn put_record(to: &mut Vec<u8>, message: &[u8], info: &SignRoundInfo) {
    put_bytes(to, message);
    put(to, &info.public_nonces);
    put(to, &info.nonce_recv_key_ids);
    put(to, &info.sign_recv_key_ids);
    put(to, &info.sign_wait_signer_ids);
}

fn put_state(to: &mut Vec<u8>, state: &State) {
    let (number, signature_type) = states::from_rust(state);
    put(to, &(number, signature_type.to_rust()));
}

fn put_instant(to: &mut Vec<u8>, instant: Option<Instant>) {
    put(to, &instant.map(clock::reading));
}

/// Replaces what stands in `to`, whose memory is used again.
pub fn write(s: &SavedState, to: &mut Vec<u8>) {
    to.clear();
    put_config(to, &s.config);
    put(to, &(s.current_dkg_id, s.current_sign_id, s.current_sign_iter_id));
    put(to, &s.dkg_public_shares);
    put(to, &s.dkg_private_shares);
    put(to, &s.dkg_end_messages);
    put(to, &s.party_polynomials);
    put(to, &s.signature_shares);
    put(to, &(s.message_nonces.len() as u64));
    for (message, info) in &s.message_nonces {
        put_record(to, message, info);
    }
    put(to, &s.aggregate_public_key);
    put(to, &s.signature);
    put(to, &s.schnorr_proof.as_ref().map(|p| (&p.r, &p.s)));
    put(to, &s.dkg_wait_signer_ids);
    put_bytes(to, &s.message);
    put_state(to, &s.state);
    put_instant(to, s.nonce_start);
    put_instant(to, s.dkg_public_start);
    put_instant(to, s.dkg_private_start);
    put_instant(to, s.dkg_end_start);
    put_instant(to, s.sign_start);
    put(to, &s.malicious_signer_ids);
    put(to, &s.malicious_dkg_signer_ids);
    put(to, &s.coordinator_public_key);
}

/// Replaces what stands in `to` by the packet's bytes.
pub fn write_packet(packet: &Packet, to: &mut Vec<u8>) {
    to.clear();
    put(to, packet);
}

pub fn read_packet(bytes: &[u8]) -> Result<Packet> {
    bincode::deserialize(bytes)
}

/// The bytes that are left.
struct Reader<'a>(&'a [u8]);

impl Reader<'_> {
    fn take<T: DeserializeOwned>(&mut self) -> Result<T> {
        bincode::deserialize_from(&mut self.0)
    }

    fn config(&mut self) -> Result<Config> {
        let (num_signers, num_keys, threshold, dkg_threshold, sign_threshold) = self.take()?;
        Ok(Config {
            num_signers,
            num_keys,
            threshold,
            dkg_threshold,
            sign_threshold,
            message_private_key: self.take()?,
            dkg_public_timeout: self.take()?,
            dkg_private_timeout: self.take()?,
            dkg_end_timeout: self.take()?,
            nonce_timeout: self.take()?,
            sign_timeout: self.take()?,
            public_keys: PublicKeys {
                signers: self.take()?,
                key_ids: self.take()?,
                signer_key_ids: self.take()?,
            },
            verify_packet_sigs: self.take()?,
        })
    }

    fn record(&mut self) -> Result<(Vec<u8>, SignRoundInfo)> {
        let message = self.take()?;
        let info = SignRoundInfo {
            public_nonces: self.take()?,
            nonce_recv_key_ids: self.take()?,
            sign_recv_key_ids: self.take()?,
            sign_wait_signer_ids: self.take()?,
        };
        Ok((message, info))
    }

    fn records(&mut self) -> Result<BTreeMap<Vec<u8>, SignRoundInfo>> {
        let count: u64 = self.take()?;
        (0..count).map(|_| self.record()).collect()
    }

    fn state(&mut self) -> Result<State> {
        let (number, signature_type) = self.take()?;
        Ok(states::to_rust(number, SigType::from_rust(signature_type)))
    }

    fn instant(&mut self) -> Result<Option<Instant>> {
        Ok(self.take::<Option<u64>>()?.map(clock::instant))
    }
}

/// What `write` wrote. A field that is missing here does not compile.
pub fn read(bytes: &[u8]) -> Result<SavedState> {
    let mut r = Reader(bytes);
    let saved = SavedState {
        config: r.config()?,
        current_dkg_id: r.take()?,
        current_sign_id: r.take()?,
        current_sign_iter_id: r.take()?,
        dkg_public_shares: r.take()?,
        dkg_private_shares: r.take()?,
        dkg_end_messages: r.take()?,
        party_polynomials: r.take()?,
        signature_shares: r.take()?,
        message_nonces: r.records()?,
        aggregate_public_key: r.take()?,
        signature: r.take()?,
        schnorr_proof: r.take::<Option<_>>()?.map(|(r, s)| SchnorrProof { r, s }),
        dkg_wait_signer_ids: r.take()?,
        message: r.take()?,
        state: r.state()?,
        nonce_start: r.instant()?,
        dkg_public_start: r.instant()?,
        dkg_private_start: r.instant()?,
        dkg_end_start: r.instant()?,
        sign_start: r.instant()?,
        malicious_signer_ids: r.take()?,
        malicious_dkg_signer_ids: r.take()?,
        coordinator_public_key: r.take()?,
    };
    assert!(r.0.is_empty(), "bytes behind the last field");
    Ok(saved)
}
