//! fire.rs's saved state as plain fields.

use wsts::{
    common::{PublicNonce, SignatureShare},
    state_machine::coordinator::{SavedState, SignRoundInfo},
};

use crate::{
    clock,
    fields::{Fields, Nonce, Record, Response, Share},
    fire::sorted,
    states,
};

fn nonce(n: &PublicNonce) -> Nonce {
    let mut out = [0; 66];
    out[..33].copy_from_slice(&n.D.0);
    out[33..].copy_from_slice(&n.E.0);
    out
}

fn share(s: &SignatureShare) -> Share {
    Share { id: s.id, z_i: s.z_i.0, key_ids: s.key_ids.clone() }
}

fn record(info: &SignRoundInfo) -> Record {
    let responses = info.public_nonces.iter().map(|(signer_id, r)| Response {
        signer_id: *signer_id,
        dkg_id: r.dkg_id,
        sign_id: r.sign_id,
        sign_iter_id: r.sign_iter_id,
        key_ids: r.key_ids.clone(),
        nonces: r.nonces.iter().map(nonce).collect(),
    });
    Record {
        public_nonces: responses.collect(),
        sign_wait_signer_ids: sorted(&info.sign_wait_signer_ids),
        nonce_recv_key_ids: sorted(&info.nonce_recv_key_ids),
    }
}

pub fn fields(s: &SavedState) -> Fields {
    let (state, signature_type) = states::from_rust(&s.state);
    let shares = s.signature_shares.iter();
    Fields {
        state,
        signature_type,
        dkg_id: s.current_dkg_id,
        sign_id: s.current_sign_id,
        sign_iter_id: s.current_sign_iter_id,
        message: s.message.clone(),
        message_nonces: s.message_nonces.iter().map(|(m, i)| (m.clone(), record(i))).collect(),
        signature_shares: shares.map(|(id, l)| (*id, l.iter().map(share).collect())).collect(),
        malicious_signer_ids: sorted(&s.malicious_signer_ids),
        dkg_end_signer_ids: s.dkg_end_messages.keys().copied().collect(),
        nonce_start: s.nonce_start.map(clock::reading),
        sign_start: s.sign_start.map(clock::reading),
        group_key: s.aggregate_public_key.is_some(),
        coordinator_key: s.coordinator_public_key.is_some(),
    }
}
