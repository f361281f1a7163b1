//! The library's state and store as plain fields.

use crate::{
    fields::{Fields, Record, Response, Share},
    packet::u32_at,
    places::layout::{RECORD_LIMIT, SIGNER_LIMIT},
    view::View,
};

fn ids(bytes: &[u8]) -> Vec<u32> {
    (0..bytes.len() / 4).map(|i| u32_at(bytes, 4 * i)).collect()
}

fn response(v: &View, row: usize, slot: usize) -> Response {
    let r = v.response(row, slot);
    Response {
        signer_id: v.signer_id(slot),
        dkg_id: r.dkg_id,
        sign_id: r.sign_id,
        sign_iter_id: r.sign_iter_id,
        key_ids: ids(r.key_ids),
        nonces: r.nonces.chunks(66).map(|n| n.try_into().unwrap()).collect(),
    }
}

/// The slots ascending by signer id.
fn slots(v: &View) -> Vec<usize> {
    let mut slots: Vec<usize> = (0..v.signer_count().min(SIGNER_LIMIT)).collect();
    slots.sort_by_key(|i| v.signer_id(*i));
    slots
}

fn record(v: &View, row: usize) -> Record {
    let slots = slots(v);
    let responders: Vec<usize> = slots.iter().copied().filter(|i| v.responded(row, *i)).collect();
    let waiting = slots.iter().copied().filter(|i| v.waits(row, *i));
    let mut keys: Vec<u32> =
        responders.iter().filter_map(|i| v.signer_keys(*i)).flatten().collect();
    keys.sort();
    keys.dedup();
    Record {
        public_nonces: responders.iter().map(|i| response(v, row, *i)).collect(),
        sign_wait_signer_ids: waiting.map(|i| v.signer_id(i)).collect(),
        nonce_recv_key_ids: keys,
    }
}

fn shares(v: &View, slot: usize) -> Vec<Share> {
    let share = |s: crate::view::ShareView| Share {
        id: s.id,
        z_i: s.z_i.try_into().unwrap(),
        key_ids: ids(s.key_ids),
    };
    v.shares(slot).map(share).collect()
}

pub fn fields(v: &View) -> Fields {
    let slots = slots(v);
    let rows = 0..v.record_count().min(RECORD_LIMIT);
    let flagged = |f: &dyn Fn(usize) -> bool| {
        slots.iter().filter(|i| f(**i)).map(|i| v.signer_id(*i)).collect::<Vec<u32>>()
    };
    let holders = slots.iter().copied().filter(|i| v.has_shares(*i));
    Fields {
        state: v.state_number(),
        signature_type: v.signature_type(),
        dkg_id: v.dkg_id(),
        sign_id: v.sign_id(),
        sign_iter_id: v.sign_iter_id(),
        message: v.message().to_vec(),
        message_nonces: rows.map(|r| (v.record_message(r).to_vec(), record(v, r))).collect(),
        signature_shares: holders.map(|i| (v.signer_id(i), shares(v, i))).collect(),
        malicious_signer_ids: flagged(&|i| v.malicious(i)),
        dkg_end_signer_ids: flagged(&|i| v.ended(i)),
        nonce_start: v.nonce_start(),
        sign_start: v.sign_start(),
        group_key: v.group_key(),
        coordinator_key: v.coordinator_key(),
    }
}
