//! Whether the library's bytes say what fire.rs holds, field by field, with no copy made. Gives
//! the name of the first field that differs.

use wsts::{
    common::{PublicNonce, SignatureShare},
    net::NonceResponse,
    state_machine::coordinator::{SavedState, SignRoundInfo},
};

use crate::{
    calls::Commission,
    clock,
    packet::u32_at,
    states,
    view::{ResponseView, ShareView, View},
};

type Named = Option<&'static str>;

fn unless(equal: bool, name: &'static str) -> Named {
    (!equal).then_some(name)
}

fn same_ids(bytes: &[u8], ids: &[u32]) -> bool {
    bytes.len() == 4 * ids.len()
        && ids.iter().enumerate().all(|(i, id)| u32_at(bytes, 4 * i) == *id)
}

fn same_nonces(bytes: &[u8], nonces: &[PublicNonce]) -> bool {
    let one = |(b, n): (&[u8], &PublicNonce)| b[..33] == n.D.0 && b[33..] == n.E.0;
    bytes.len() == 66 * nonces.len() && bytes.chunks(66).zip(nonces).all(one)
}

fn same_response(v: &ResponseView, r: &NonceResponse) -> bool {
    v.dkg_id == r.dkg_id
        && v.sign_id == r.sign_id
        && v.sign_iter_id == r.sign_iter_id
        && same_ids(v.key_ids, &r.key_ids)
        && same_nonces(v.nonces, &r.nonces)
}

fn same_share(v: &ShareView, s: &SignatureShare) -> bool {
    v.id == s.id && *v.z_i == s.z_i.0 && same_ids(v.key_ids, &s.key_ids)
}

/// The flagged signers are those of the list, of which there are `count`.
fn same_signers(
    v: &View,
    flagged: impl Fn(usize) -> bool,
    count: usize,
    listed: impl Fn(&u32) -> bool,
) -> bool {
    let ids = (0..v.signer_count()).filter(|i| flagged(*i)).map(|i| v.signer_id(i));
    let mut found = 0;
    for id in ids {
        if !listed(&id) {
            return false;
        }
        found += 1;
    }
    found == count
}

fn record(v: &View, row: usize, info: &SignRoundInfo) -> Named {
    let responses = &info.public_nonces;
    let count = responses.len();
    let same = same_signers(v, |i| v.responded(row, i), count, |id| responses.contains_key(id));
    if !same {
        return Some("responders of a record");
    }
    let waiting = &info.sign_wait_signer_ids;
    let count = waiting.len();
    if !same_signers(v, |i| v.waits(row, i), count, |id| waiting.contains(id)) {
        return Some("sign_wait_signer_ids of a record");
    }
    let mut responders = (0..v.signer_count()).filter(|i| v.responded(row, *i));
    let same = |i| same_response(&v.response(row, i), &responses[&v.signer_id(i)]);
    unless(responders.all(same), "a response of a record")
}

fn records(v: &View, s: &SavedState) -> Named {
    let count = v.record_count();
    if count != s.message_nonces.len() {
        return Some("number of records");
    }
    for row in 0..count {
        let message = v.record_message(row);
        if (0..row).any(|r| v.record_message(r) == message) {
            return Some("messages of records");
        }
        let Some(info) = s.message_nonces.get(message) else {
            return Some("messages of records");
        };
        if let Some(name) = record(v, row, info) {
            return Some(name);
        }
    }
    None
}

fn shares(v: &View, s: &SavedState) -> Named {
    let held = &s.signature_shares;
    if !same_signers(v, |i| v.has_shares(i), held.len(), |id| held.contains_key(id)) {
        return Some("signers in signature_shares");
    }
    let mut holders = (0..v.signer_count()).filter(|i| v.has_shares(*i));
    let same = |i: usize| {
        let list = &held[&v.signer_id(i)];
        v.shares(i).count() == list.len()
            && v.shares(i).zip(list).all(|(v, share)| same_share(&v, share))
    };
    unless(holders.all(same), "signature_shares")
}

fn signers(v: &View, s: &SavedState) -> Named {
    let malicious = &s.malicious_signer_ids;
    if !same_signers(v, |i| v.malicious(i), malicious.len(), |id| malicious.contains(id)) {
        return Some("malicious_signer_ids");
    }
    let ended = &s.dkg_end_messages;
    let same = same_signers(v, |i| v.ended(i), ended.len(), |id| ended.contains_key(id));
    unless(same, "dkg_end_messages")
}

fn numbers(v: &View, s: &SavedState) -> Named {
    let position = (v.state_number(), v.signature_type());
    let differs = [
        (v.commissioned(), "commissioned"),
        (v.dkg_id() == s.current_dkg_id, "current_dkg_id"),
        (v.sign_id() == s.current_sign_id, "current_sign_id"),
        (v.sign_iter_id() == s.current_sign_iter_id, "current_sign_iter_id"),
        (position == states::from_rust(&s.state), "state with its type and root"),
        (v.message() == &s.message[..], "message"),
        (v.nonce_start() == s.nonce_start.map(clock::reading), "nonce_start"),
        (v.sign_start() == s.sign_start.map(clock::reading), "sign_start"),
        (v.group_key() == s.aggregate_public_key.is_some(), "aggregate_public_key"),
        (v.coordinator_key() == s.coordinator_public_key.is_some(), "coordinator_public_key"),
        (!v.job(), "a job that is out"),
    ];
    differs.iter().find(|d| !d.0).map(|d| d.1)
}

/// Every signing field; not the configuration, which only commissioning writes.
pub fn fields(v: &View, s: &SavedState) -> Named {
    numbers(v, s).or_else(|| signers(v, s)).or_else(|| records(v, s)).or_else(|| shares(v, s))
}

/// The configuration: signers in the order given, each key set ascending.
pub fn configuration(v: &View, c: &Commission) -> Named {
    let numbers = [c.num_signers, c.num_keys, c.threshold, c.dkg_threshold, c.sign_threshold];
    if v.config_numbers() != numbers {
        return Some("a number of the configuration");
    }
    let timeouts = [None, None, None, c.nonce_timeout, c.sign_timeout];
    if v.timeouts() != timeouts {
        return Some("a timeout of the configuration");
    }
    let mut wanted = c.signers.clone();
    wanted.iter_mut().filter_map(|s| s.1.as_mut()).for_each(|keys| keys.sort());
    let held: Vec<_> = (0..v.signer_count()).map(|i| (v.signer_id(i), v.signer_keys(i))).collect();
    unless(
        held == wanted && v.verify_packet_sigs() == c.verify_packet_sigs,
        "signers of the configuration, or verify_packet_sigs",
    )
}
