//! Which call comes next.

use wsts::net::{DkgBegin, Message};

use super::{packets, scene::Scene};
use crate::{
    calls::{Call, Inbound},
    packet,
    rng::Rng,
    states::{IDLE, NONCE_GATHER, SIG_SHARE_GATHER},
};

pub fn dkg_results(r: &mut Rng, mut ended: Vec<u32>) -> Call {
    if r.percent(15) && !ended.is_empty() {
        let drop = r.below(ended.len());
        ended.remove(drop);
    }
    if r.percent(15) && !ended.is_empty() && ended.len() < 10 {
        let again = *r.pick(&ended);
        ended.push(again);
    }
    r.shuffle(&mut ended);
    let dkg_id = match r.weighted(&[60, 20, 20]) {
        0 => r.within(0, 5) as u64,
        1 => u64::MAX,
        _ => r.draw(),
    };
    Call::DkgResults { dkg_id, ended }
}

pub fn all_results(r: &mut Rng, k: &Scene) -> Call {
    dkg_results(r, k.c.signers.iter().map(|s| s.0).collect())
}

pub fn send_bytes(r: &mut Rng, k: &Scene, packet: Vec<u8>) -> Call {
    let inbound = Inbound { packet, verdict: !k.noisy(r), agg_ok: r.percent(75) };
    // Where the timeout has fired without leaving the state, only `process_message` gets a
    // packet through.
    if r.percent(if k.fires() { 50 } else { 25 }) {
        Call::ProcessMessage(inbound)
    } else {
        Call::Process(inbound)
    }
}

fn send(r: &mut Rng, k: &Scene, m: Message) -> Call {
    send_bytes(r, k, packet::encode(&m))
}

/// The packet that the state gathers.
fn own_packet(r: &mut Rng, k: &Scene) -> Call {
    let m = match k.state {
        IDLE if r.percent(85) => Message::NonceRequest(packets::nonce_request(r, k)),
        IDLE => Message::DkgBegin(DkgBegin { dkg_id: k.s.current_dkg_id }),
        NONCE_GATHER => Message::NonceResponse(packets::nonce_response(r, k)),
        _ => Message::SignatureShareResponse(packets::share_response(r, k)),
    };
    send(r, k, m)
}

/// A refused start that makes another recorded message the current one, with the sign id as it
/// was: shares go on, for that message.
fn start_of_another_record(r: &mut Rng, k: &Scene) -> Option<Call> {
    let signature_type = k.any_type(r);
    let message = k.recorded_message(r)?.clone();
    if k.state != SIG_SHARE_GATHER || signature_type == k.signature_type || message == k.s.message {
        return None;
    }
    Some(Call::Start { message, signature_type, sign_id: Some(k.s.current_sign_id) })
}

fn start(r: &mut Rng, k: &Scene) -> Call {
    if r.percent(50) {
        if let Some(call) = start_of_another_record(r, k) {
            return call;
        }
    }
    let message = match k.recorded_message(r) {
        Some(known) if r.percent(50) => known.clone(),
        _ => k.any_message(r),
    };
    let signature_type =
        if !k.is_idle() && r.percent(40) { k.signature_type } else { k.any_type(r) };
    let sign_id = match r.weighted(&[45, 25, 30]) {
        0 => None,
        1 => Some(k.s.current_sign_id),
        _ => Some(k.sign_id(r)),
    };
    Call::Start { message, signature_type, sign_id }
}

fn can_move_to(r: &mut Rng, k: &Scene) -> Call {
    let signature_type = if r.percent(50) { k.signature_type } else { k.any_type(r) };
    let state = if r.percent(50) { r.within(11, 14) } else { r.below(15) };
    Call::CanMoveTo { state: state as u8, signature_type }
}

/// Mends what keeps a round from going on, most of the time.
fn mend(r: &mut Rng, k: &Scene) -> Option<Call> {
    if k.s.aggregate_public_key.is_none() && r.percent(25) {
        return Some(Call::SetGroupKey(true));
    }
    let verify = k.c.verify_packet_sigs;
    if verify && k.s.coordinator_public_key.is_none() && r.percent(35) {
        return Some(Call::SetCoordinatorKey(true));
    }
    if k.is_idle() && k.s.dkg_end_messages.is_empty() && r.percent(50) {
        return Some(all_results(r, k));
    }
    (k.fires() && r.percent(8)).then_some(Call::Reset)
}

pub fn call(r: &mut Rng, k: &Scene) -> Call {
    if let Some(call) = mend(r, k) {
        return call;
    }
    // the state's own packet, any packet, start, timeout, keys, reset, move, results
    let weights = match k.state {
        IDLE => [220, 80, 480, 30, 50, 15, 30, 40],
        NONCE_GATHER => [720, 60, 45, 50, 35, 8, 30, 0],
        _ => [700, 60, 80, 50, 25, 8, 30, 0],
    };
    match r.weighted(&weights) {
        0 => own_packet(r, k),
        1 => {
            let m = packets::any(r, k);
            send(r, k, m)
        }
        2 => start(r, k),
        3 => Call::ProcessTimeout,
        4 if r.percent(60) => Call::SetGroupKey(r.percent(40)),
        4 => Call::SetCoordinatorKey(r.percent(40)),
        5 => Call::Reset,
        6 => can_move_to(r, k),
        _ => all_results(r, k),
    }
}
