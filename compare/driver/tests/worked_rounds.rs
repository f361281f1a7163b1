//! 01's worked rounds on both sides.

mod common;
use common::*;
use compare::{
    calls::{Answer, Call, Outcome},
    fields::Fields,
    packet,
    states::{IDLE, NONCE_GATHER, SIG_SHARE_GATHER},
};
use wsts::{curve::point::G, net::Message};

#[test]
fn elapsed_10_nothing_11_fires() {
    let mut r = Round::new(worked());
    r.start(b"m");
    r.respond(0, &[1], b"m");
    r.now = 110;
    assert_eq!(r.call(Call::ProcessTimeout), Answer::Nothing);
    r.now = 111;
    let late = Answer::Late(packet::nonce_timeout(&[0], &[]));
    assert_eq!(r.call(Call::ProcessTimeout), late);
    assert_eq!(r.f().state, NONCE_GATHER);
}

#[test]
fn two_keys_gather_three_send() {
    let mut r = Round::new(worked());
    r.start(b"m");
    assert_eq!(r.respond(0, &[1], b"m"), Answer::Nothing);
    assert_eq!(r.respond(2, &[4], b"m"), Answer::Nothing);
    assert_eq!(r.f().state, NONCE_GATHER);
    assert_eq!(Round::gathering_shares(worked()).f().state, SIG_SHARE_GATHER);
}

#[test]
fn key_lists_are_sets() {
    let mut r = Round::new(worked());
    r.start(b"m");
    assert_eq!(r.respond(1, &[2], b"m"), Answer::Nothing);
    assert!(r.f().message_nonces.is_empty());
    assert_eq!(r.respond(1, &[3, 2, 3], b"m"), Answer::Nothing);
    assert_eq!(r.f().message_nonces[&b"m"[..]].public_nonces[0].key_ids, [3, 2, 3]);
}

#[test]
fn g_is_invalid_and_its_mirror_is_not() {
    let mut mirror = G;
    mirror.0[0] = 3;
    for (d, recorded) in [(G, false), (mirror, true), (Default::default(), false)] {
        let mut r = Round::new(worked());
        r.start(b"m");
        let mut m = r.response(0, &[1], b"m");
        m.nonces[0].D = d;
        assert_eq!(r.send(Message::NonceResponse(m)), Answer::Nothing);
        assert_eq!(r.f().message_nonces.len(), recorded as usize);
    }
}

#[test]
fn who_is_silent_decides() {
    // only 0 silent: 4 - 1 = 3, retry
    let mut r = Round::gathering_shares(worked());
    assert_eq!(r.share(1, &[2, 3]), Answer::Nothing);
    r.now = 111;
    let Message::NonceRequest(m) = sent(&r.call(Call::ProcessTimeout)) else { panic!() };
    assert_eq!((m.sign_id, m.sign_iter_id, m.message), (1, 2, b"m".to_vec()));
    assert_eq!((r.f().state, r.f().malicious_signer_ids), (NONCE_GATHER, vec![0]));

    // only 1 silent: 2, InsufficientSigners
    let mut r = Round::gathering_shares(worked());
    assert_eq!(r.share(0, &[1]), Answer::Nothing);
    r.now = 111;
    let late = Answer::Late(packet::insufficient_signers(&[1]));
    assert_eq!(r.call(Call::ProcessTimeout), late);
    assert_eq!((r.f().state, r.f().malicious_signer_ids), (SIG_SHARE_GATHER, vec![1]));
}

#[test]
fn nonce_timeout_without_a_response_is_12() {
    let mut r = Round::new(worked());
    r.start(b"m");
    r.now = 111;
    let before = r.f();
    assert_refused(&r.call(Call::ProcessTimeout), 12, &[]);
    // the packet is dropped, too
    assert_refused(&r.respond(0, &[1], b"m"), 12, &[]);
    assert_eq!(r.f(), before);
}

#[test]
fn short_shares_are_22_and_the_job_goes_on() {
    let mut r = Round::gathering_shares(worked());
    assert_refused(&r.share(1, &[2]), 22, &[1]);
    assert_eq!(r.f().message_nonces[&b"m"[..]].sign_wait_signer_ids, [0]);
    let Answer::Job { outcome, .. } = r.share(0, &[1]) else { panic!() };
    assert_eq!((r.both.mark, outcome), (0, Outcome::Signed(0)));
    assert_eq!(r.f().state, IDLE);
}

#[test]
fn idle_request_with_iteration_0() {
    let mut r = Round::new(worked());
    let Message::NonceRequest(m) = sent(&r.send(request(9, 0, b"m"))) else { panic!() };
    assert_eq!((m.dkg_id, m.sign_id, m.sign_iter_id), (DKG, 9, 0));

    let mut r = Round::new(worked());
    r.call(Call::SetGroupKey(false));
    let before = r.f();
    assert_refused(&r.send(request(9, 0, b"m")), 10, &[]);
    assert_eq!(r.f(), Fields { sign_iter_id: u64::MAX, ..before });
}

#[test]
fn a_fifth_message_is_19() {
    let mut r = Round::new(worked());
    r.start(b"1");
    for m in [b"1", b"2", b"3", b"4"] {
        assert_eq!(r.respond(0, &[1], m), Answer::Nothing);
    }
    assert_eq!(r.respond(0, &[1], b"5"), Answer::Outside(19));
    // dropped by a silent test before 19 is asked
    assert_eq!(r.respond(1, &[2], b"5"), Answer::Nothing);
}

#[test]
fn limits() {
    assert_kind(&Round::new(worked()).start(&[7; 256]), 1);
    assert_eq!(Round::new(worked()).start(&[7; 257]), Answer::Outside(9));
    let commission = |n: u32, keys: u32, num_keys: u32| {
        let mut c = worked();
        c.num_keys = num_keys;
        c.signers = (0..n).map(|i| (i, Some((0..keys).collect()))).collect();
        Round::new(worked()).call(Call::Commission(c))
    };
    assert_eq!(commission(10, 1, 10), Answer::Nothing);
    assert_eq!(commission(11, 1, 11), Answer::Outside(1));
    assert_eq!(commission(1, 16, 16), Answer::Nothing);
    assert_eq!(commission(1, 17, 17), Answer::Outside(2));
    assert_eq!(commission(4, 1, 4), Answer::Nothing);
    assert_eq!(commission(5, 1, 4), Answer::Outside(3));
}

#[test]
fn aggregator_error_keeps_the_state_and_nobody_waits() {
    let mut r = Round::gathering_shares(worked());
    r.share(0, &[1]);
    let m = Message::SignatureShareResponse(r.shares(1, &[2, 3]));
    let Answer::Job { outcome, .. } = r.send_with(m, false) else { panic!() };
    assert_eq!((r.both.mark, outcome), (1, Outcome::Failed));
    assert_eq!(r.f().state, SIG_SHARE_GATHER);
    assert!(r.f().message_nonces[&b"m"[..]].sign_wait_signer_ids.is_empty());
    // nobody is malicious, and the round is tried again
    r.now = 111;
    assert_kind(&r.call(Call::ProcessTimeout), 1);
    assert!(r.f().malicious_signer_ids.is_empty());
}

#[test]
fn every_type_has_its_result() {
    for (code, kind) in [(0, 0), (1, 1), (2, 2), (3, 2)] {
        let mut r = Round::new(worked());
        r.start_type(b"m", code, None);
        r.respond(0, &[1], b"m");
        r.respond(1, &[2, 3], b"m");
        r.share(1, &[3, 2]);
        let Answer::Job { bytes, outcome, .. } = r.share(0, &[1]) else { panic!() };
        assert_eq!((bytes[1], outcome), (code, Outcome::Signed(kind)));
    }
}

#[test]
fn backward_counts_as_elapsed_0() {
    let mut c = worked();
    c.nonce_timeout = Some(0);
    let mut r = Round::new(c);
    r.start(b"m");
    r.now = 3;
    assert_eq!(r.call(Call::ProcessTimeout), Answer::Nothing);
    assert_eq!(r.respond(0, &[1], b"m"), Answer::Nothing);
    assert_eq!(r.f().message_nonces.len(), 1);
}
