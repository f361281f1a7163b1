//! Corners that a port gets wrong at first, on both sides.

mod common;
use common::*;
use compare::{
    calls::{Answer, Call, Commission},
    packet,
    states::{NONCE_GATHER, SIG_SHARE_GATHER},
};
use wsts::net::Message;

/// The one place where 01's words and fire.rs differ in an answer: shares of a waiter whose shares
/// are already held, for another message. By 01's words they are recorded, and as nobody waits, a
/// job comes. fire.rs frees the waiter and does nothing more; so does the library.
#[test]
fn shares_held_already() {
    let mut r = Round::two_records();
    assert_eq!(r.share(0, &[1]), Answer::Nothing);
    assert_refused(&r.start_type(b"b", SCHNORR, Some(1)), 11, &[]);
    let before = r.f();
    assert_eq!((before.state, &before.message[..]), (SIG_SHARE_GATHER, &b"b"[..]));
    assert_eq!(before.message_nonces[&b"b"[..]].sign_wait_signer_ids, [0]);
    assert_eq!(r.share(0, &[1]), Answer::Nothing);
    let after = r.f();
    assert!(after.message_nonces[&b"b"[..]].sign_wait_signer_ids.is_empty());
    assert_eq!(after.signature_shares, before.signature_shares);
    assert_eq!(after.state, SIG_SHARE_GATHER);
    // the keys are still compared first
    let mut r = Round::two_records();
    r.share(0, &[1]);
    r.start_type(b"b", SCHNORR, Some(1));
    assert_refused(&r.share(0, &[2]), 22, &[0]);
}

#[test]
fn nested_responses_keep_their_sign_id() {
    let mut r = Round::new(two());
    r.start(b"a");
    r.respond(0, &[1], b"a");
    assert_refused(&r.start_type(b"a", FROST, Some(40)), 11, &[]);
    let Message::SignatureShareRequest(m) = sent(&r.respond(1, &[2], b"a")) else { panic!() };
    assert_eq!(m.sign_id, 40);
    assert_eq!((m.nonce_responses[0].sign_id, m.nonce_responses[1].sign_id), (1, 40));
}

#[test]
fn job_below_the_sign_threshold() {
    let mut r = Round::two_records();
    assert_refused(&r.start_type(b"b", SCHNORR, Some(1)), 11, &[]);
    let Answer::Job { bytes, .. } = r.share(0, &[1]) else { panic!() };
    // the state's type decides, not the refused start's
    assert_eq!((bytes[1], r.both.mark), (FROST, 1));
    assert_eq!(packet::parts(&bytes).unwrap()[0], b"b");
}

#[test]
fn shares_of_another_message_in_a_job() {
    let c = Commission {
        sign_threshold: 3,
        num_keys: 3,
        signers: vec![(0, Some(vec![1])), (1, Some(vec![2])), (2, Some(vec![3]))],
        ..two()
    };
    let mut r = Round::new(c);
    r.start(b"a");
    r.respond(0, &[1], b"b");
    r.respond(1, &[2], b"b");
    r.respond(0, &[1], b"a");
    r.respond(1, &[2], b"a");
    assert_kind(&r.respond(2, &[3], b"a"), 3);
    r.share(0, &[1]);
    r.start_type(b"b", SCHNORR, Some(1));
    assert_eq!(r.share(0, &[1]), Answer::Nothing);
    assert_kind(&r.share(1, &[2]), 32);
}

#[test]
fn refused_start_to_an_unknown_message() {
    let mut r = Round::two_records();
    r.start_type(b"c", SCHNORR, Some(1));
    let before = r.f();
    assert_eq!(r.share(0, &[1]), Answer::Nothing);
    r.now = 111;
    assert_refused(&r.call(Call::ProcessTimeout), 12, &[]);
    assert_eq!(r.f(), before);
}

/// An 11 while shares are gathered: signers that share with the request's ids get 17, and the
/// timeout holds them to be malicious.
#[test]
fn refused_start_marks_signers_that_answered() {
    let mut r = Round::new(two());
    r.start(b"a");
    r.respond(0, &[1], b"a");
    assert_kind(&r.respond(1, &[2], b"a"), 3);
    let shares = [r.shares(0, &[1]), r.shares(1, &[2])];
    assert_refused(&r.start_type(b"a", SCHNORR, None), 11, &[]);
    for m in shares {
        assert_refused(&r.send(Message::SignatureShareResponse(m)), 17, &[1, 2]);
    }
    r.now = 111;
    let late = Answer::Late(packet::insufficient_signers(&[0, 1]));
    assert_eq!(r.call(Call::ProcessTimeout), late);
}

#[test]
fn start_in_share_gathering() {
    let mut r = Round::two_records();
    r.share(0, &[1]);
    let before = r.f();
    r.now = 105;
    let Message::NonceRequest(m) = sent(&r.start_type(b"z", FROST, None)) else { panic!() };
    assert_eq!((m.sign_id, m.sign_iter_id), (2, 2));
    let f = r.f();
    assert_eq!((f.state, f.message_nonces.len()), (NONCE_GATHER, 0));
    assert_eq!((f.signature_shares, f.sign_start), (before.signature_shares, before.sign_start));
}

#[test]
fn retry_without_group_key() {
    let mut r = Round::two_records();
    r.share(0, &[1]);
    r.call(Call::SetGroupKey(false));
    r.now = 111;
    assert_kind(&r.call(Call::ProcessTimeout), 1);
}

#[test]
fn last_waiter_refused() {
    let mut r = Round::two_records();
    r.share(0, &[1]);
    assert_refused(&r.share(1, &[1]), 22, &[1]);
    assert_eq!(r.share(1, &[2]), Answer::Nothing);
    r.now = 111;
    assert_kind(&r.call(Call::ProcessTimeout), 1);
    assert!(r.f().malicious_signer_ids.is_empty());
}

#[test]
fn threshold_without_group_key() {
    let mut r = Round::new(worked());
    r.start(b"m");
    r.respond(0, &[1], b"n");
    r.call(Call::SetGroupKey(false));
    assert_refused(&r.respond(1, &[2, 3], b"n"), 10, &[]);
    assert_eq!((r.f().state, &r.f().message[..]), (NONCE_GATHER, &b"n"[..]));
    // the same signer again does nothing; a new one sends
    r.call(Call::SetGroupKey(true));
    assert_eq!(r.respond(1, &[2, 3], b"n"), Answer::Nothing);
    assert_kind(&r.respond(2, &[4], b"n"), 3);
}
