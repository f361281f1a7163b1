//! Nonce responses that are passed over without a word, and one that is not: an empty key set is a key set.

mod common;
use common::*;
use roundcabinet::*;

/// 01's worked configuration with two signers more: 3 has no key set, and 4 an empty one. All four keys are wanted.
fn config() -> Config {
    worked().sign_threshold(4).signer(Signer::without_keys(SignerId(3))).signer(with_keys(4, &[]))
}

/// Who has answered, as a nonce timeout tells it. The query names the same.
fn answered(c: &mut Coordinator) -> Vec<SignerId> {
    let told = match c.process_timeout(111) {
        Ok(Answer::NonceTimeout { waiters, malicious }) if malicious.is_empty() => waiters,
        Err(Refusal::NoRecord) => vec![],
        other => panic!("{other:?}"),
    };
    assert_eq!(c.arrivals().unwrap().iter().map(|arrival| arrival.signer).collect::<Vec<_>>(), told);
    told
}

/// State and store, as a host would save them.
fn held(c: &Coordinator) -> (Vec<u8>, Vec<u8>) {
    (c.state().to_vec(), c.store().to_vec())
}

#[test]
fn who_is_passed_over() {
    let (mut c, request) = started(&config());
    let passed_over = [
        ("not configured", answers_with(&request, 9, &[])),
        ("without a key set", answers_with(&request, 3, &[])),
        ("a key of an empty set", answers_with(&request, 4, &[4])),
        ("a key too few", answers_with(&request, 1, &[2])),
        ("a key too many", answers_with(&request, 0, &[1, 2])),
    ];
    for (why, packet) in passed_over {
        let before = held(&c);
        assert_eq!(c.process(101, Verdict::Good, &packet), Ok(Answer::Nothing), "{why}");
        assert_eq!(held(&c), before, "what is dropped changes nothing: {why}");
        assert_eq!(answered(&mut c), [], "{why}");
    }
    let before = held(&c);
    assert_eq!(c.process(101, Verdict::Good, &answers_with(&request, 4, &[])), Ok(Answer::Nothing));
    assert_ne!(held(&c), before, "what is recorded changes the state");
    assert_eq!(answered(&mut c), [SignerId(4)]);
}

/// `Answer::Nothing` says recorded and dropped alike; state and store tell them apart. Of a share that counts, one that comes twice and one that nobody waits for.
#[test]
fn what_tells_recorded_from_dropped() {
    let (mut c, request) = to_shares(&worked());
    for (signer, counts) in [(2, false), (0, true), (0, false)] {
        let before = held(&c);
        assert_eq!(c.process(103, Verdict::Good, &shares(&request, signer)), Ok(Answer::Nothing));
        assert_eq!(held(&c).0 != before.0, counts);
        assert_eq!(held(&c) != before, counts);
    }
}

#[test]
fn who_did_not_end_key_generation() {
    let mut c = ready(&config());
    c.take_results(DKG, &[SignerId(1)]).unwrap();
    let request = NonceRequest::read(&c.start_signing_round(100, b"a", SignatureType::Frost, None).unwrap()).unwrap();
    for signer in [0, 1, 2] {
        assert_eq!(c.process(101, Verdict::Good, &answers(&request, signer)), Ok(Answer::Nothing));
    }
    assert_eq!(answered(&mut c), [SignerId(1)]);
}

/// The number of nonces is compared with nothing, and a second response to one message does nothing.
#[test]
fn what_is_not_compared() {
    let (mut c, request) = started(&worked());
    let none = signer::answer(&request, SignerId(0), &keys(&[1]), &[]).unwrap();
    assert_eq!(c.process(101, Verdict::Good, &none), Ok(Answer::Nothing));
    assert_eq!(c.process(101, Verdict::Good, &answers(&request, 0)), Ok(Answer::Nothing));
    let five = signer::answer(&request, SignerId(1), &keys(&[2, 3]), &[NONCE; 5]).unwrap();
    let sent = c.process(101, Verdict::Good, &five).unwrap();
    let sent = ShareRequest::read(sent.packet().unwrap()).unwrap();
    assert_eq!(sent.responses.iter().map(|r| r.nonces.len()).collect::<Vec<_>>(), [0, 5]);
}
