//! 01, "Worked rounds", on the library.

mod common;
use common::*;
use roundcabinet::*;

const GOOD: Verdict = Verdict::Good;

/// "Elapsed 10 nothing, 11 fires."
#[test]
fn ten_nanoseconds_are_not_late_and_eleven_are() {
    let (mut c, request) = started(&worked());
    assert_eq!(c.process(101, GOOD, &answers(&request, 0)), Ok(Answer::Nothing));
    assert_eq!(c.process_timeout(110), Ok(Answer::Nothing));
    let late = Answer::NonceTimeout { waiters: signer_ids(&[0]), malicious: vec![] };
    assert_eq!(c.process_timeout(111), Ok(late));

    assert!(c.process(105, GOOD, &answers(&request, 1)).unwrap().packet().is_some());
    assert_eq!(c.process_timeout(115), Ok(Answer::Nothing));
    let late = Answer::InsufficientSigners { malicious: signer_ids(&[0, 1]) };
    assert_eq!(c.process_timeout(116), Ok(late));
}

/// "0 and 2 answer: 2 keys, gathering. 0 and 1: 3 keys, request leaves."
#[test]
fn the_request_leaves_at_three_keys() {
    let (mut c, request) = started(&worked());
    assert_eq!(c.process(101, GOOD, &answers(&request, 0)), Ok(Answer::Nothing));
    assert_eq!(c.process(101, GOOD, &answers(&request, 2)), Ok(Answer::Nothing));

    let (_, sent) = to_shares(&worked());
    assert_eq!((sent.ids, &sent.message[..]), (request.ids, &b"a"[..]));
    let responders: Vec<SignerId> = sent.responses.iter().map(|r| r.signer).collect();
    assert_eq!(responders, signer_ids(&[0, 1]));
}

/// "1 lists 3, 2, 3: recorded. Lists 2: nothing."
#[test]
fn key_lists_are_compared_as_sets() {
    let (mut c, request) = started(&worked());
    assert_eq!(c.process(101, GOOD, &answers(&request, 0)), Ok(Answer::Nothing));
    assert_eq!(c.process(101, GOOD, &answers_with(&request, 1, &[2])), Ok(Answer::Nothing));
    let sent = c.process(101, GOOD, &answers_with(&request, 1, &[3, 2, 3])).unwrap();
    let sent = ShareRequest::read(sent.packet().unwrap()).unwrap();
    assert_eq!(sent.responses[1].key_ids, keys(&[3, 2, 3]), "as it was sent");
}

/// "D = G: nothing. D with first byte 03, G otherwise: recorded."
#[test]
fn generator_and_identity_are_no_nonces() {
    let (mut c, request) = started(&worked());
    assert_eq!(c.process(101, GOOD, &answers(&request, 1)), Ok(Answer::Nothing));
    let with = |nonce| signer::answer(&request, SignerId(0), &keys(&[1]), &[nonce]).unwrap();
    let refused = [
        Nonce { d: GENERATOR, ..NONCE },
        Nonce { e: GENERATOR, ..NONCE },
        Nonce { d: [0; 33], ..NONCE },
        Nonce { e: [0; 33], ..NONCE },
    ];
    for nonce in refused {
        assert_eq!(c.process(101, GOOD, &with(nonce)), Ok(Answer::Nothing));
    }
    let mut d = GENERATOR;
    d[0] = 3;
    assert!(c.process(101, GOOD, &with(Nonce { d, ..NONCE })).unwrap().packet().is_some());
}

/// "After 0 and 1, only 0 silent: 4 − 1 = 3, retry. Only 1 silent: 2, InsufficientSigners."
#[test]
fn three_keys_left_are_a_retry_and_two_are_too_few() {
    let (mut c, request) = to_shares(&worked());
    assert_eq!(c.process(103, GOOD, &shares(&request, 1)), Ok(Answer::Nothing));
    let retry = c.process_timeout(113).unwrap();
    let retry = NonceRequest::read(retry.packet().unwrap()).unwrap();
    assert_eq!((retry.ids.sign_id, retry.ids.iteration, &retry.message[..]), (1, 2, &b"a"[..]));

    let (mut c, request) = to_shares(&worked());
    assert_eq!(c.process(103, GOOD, &shares(&request, 0)), Ok(Answer::Nothing));
    let too_few = Answer::InsufficientSigners { malicious: signer_ids(&[1]) };
    assert_eq!(c.process_timeout(113), Ok(too_few.clone()));
    assert_eq!(c.process_timeout(114), Ok(too_few), "the state stays");
}

/// "Nonce timeout, no response: 12."
#[test]
fn a_nonce_timeout_without_a_response() {
    let (mut c, request) = started(&worked());
    assert_eq!(c.process_timeout(111), Err(Refusal::NoRecord));
    assert_eq!(c.process(111, GOOD, &answers(&request, 0)), Err(Refusal::NoRecord), "the packet is dropped");
    assert_eq!(c.process_message(111, GOOD, &answers(&request, 0)), Ok(Answer::Nothing), "and here it is taken");
    let late = Answer::NonceTimeout { waiters: signer_ids(&[0]), malicious: vec![] };
    assert_eq!(c.process_timeout(111), Ok(late));
}

/// "1 shares only key 2: 22; then 0's good shares: job, whole no."
#[test]
fn shares_for_other_keys_are_refused_and_the_job_is_not_whole() {
    let (mut c, request) = to_shares(&worked());
    let refused = Answer::ShareRefused(Refusal::WrongKeys(SignerId(1)));
    assert_eq!(c.process(103, GOOD, &shares_with(&request, 1, &[2])), Ok(refused));
    assert_eq!(c.process(103, GOOD, &shares(&request, 1)), Ok(Answer::Nothing), "1 is waited for no more");
    let Ok(Answer::Job { packet, whole }) = c.process(103, GOOD, &shares(&request, 0)) else { panic!("a job") };
    let job = Job::read(&packet).unwrap();
    assert_eq!((whole, job.key_ids, job.shares), (false, keys(&[1, 2, 3]), vec![share(1)]));
    assert_eq!(c.aggregated(false), Ok(Answer::AggregationFailed));
}

/// "Idle request, iteration 0: sent with 0; with no group key 10, and 2^64 − 1 is left."
#[test]
fn an_idle_request_of_iteration_0() {
    let mut c = ready(&worked());
    let sent = c.process(100, GOOD, &idle_request(b"a", 5, 0)).unwrap();
    assert_eq!(NonceRequest::read(sent.packet().unwrap()).unwrap().ids.iteration, 0);

    let mut c = ready(&worked());
    c.set_group_key(false).unwrap();
    assert_eq!(c.process(100, GOOD, &idle_request(b"a", 5, 0)), Err(Refusal::GroupKey));
    c.set_group_key(true).unwrap();
    let packet = c.start_signing_round(100, b"a", SignatureType::Frost, None).unwrap();
    assert_eq!(NonceRequest::read(&packet).unwrap().ids.iteration, 0, "one more than 2^64 - 1, wrapping");
}

/// "0 answers four messages, then a fifth: 19."
#[test]
fn a_fifth_message() {
    let (mut c, request) = started(&worked());
    for message in [&b"a"[..], b"b", b"", b"d"] {
        assert_eq!(c.process(101, GOOD, &answers_message(&request, 0, message)), Ok(Answer::Nothing));
    }
    assert_eq!(c.process(101, GOOD, &answers_message(&request, 0, b"e")), Err(Refusal::Messages));
    assert_eq!(c.process(101, GOOD, &answers_message(&request, 1, b"e")), Err(Refusal::Messages));
    let sent = c.process(101, GOOD, &answers_message(&request, 1, b"b")).unwrap();
    assert_eq!(ShareRequest::read(sent.packet().unwrap()).unwrap().message, b"b");
}

/// "Wrong, though natural: comparing the share's iteration".
#[test]
fn the_iteration_of_shares_is_not_compared() {
    let (mut c, mut request) = to_shares(&worked());
    request.ids.iteration = 99;
    assert_eq!(c.process(103, GOOD, &shares(&request, 1)), Ok(Answer::Nothing));
    assert!(matches!(c.process(103, GOOD, &shares(&request, 0)), Ok(Answer::Job { whole: true, .. })));
}

/// "Clearing strikes on reset" is wrong too: who was left out stays so.
#[test]
fn reset_keeps_who_was_left_out() {
    let (mut c, _) = to_shares(&worked());
    let malicious = signer_ids(&[0, 1]);
    assert_eq!(c.process_timeout(113), Ok(Answer::InsufficientSigners { malicious: malicious.clone() }));
    c.reset().unwrap();
    c.take_results(DKG, &signer_ids(&[0, 1, 2])).unwrap();
    let packet = c.start_signing_round(200, b"a", SignatureType::Frost, None).unwrap();
    let request = NonceRequest::read(&packet).unwrap();
    for signer in [0, 1, 2] {
        assert_eq!(c.process(201, GOOD, &answers(&request, signer)), Ok(Answer::Nothing));
    }
    assert_eq!(c.process_timeout(211), Ok(Answer::NonceTimeout { waiters: signer_ids(&[2]), malicious }));
}

/// "One threshold for both tests" is wrong too.
#[test]
fn the_two_thresholds_are_two() {
    let (mut c, _) = to_shares(&Config { threshold: 1, ..worked() });
    assert!(c.process_timeout(113).unwrap().packet().is_some(), "one key is left, and one is enough for a retry");
}
