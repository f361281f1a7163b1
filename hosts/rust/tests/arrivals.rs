//! Who has answered the current message, and when: a round for each clause.

mod common;
use common::*;
use roundcabinet::*;

const GOOD: Verdict = Verdict::Good;

/// The query, which leaves every byte as it was.
fn asked(c: &Coordinator) -> Result<Vec<Arrival>, Refusal> {
    let before = (c.state().to_vec(), c.store().to_vec());
    let told = c.arrivals();
    assert!((c.state(), c.store()) == (&before.0[..], &before.1[..]), "the query changes nothing");
    told
}

/// Signers and readings.
fn came(c: &Coordinator) -> Vec<(u32, u64)> {
    asked(c).unwrap().iter().map(|arrival| (arrival.signer.0, arrival.clock)).collect()
}

/// A response is recorded, and nothing follows from it.
fn record(c: &mut Coordinator, clock: u64, packet: &[u8]) {
    assert_eq!(c.process(clock, GOOD, packet), Ok(Answer::Nothing));
}

/// The share request that leaves with this response.
fn complete(c: &mut Coordinator, clock: u64, packet: &[u8]) -> ShareRequest {
    let sent = c.process(clock, GOOD, packet).unwrap();
    ShareRequest::read(sent.packet().expect("enough keys")).unwrap()
}

#[test]
fn ascending_with_the_readings_of_their_calls() {
    let (mut c, request) = started(&worked());
    assert_eq!(came(&c), [], "nobody has answered");
    record(&mut c, 101, &answers(&request, 2));
    assert_eq!(came(&c), [(2, 101)]);
    record(&mut c, 103, &answers(&request, 0));
    assert_eq!(came(&c), [(0, 103), (2, 101)]);
    complete(&mut c, 102, &answers(&request, 1));
    assert_eq!(came(&c), [(0, 103), (1, 102), (2, 101)]);
}

#[test]
fn readings_that_go_back_or_are_late() {
    let (mut c, request) = started(&worked());
    record(&mut c, 90, &answers(&request, 2));
    assert_eq!(c.process_message(u64::MAX, GOOD, &answers(&request, 0)), Ok(Answer::Nothing));
    assert_eq!(came(&c), [(0, u64::MAX), (2, 90)]);
}

/// A timeout that is due gives its result after the query as before it; the response that met it is not recorded.
#[test]
fn no_timeout_is_tested() {
    let (mut c, request) = started(&worked());
    record(&mut c, 101, &answers(&request, 2));
    let late = Answer::NonceTimeout { waiters: signer_ids(&[2]), malicious: vec![] };
    assert_eq!(c.process(112, GOOD, &answers(&request, 0)), Ok(late.clone()));
    assert_eq!(came(&c), [(2, 101)]);
    assert_eq!(c.process_timeout(113), Ok(late));
    assert_eq!(came(&c), [(2, 101)]);
}

#[test]
fn a_second_response_leaves_the_first_reading() {
    let (mut c, request) = started(&worked());
    record(&mut c, 101, &answers(&request, 2));
    record(&mut c, 102, &answers(&request, 2));
    record(&mut c, 103, &answers_message(&request, 2, b"b"));
    assert_eq!(came(&c), [(2, 101)]);
}

/// The message whose responders' keys suffice becomes the current one.
#[test]
fn the_current_message_is_replaced() {
    let (mut c, request) = started(&worked());
    record(&mut c, 101, &answers(&request, 2));
    record(&mut c, 102, &answers_message(&request, 0, b"b"));
    assert_eq!(came(&c), [(2, 101)]);
    complete(&mut c, 103, &answers_message(&request, 1, b"b"));
    assert_eq!(came(&c), [(0, 102), (1, 103)]);
}

/// The current message is that of the start that was refused.
#[test]
fn after_11() {
    let (mut c, request) = started(&worked());
    record(&mut c, 101, &answers_message(&request, 2, b"b"));
    record(&mut c, 102, &answers(&request, 0));
    complete(&mut c, 103, &answers(&request, 1));
    for (message, told) in [(b"b", vec![(2, 101)]), (b"c", vec![]), (b"a", vec![(0, 102), (1, 103)])] {
        assert_eq!(c.start_signing_round(104, message, SignatureType::Schnorr, None), Err(Refusal::Move));
        assert_eq!(came(&c), told);
    }
}

#[test]
fn a_nonce_request_empties_the_list() {
    let (mut c, request) = to_shares(&worked());
    assert_eq!(came(&c), [(0, 102), (1, 102)]);
    record(&mut c, 103, &shares(&request, 1));
    let retry = c.process_timeout(113).unwrap();
    assert_eq!(came(&c), [], "a retry");
    let retry = NonceRequest::read(retry.packet().unwrap()).unwrap();
    record(&mut c, 114, &answers(&retry, 0));
    record(&mut c, 115, &answers(&retry, 2));
    assert_eq!(came(&c), [(2, 115)], "without the one that is left out");

    let (mut c, _) = to_shares(&worked());
    c.start_signing_round(104, b"a", SignatureType::Frost, None).unwrap();
    assert_eq!(came(&c), [], "a start");

    let (mut c, _) = signed();
    assert_ne!(came(&c), []);
    assert!(c.process(105, GOOD, &idle_request(b"a", 5, 1)).unwrap().packet().is_some());
    assert_eq!(came(&c), [], "a request that is taken in Idle");
}

/// 0 and 1 have answered at 102 and shared.
fn signed() -> (Coordinator, ShareRequest) {
    let (mut c, request) = to_shares(&worked());
    record(&mut c, 103, &shares(&request, 0));
    assert!(matches!(c.process(104, GOOD, &shares(&request, 1)), Ok(Answer::Job { .. })));
    assert_eq!(asked(&c), Err(Refusal::JobOut));
    assert_eq!(c.aggregated(true), Ok(Answer::Signed(SignatureKind::Frost)));
    (c, request)
}

#[test]
fn after_success_the_list_stays_until_reset_or_commissioning() {
    let (mut c, _) = signed();
    assert_eq!(c.is_idle(), Ok(true));
    assert_eq!(came(&c), [(0, 102), (1, 102)]);
    c.reset().unwrap();
    assert_eq!(came(&c), []);

    let (mut c, _) = signed();
    c.commission_again(&worked()).unwrap();
    assert_eq!(came(&c), []);
}

#[test]
fn after_too_few_keys_the_list_stays() {
    let (mut c, request) = to_shares(&worked());
    record(&mut c, 103, &shares(&request, 0));
    let too_few = Answer::InsufficientSigners { malicious: signer_ids(&[1]) };
    assert_eq!(c.process_timeout(113), Ok(too_few));
    assert_eq!(came(&c), [(0, 102), (1, 102)]);
}

/// 10 keeps the record, its reading too; the query asks for no key.
#[test]
fn without_the_group_key() {
    let (mut c, request) = started(&worked());
    c.set_group_key(false).unwrap();
    record(&mut c, 101, &answers_message(&request, 0, b"b"));
    assert_eq!(c.process(103, GOOD, &answers_message(&request, 1, b"b")), Err(Refusal::GroupKey));
    assert_eq!(came(&c), [(0, 101), (1, 103)], "the message that sufficed is the current one");
}

#[test]
fn ten_signers_named_in_descending_order() {
    let config = (0..10).rev().fold(Config::new(10, 10, 11), |config, i| config.signer(with_keys(1 << (3 * i), &[i])));
    let (mut c, request) = started(&config.verify_packet_sigs(false));
    let told: Vec<(u32, u64)> = (0..10u64).map(|i| (1 << (3 * i), u64::MAX / (i + 3))).collect();
    for (i, (signer, clock)) in told.iter().enumerate() {
        let response = answers_with(&request, *signer, &[i as u32]);
        assert_eq!(c.process_message(*clock, GOOD, &response), Ok(Answer::Nothing));
    }
    assert_eq!(came(&c), told);
}

/// State and store are only read, and each query has an answer buffer of its own.
#[test]
fn several_threads_ask_at_once() {
    let (mut c, request) = started(&worked());
    record(&mut c, 101, &answers(&request, 2));
    let (c, told) = (&c, asked(&c).unwrap());
    std::thread::scope(|scope| {
        for _ in 0..4 {
            scope.spawn(|| (0..500).for_each(|_| assert_eq!(c.arrivals().as_ref(), Ok(&told))));
        }
    });
}
