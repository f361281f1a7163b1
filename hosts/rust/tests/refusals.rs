//! Each refusal that a host can meet, with what it changes. 7 stands in src/ffi/lengths_test.rs; 1 to 3, 9 and 25 in limits.rs; 12 and 19 in
//! worked_rounds.rs; 20 and 21 cannot be met by any list of calls: who is waited for has been configured, with a key set, since it answered.

mod common;
use common::*;
use roundcabinet::*;

const GOOD: Verdict = Verdict::Good;
const FROST: SignatureType = SignatureType::Frost;
const SCHNORR: SignatureType = SignatureType::Schnorr;

fn with_job_out() -> Coordinator {
    let (mut c, request) = to_shares(&worked());
    c.process(103, GOOD, &shares(&request, 0)).unwrap();
    assert!(matches!(c.process(103, GOOD, &shares(&request, 1)), Ok(Answer::Job { .. })));
    c
}

/// 5: every call but reset and the aggregator's answer.
#[test]
fn a_job_is_out() {
    let mut c = with_job_out();
    let before = c.state().to_vec();
    assert_eq!(c.set_coordinator_key(true), Err(Refusal::JobOut));
    assert_eq!(c.set_group_key(true), Err(Refusal::JobOut));
    assert_eq!(c.take_results(7, &[]), Err(Refusal::JobOut));
    assert_eq!(c.start_signing_round(103, b"a", FROST, None), Err(Refusal::JobOut));
    assert_eq!(c.process(103, GOOD, b""), Err(Refusal::JobOut), "5 before 8");
    assert_eq!(c.process_message(103, GOOD, b""), Err(Refusal::JobOut));
    assert_eq!(c.process_timeout(103), Err(Refusal::JobOut));
    assert_eq!(c.can_move_to(Phase::Idle), Err(Refusal::JobOut));
    assert_eq!(c.state(), before);
    assert_eq!(c.reset(), Ok(()));
    assert_eq!(c.aggregated(true), Err(Refusal::NoJob), "reset has dropped it");
}

/// 23 is a result, and 6 follows it: the job is no longer out.
#[test]
fn the_aggregator_failed() {
    let mut c = with_job_out();
    assert_eq!(c.aggregated(false), Ok(Answer::AggregationFailed));
    assert_eq!(c.aggregated(false), Err(Refusal::NoJob));
    let retry = c.process_timeout(113).unwrap();
    assert_eq!(NonceRequest::read(retry.packet().unwrap()).unwrap().ids.iteration, 2);
}

/// 8 comes before any timeout.
#[test]
fn bytes_that_are_no_packet() {
    let (mut c, request) = started(&worked());
    let good = answers(&request, 0);
    let kind_0 = [&[0], &good[1..]].concat();
    let kind_8 = [&[8], &good[1..]].concat();
    for bytes in [&[][..], &good[1..], &good[..good.len() - 1], &kind_0, &kind_8] {
        assert_eq!(c.process(999, GOOD, bytes), Err(Refusal::Layout));
        assert_eq!(c.process_message(999, GOOD, bytes), Err(Refusal::Layout));
    }
    assert_eq!(c.process(999, GOOD, &good), Err(Refusal::NoRecord));
}

/// 10 on a start changes nothing; while nonces are gathered the response is recorded.
#[test]
fn no_group_key() {
    let (mut c, request) = started(&worked());
    c.set_group_key(false).unwrap();
    let before = c.state().to_vec();
    assert_eq!(c.start_signing_round(100, b"b", FROST, Some(9)), Err(Refusal::GroupKey));
    assert_eq!(c.state(), before);

    assert_eq!(c.process(101, GOOD, &answers(&request, 0)), Ok(Answer::Nothing));
    assert_eq!(c.process(101, GOOD, &answers(&request, 1)), Err(Refusal::GroupKey));
    c.set_group_key(true).unwrap();
    let sent = c.process(101, GOOD, &answers(&request, 2)).unwrap();
    assert_eq!(ShareRequest::read(sent.packet().unwrap()).unwrap().responses.len(), 3);
}

/// 11 changes message and sign id, and so signers that answer in time look silent: why the move question is asked first.
#[test]
fn a_start_that_is_not_allowed() {
    let (mut c, request) = to_shares(&worked());
    assert_eq!(c.can_move_to(Phase::NonceRequest(SCHNORR)), Ok(false));
    assert_eq!(c.start_signing_round(103, b"a", SCHNORR, None), Err(Refusal::Move));
    let refused = Answer::ShareRefused(Refusal::SignId { got: 1, expected: 2 });
    assert_eq!(c.process(104, GOOD, &shares(&request, 0)), Ok(refused.clone()));
    assert_eq!(c.process(104, GOOD, &shares(&request, 1)), Ok(refused));
    let malicious = signer_ids(&[0, 1]);
    assert_eq!(c.process_timeout(113), Ok(Answer::InsufficientSigners { malicious }));
}

/// 13 and 14, which are asked where seals are verified.
#[test]
fn seals() {
    let (mut c, request) = started(&worked().verify_packet_sigs(true));
    assert_eq!(c.process(101, GOOD, &answers(&request, 0)), Err(Refusal::CoordinatorKey));
    c.set_coordinator_key(true).unwrap();
    assert_eq!(c.process(101, Verdict::Bad, &answers(&request, 0)), Err(Refusal::Seal));
    assert_eq!(c.process_message(101, GOOD, &answers_with(&request, 9, &[9])), Err(Refusal::Seal), "unknown");
    assert_eq!(c.process(101, GOOD, &dkg_packet(6, 9, 7)), Err(Refusal::Seal));
    assert_eq!(c.process(101, GOOD, &dkg_packet(7, 0, 7)), Ok(Answer::Nothing), "a coordinator's");
    assert_eq!(c.process(101, GOOD, &answers(&request, 0)), Ok(Answer::Nothing));
    assert!(c.process(101, GOOD, &answers(&request, 1)).unwrap().packet().is_some());

    let (mut c, request) = started(&worked());
    assert_eq!(c.process(101, Verdict::Bad, &answers(&request, 0)), Ok(Answer::Nothing), "not asked");
    assert!(c.process(101, Verdict::Bad, &answers(&request, 1)).unwrap().packet().is_some());
}

/// 14 of a signer that is not configured, kind by kind. Signer 0 isn't here, and a coordinator's packet has 0 in a signer's place.
#[test]
fn who_sealed_it() {
    let config = Config::new(2, 3, 3).signer(with_keys(1, &[2, 3])).signer(with_keys(2, &[4]));
    let (mut c, request) = started(&config);
    c.set_coordinator_key(true).unwrap();
    let head = write::Head { ids: request.ids, signature_type: FROST, message: b"a" };
    let share_request = write::share_request(head, &[]).unwrap();
    let packets = [
        (write::nonce_request(head).unwrap(), false),
        (answers_with(&request, 0, &[]), true),
        (share_request.clone(), false),
        (shares_with(&ShareRequest::read(&share_request).unwrap(), 0, &[]), true),
        (dkg_packet(5, 0, 7), false),
        (dkg_packet(6, 0, 7), true),
        (dkg_packet(7, 0, 7), false),
    ];
    for (number, (packet, signers)) in (1..).zip(packets) {
        let kind = Packet::read(&packet).unwrap().kind();
        assert_eq!((kind.number(), kind.is_signer_kind()), (number, signers));
        let told = if signers { Err(Refusal::Seal) } else { Ok(Answer::Nothing) };
        assert_eq!(c.process(101, GOOD, &packet), told, "{kind}");
        assert_eq!(c.process_message(101, GOOD, &packet), told, "{kind}");
    }
}

/// 15
#[test]
fn another_key_generation() {
    let mut c = ready(&worked());
    assert_eq!(c.process(100, GOOD, &dkg_packet(5, 0, 7)), Ok(Answer::Nothing));
    assert_eq!(c.process(100, GOOD, &dkg_packet(5, 0, 8)), Err(Refusal::DkgBegin));
}

/// 16 to 18 are errors while nonces are gathered; 16 and 17 are results while shares are.
#[test]
fn ids_that_are_not_current() {
    let (mut c, request) = started(&worked());
    let with = |dkg_id, sign_id, iteration| {
        let ids = RoundIds { dkg_id, sign_id, iteration };
        answers(&NonceRequest { ids, ..request.clone() }, 0)
    };
    assert_eq!(c.process(101, GOOD, &with(1, 2, 3)), Err(Refusal::DkgId { got: 1, expected: 7 }));
    assert_eq!(c.process(101, GOOD, &with(7, 2, 3)), Err(Refusal::SignId { got: 2, expected: 1 }));
    assert_eq!(c.process(101, GOOD, &with(7, 1, u64::MAX)), Err(Refusal::Iteration { got: u64::MAX, expected: 1 }));

    let (mut c, request) = to_shares(&worked());
    let with = |dkg_id, sign_id, signer| {
        let ids = RoundIds { dkg_id, sign_id, iteration: 1 };
        shares(&ShareRequest { ids, ..request.clone() }, signer)
    };
    let refused = |refusal| Ok(Answer::ShareRefused(refusal));
    assert_eq!(c.process(103, GOOD, &with(8, 2, 0)), refused(Refusal::DkgId { got: 8, expected: 7 }));
    assert_eq!(c.process(103, GOOD, &with(7, 2, 0)), refused(Refusal::SignId { got: 2, expected: 1 }));
    assert_eq!(c.process(103, GOOD, &with(8, 2, 2)), Ok(Answer::Nothing), "2 is not waited for");
}

/// 24
#[test]
fn results_while_a_round_is_on() {
    let (mut c, _) = started(&worked());
    assert_eq!(c.take_results(8, &[]), Err(Refusal::NotIdle));
    assert_eq!(c.take_results(8, &signer_ids(&[9])), Err(Refusal::NotIdle), "24 before 25");
    c.reset().unwrap();
    assert_eq!(c.take_results(8, &[]), Ok(()));
}
