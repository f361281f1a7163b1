//! The move question in the three phases that a host's calls reach, over all fifteen, as `can_move_to` of fire.rs answers it.

mod common;
use common::*;
use roundcabinet::*;

const ROOT: SignatureType = SignatureType::TaprootRoot([5; 32]);
const OTHERS: [SignatureType; 4] =
    [SignatureType::Frost, SignatureType::Schnorr, SignatureType::Taproot, SignatureType::TaprootRoot([6; 32])];

/// Those that the coordinator may move to.
fn allowed(c: &mut Coordinator, signature_type: SignatureType) -> Vec<Phase> {
    let all = [
        Phase::Idle,
        Phase::DkgPublicDistribute,
        Phase::DkgPublicGather,
        Phase::DkgPublicSharesDoneDistribute,
        Phase::DkgPublicSharesDoneGather,
        Phase::DkgPrivateDistribute,
        Phase::DkgPrivateGather,
        Phase::DkgPrivateSharesDoneDistribute,
        Phase::DkgPrivateSharesDoneGather,
        Phase::DkgEndDistribute,
        Phase::DkgEndGather,
        Phase::NonceRequest(signature_type),
        Phase::NonceGather(signature_type),
        Phase::SigShareRequest(signature_type),
        Phase::SigShareGather(signature_type),
    ];
    let before = c.state().to_vec();
    let allowed = all.into_iter().filter(|phase| c.can_move_to(*phase).unwrap()).collect();
    assert_eq!(c.state(), before, "a question changes nothing");
    allowed
}

#[test]
fn in_idle() {
    let mut c = ready(&worked());
    assert_eq!(c.is_idle(), Ok(true));
    for t in OTHERS {
        assert_eq!(allowed(&mut c, t), [Phase::Idle, Phase::DkgPublicDistribute, Phase::NonceRequest(t)]);
    }
}

#[test]
fn while_nonces_are_gathered() {
    let mut c = ready(&worked());
    c.start_signing_round(100, b"a", ROOT, None).unwrap();
    assert_eq!(c.is_idle(), Ok(false));
    assert_eq!(allowed(&mut c, ROOT), [Phase::Idle, Phase::NonceGather(ROOT), Phase::SigShareRequest(ROOT)]);
    for other in OTHERS {
        assert_eq!(allowed(&mut c, other), [Phase::Idle]);
    }
}

#[test]
fn while_shares_are_gathered() {
    let mut c = ready(&worked());
    let packet = c.start_signing_round(100, b"a", ROOT, None).unwrap();
    let request = NonceRequest::read(&packet).unwrap();
    c.process(101, Verdict::Good, &answers(&request, 0)).unwrap();
    assert!(c.process(101, Verdict::Good, &answers(&request, 1)).unwrap().packet().is_some());
    assert_eq!(allowed(&mut c, ROOT), [Phase::Idle, Phase::NonceRequest(ROOT), Phase::SigShareGather(ROOT)]);
    for other in OTHERS {
        assert_eq!(allowed(&mut c, other), [Phase::Idle]);
    }
}

/// Why a host asks whether the coordinator is idle, and not for NonceRequest: the start is taken, and the round in hand comes to nothing.
#[test]
fn a_start_of_the_same_type_while_shares_are_gathered_takes_the_rounds_place() {
    let (mut c, request) = to_shares(&worked());
    assert_eq!(c.can_move_to(Phase::NonceRequest(SignatureType::Frost)), Ok(true));
    assert_eq!(c.is_idle(), Ok(false));
    c.start_signing_round(103, b"b", SignatureType::Frost, None).unwrap();
    for signer in [0, 1] {
        assert_eq!(c.process(104, Verdict::Good, &shares(&request, signer)), Ok(Answer::Nothing));
    }
    assert_eq!(c.aggregated(true), Err(Refusal::NoJob));
}

#[test]
fn not_idle_while_a_job_is_out() {
    let (mut c, request) = to_shares(&worked());
    c.process(103, Verdict::Good, &shares(&request, 0)).unwrap();
    assert!(matches!(c.process(103, Verdict::Good, &shares(&request, 1)), Ok(Answer::Job { whole: true, .. })));
    assert_eq!(c.is_idle(), Ok(false));
    c.aggregated(true).unwrap();
    assert_eq!(c.is_idle(), Ok(true));
}
