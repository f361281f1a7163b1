//! Ids, keys and numbers that are told apart wherever they come back: no field of a struct that crosses to C is taken for another.

mod common;
use common::*;
use roundcabinet::*;

const GOOD: Verdict = Verdict::Good;
/// Signers with their keys, given in this order. Ascending they are LOW, MIDDLE, HIGH.
const HIGH: (u32, &[u32]) = (0xfffe_0003, &[0x8000_0031, 0x0031_0000]);
const LOW: (u32, &[u32]) = (0x0000_0a01, &[0x0011_2233]);
const MIDDLE: (u32, &[u32]) = (0x7f00_0002, &[0x0100_0021, 0x0000_0022, 0xffff_ffff]);

/// num_keys 7 (one more than there are), sign_threshold 6, threshold 5; nonces have 20, shares 30.
fn config() -> Config {
    let config = [HIGH, LOW, MIDDLE].iter().fold(Config::new(9, 7, 5), |c, (id, set)| c.signer(with_keys(*id, set)));
    config
        .verify_packet_sigs(false)
        .sign_threshold(6)
        .dkg_threshold(8)
        .dkg_public_timeout(Timeout::nanoseconds(1))
        .dkg_private_timeout(Timeout::nanoseconds(2))
        .dkg_end_timeout(Timeout::nanoseconds(3))
        .nonce_timeout(Timeout::nanoseconds(20))
        .sign_timeout(Timeout::nanoseconds(30))
}

/// Nonces of a signer: no two alike, and none another's.
fn nonces(signer: (u32, &[u32])) -> Vec<Nonce> {
    signer.1.iter().map(|key| Nonce { d: [*key as u8 | 4; 33], e: [signer.0 as u8 | 8; 33] }).collect()
}

fn answer(request: &NonceRequest, signer: (u32, &[u32])) -> Vec<u8> {
    signer::answer(request, SignerId(signer.0), &keys(signer.1), &nonces(signer)).unwrap()
}

/// Ids that no other number has.
fn start(c: &mut Coordinator) -> NonceRequest {
    c.take_results(0x0102_0304_0506_0708, &signer_ids(&[LOW.0, HIGH.0, MIDDLE.0])).unwrap();
    let root = SignatureType::TaprootRoot(std::array::from_fn(|i| 0xe0 | i as u8));
    let packet = c.start_signing_round(1000, b"message", root, Some(0x1112_1314_1516_1718)).unwrap();
    let request = NonceRequest::read(&packet).unwrap();
    let ids = RoundIds { dkg_id: 0x0102_0304_0506_0708, sign_id: 0x1112_1314_1516_1718, iteration: 1 };
    assert_eq!(request, NonceRequest { ids, signature_type: root, message: b"message".to_vec() });
    request
}

fn gathered() -> (Coordinator, ShareRequest) {
    let mut c = ready(&config());
    let request = start(&mut c);
    assert_eq!(c.process(1001, GOOD, &answer(&request, MIDDLE)), Ok(Answer::Nothing));
    assert_eq!(c.process(1001, GOOD, &answer(&request, HIGH)), Ok(Answer::Nothing));
    let sent = c.process(1002, GOOD, &answer(&request, LOW)).unwrap();
    let sent = ShareRequest::read(sent.packet().unwrap()).unwrap();
    let NonceRequest { ids, signature_type, message } = request;
    assert_eq!((sent.ids, sent.signature_type, &sent.message), (ids, signature_type, &message));
    (c, sent)
}

#[test]
fn responses_come_back_by_signer_as_they_were_sent() {
    let (_, sent) = gathered();
    let expected = [LOW, MIDDLE, HIGH].map(|signer| NonceResponse {
        ids: sent.ids,
        signer: SignerId(signer.0),
        message: sent.message.clone(),
        key_ids: keys(signer.1),
        nonces: nonces(signer),
    });
    assert_eq!(sent.responses, expected);
}

#[test]
fn a_job_has_lists_and_shares_by_signer() {
    let (mut c, sent) = gathered();
    let share = |key: u32| Share { id: !key, z_i: std::array::from_fn(|i| key as u8 ^ i as u8), key_ids: keys(&[key]) };
    let shared = |(id, set): (u32, &[u32])| {
        let shares: Vec<Share> = set.iter().copied().map(share).collect();
        signer::share(&sent, SignerId(id), &shares).unwrap()
    };
    assert_eq!(c.process(1003, GOOD, &shared(HIGH)), Ok(Answer::Nothing));
    assert_eq!(c.process(1003, GOOD, &shared(LOW)), Ok(Answer::Nothing));
    let Ok(Answer::Job { packet, whole: true }) = c.process(1003, GOOD, &shared(MIDDLE)) else { panic!("a job") };
    let all = [LOW.1, MIDDLE.1, HIGH.1].concat();
    let expected = Job {
        ids: sent.ids,
        signature_type: sent.signature_type,
        message: sent.message.clone(),
        key_ids: keys(&all),
        nonces: [nonces(LOW), nonces(MIDDLE), nonces(HIGH)].concat(),
        shares: all.iter().copied().map(share).collect(),
    };
    assert_eq!(Job::read(&packet), Ok(expected));
}

#[test]
fn waiters_and_who_is_left_out_are_named() {
    let (mut c, sent) = gathered();
    let shared = |(id, set): (u32, &[u32])| shares_with(&sent, id, set);
    assert_eq!(c.process(1003, GOOD, &shared(MIDDLE)), Ok(Answer::Nothing));
    assert_eq!(c.process(1003, GOOD, &shared(LOW)), Ok(Answer::Nothing));
    assert_eq!(c.process_timeout(1032), Ok(Answer::Nothing), "30 after the request");
    let retry = c.process_timeout(1033).unwrap();
    let request = NonceRequest::read(retry.packet().expect("7 - 2 = 5 keys are left")).unwrap();

    assert_eq!(c.process(1034, GOOD, &answer(&request, MIDDLE)), Ok(Answer::Nothing));
    assert_eq!(c.process(1034, GOOD, &answer(&request, LOW)), Ok(Answer::Nothing));
    assert_eq!(c.process_timeout(1053), Ok(Answer::Nothing), "20 after the retry");
    let late = Answer::NonceTimeout { waiters: signer_ids(&[LOW.0, MIDDLE.0]), malicious: signer_ids(&[HIGH.0]) };
    assert_eq!(c.process_timeout(1054), Ok(late));

    let (mut c, _) = gathered();
    let malicious = signer_ids(&[LOW.0, MIDDLE.0, HIGH.0]);
    assert_eq!(c.process_timeout(1033), Ok(Answer::InsufficientSigners { malicious }));
}

#[test]
fn a_refusal_names_the_signer_and_both_ids() {
    let (mut c, sent) = gathered();
    let refused = Answer::ShareRefused(Refusal::WrongKeys(SignerId(HIGH.0)));
    assert_eq!(c.process(1003, GOOD, &shares_with(&sent, HIGH.0, LOW.1)), Ok(refused));
    let other = ShareRequest { ids: RoundIds { sign_id: 0x2122_2324_2526_2728, ..sent.ids }, ..sent.clone() };
    let refused = Refusal::SignId { got: 0x2122_2324_2526_2728, expected: 0x1112_1314_1516_1718 };
    assert_eq!(c.process(1003, GOOD, &shares_with(&other, LOW.0, LOW.1)), Ok(Answer::ShareRefused(refused)));
}
