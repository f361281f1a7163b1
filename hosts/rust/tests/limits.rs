//! Each limit of 01, at it and one past it. The answer buffer's stands in src/ffi/lengths_test.rs: a coordinator owns one that is long enough.

mod common;
use common::*;
use roundcabinet::*;

const GOOD: Verdict = Verdict::Good;

fn signers(count: u32) -> Config {
    (0..count).fold(Config::new(count, count, 3), |config, i| config.signer(with_keys(3 * i, &[i])))
}

fn one_set(count: u32) -> Config {
    Config::new(1, 40, 3).signer(Signer::new(SignerId(1), (0..count).map(KeyId)))
}

fn commissioned(config: &Config) -> Result<(), Refusal> {
    Coordinator::commission(config).map(|_| ())
}

#[test]
fn a_message_of_256_and_of_257() {
    let (longest, longer) = ([7; 256], [7; 257]);
    let mut c = ready(&worked());
    assert_eq!(c.start_signing_round(100, &longer, SignatureType::Frost, None), Err(Refusal::Limit));
    assert_eq!(c.process(100, GOOD, &idle_request(&longer, 5, 1)), Err(Refusal::Limit));
    let packet = c.start_signing_round(100, &longest, SignatureType::Frost, None).unwrap();
    let request = NonceRequest::read(&packet).unwrap();
    assert_eq!((request.message.len(), request.ids.sign_id), (256, 1), "the refused start changed nothing");
    let signer = SignerId(0);
    let too_long =
        NonceResponse { ids: request.ids, signer, message: longer.to_vec(), key_ids: keys(&[1]), nonces: vec![NONCE] };
    assert_eq!(c.process(101, GOOD, &by_hand::nonce_response(&too_long)), Err(Refusal::Limit));
    assert_eq!(c.process(101, GOOD, &answers(&request, 0)), Ok(Answer::Nothing));
    assert!(c.process(101, GOOD, &answers(&request, 1)).unwrap().packet().is_some());
}

#[test]
fn ten_signers_and_eleven() {
    assert_eq!(commissioned(&signers(10)), Ok(()));
    assert_eq!(commissioned(&signers(11)), Err(Refusal::Signers));
    assert_eq!(commissioned(&signers(40)), Err(Refusal::Signers));
    assert_eq!(commissioned(&worked().signer(Signer::without_keys(SignerId(1)))), Err(Refusal::Signers));
}

#[test]
fn a_set_of_16_and_of_17() {
    assert_eq!(commissioned(&one_set(16)), Ok(()));
    assert_eq!(commissioned(&one_set(17)), Err(Refusal::Keys));
    assert_eq!(commissioned(&one_set(40)), Err(Refusal::Keys));
    assert_eq!(commissioned(&Config::new(1, 9, 3).signer(with_keys(1, &[2, 3, 2]))), Err(Refusal::Keys));
}

#[test]
fn sizes_of_4_and_of_5() {
    let sized = |last: &[u32]| {
        Config::new(3, 4, 3).signer(with_keys(0, &[1])).signer(with_keys(1, &[2, 3])).signer(with_keys(2, last))
    };
    assert_eq!(commissioned(&sized(&[4])), Ok(()));
    assert_eq!(commissioned(&sized(&[4, 5])), Err(Refusal::Total));
    assert_eq!(commissioned(&sized(&[4]).signer(Signer::without_keys(SignerId(3)))), Ok(()));
}

#[test]
fn ten_ended_signers_and_eleven() {
    let mut c = Coordinator::commission(&signers(10)).unwrap();
    let ended: Vec<SignerId> = (0..10).map(|i| SignerId(3 * i)).collect();
    assert_eq!(c.take_results(8, &ended), Ok(()));
    let one_twice = [&ended[..], &ended[..1]].concat();
    assert_eq!(c.take_results(8, &one_twice), Err(Refusal::Ended), "repeats count");
    assert_eq!(c.take_results(8, &[SignerId(3); 10]), Ok(()));
    assert_eq!(c.take_results(8, &[SignerId(1)]), Err(Refusal::Ended), "not configured");
}

#[test]
fn lists_of_16_and_of_17_in_a_packet() {
    let read = |bytes: Vec<u8>| Packet::read(&bytes).map(|packet| packet.header().parts);
    let ids = RoundIds::default();
    let response = |keys, nonces| {
        let (key_ids, nonces) = (vec![KeyId(1); keys], vec![NONCE; nonces]);
        read(by_hand::nonce_response(&NonceResponse { ids, signer: SignerId(0), message: vec![], key_ids, nonces }))
    };
    assert_eq!(response(16, 16), Ok(3));
    assert_eq!(response(17, 16), Err(Refusal::Limit));
    assert_eq!(response(16, 17), Err(Refusal::Limit));

    let with = |shares: Vec<Share>| read(by_hand::share_response(&ShareResponse { ids, signer: SignerId(0), shares }));
    let of = |keys| Share { id: 1, z_i: [1; 32], key_ids: vec![KeyId(1); keys] };
    assert_eq!(with(vec![of(1); 16]), Ok(16));
    assert_eq!(with(vec![of(0); 17]), Err(Refusal::Limit));
    assert_eq!(with(vec![of(8), of(8)]), Ok(2));
    assert_eq!(with(vec![of(8), of(9)]), Err(Refusal::Limit), "17 in all");
}

#[test]
fn ten_nested_responses_and_eleven() {
    let (_, request) = to_shares(&worked());
    let nested = |count| {
        let responses = vec![request.responses[0].clone(); count];
        Packet::read(&by_hand::share_request(&ShareRequest { responses, ..request.clone() })).map(|_| ())
    };
    assert_eq!(nested(0), Ok(()));
    assert_eq!(nested(10), Ok(()));
    assert_eq!(nested(11), Err(Refusal::Limit));
}

/// Ten signers of 16 keys, the longest message and a root: the share request and the job fill what is lent.
#[test]
fn the_largest_packets() {
    let sets = (0..10).map(|i| (16 * i..16 * i + 16).collect::<Vec<u32>>()).collect::<Vec<_>>();
    let config = Config::new(10, 160, 160).verify_packet_sigs(false);
    let config = (0..10).fold(config, |config, i| config.signer(with_keys(i, &sets[i as usize])));
    let mut c = ready(&config);
    let root = SignatureType::TaprootRoot(std::array::from_fn(|i| i as u8));
    let request = NonceRequest::read(&c.start_signing_round(0, &[7; 256], root, None).unwrap()).unwrap();
    assert_eq!(request.signature_type, root);

    let mut sent = Answer::Nothing;
    for i in (0..10).rev() {
        assert_eq!(sent, Answer::Nothing);
        sent = c.process(1, GOOD, &answers_with(&request, i, &sets[i as usize])).unwrap();
    }
    assert_eq!(sent.packet().unwrap().len(), 14_736);
    let request = ShareRequest::read(sent.packet().unwrap()).unwrap();

    let mut job = Answer::Nothing;
    for i in 0..10 {
        assert_eq!(job, Answer::Nothing);
        job = c.process(2, GOOD, &shares_with(&request, i, &sets[i as usize])).unwrap();
    }
    let Answer::Job { packet, whole: true } = job else { panic!("a job") };
    assert_eq!(packet.len(), ANSWER_LENGTH);
    let job = Job::read(&packet).unwrap();
    assert_eq!((job.key_ids, job.nonces), ((0..160).map(KeyId).collect(), vec![NONCE; 160]));
    assert_eq!(job.shares, (0..160).map(share).collect::<Vec<_>>());
    assert_eq!(c.aggregated(true), Ok(Answer::Signed(SignatureKind::Taproot)));
}
