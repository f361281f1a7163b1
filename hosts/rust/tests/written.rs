//! What the library writes for a host and for a signer: every field is read back, the bytes are those of a writer by hand and of a
//! coordinator.

mod common;
use common::*;
use roundcabinet::write::{Head, JobPart};
use roundcabinet::*;

const IDS: RoundIds = RoundIds { dkg_id: u64::MAX - 1, sign_id: 1 << 33, iteration: 3 };
const TYPES: [SignatureType; 4] =
    [SignatureType::Frost, SignatureType::Schnorr, SignatureType::Taproot, SignatureType::TaprootRoot([0xab; 32])];

fn head(message: &[u8]) -> Head<'_> {
    Head { ids: IDS, signature_type: TYPES[3], message }
}

/// No number comes twice: `from` counts on from one response to the next.
fn response(from: u32, keys: u32, nonces: u32) -> NonceResponse {
    let nonce = |i: u32| Nonce { d: [(from + i) as u8; 33], e: [!(from + i) as u8; 33] };
    let id = |i: u32| u64::from(from + i) << 32;
    NonceResponse {
        ids: RoundIds { dkg_id: id(1), sign_id: id(2), iteration: id(3) },
        signer: SignerId(from),
        message: from.to_le_bytes().to_vec(),
        key_ids: (0..keys).map(|i| KeyId(from + 10 + i)).collect(),
        nonces: (0..nonces).map(nonce).collect(),
    }
}

fn share_of(id: u32, keys: &[u32]) -> Share {
    Share { id, z_i: std::array::from_fn(|i| (id as usize + i) as u8), key_ids: common::keys(keys) }
}

fn job_part<'a>(response: &'a NonceResponse, shares: &'a [Share]) -> JobPart<'a> {
    JobPart { key_ids: &response.key_ids, nonces: &response.nonces, shares }
}

#[test]
fn a_nonce_request_of_each_type() {
    for signature_type in TYPES {
        for message in [&b""[..], b"pay", &[0xff; 256]] {
            let packet = write::nonce_request(Head { signature_type, ..head(message) }).unwrap();
            let request = NonceRequest { ids: IDS, signature_type, message: message.to_vec() };
            assert_eq!(packet, by_hand::nonce_request(&request));
            assert_eq!(NonceRequest::read(&packet), Ok(request));
        }
    }
}

#[test]
fn a_share_request_with_responses_of_their_own() {
    for signature_type in TYPES {
        let responses = vec![response(100, 2, 4), response(40, 16, 0), response(200, 0, 16), response(7, 3, 1)];
        let packet = write::share_request(Head { signature_type, ..head(b"pay") }, &responses).unwrap();
        let request = ShareRequest { ids: IDS, signature_type, message: b"pay".to_vec(), responses };
        assert_eq!(packet, by_hand::share_request(&request));
        let parts: Vec<_> = Packet::read(&packet).unwrap().parts().skip(2).collect();
        for (part, response) in parts.iter().zip(&request.responses) {
            assert_eq!(NonceResponse::read(part).as_ref(), Ok(response), "a packet of its own");
        }
        assert_eq!(ShareRequest::read(&packet), Ok(request));
    }
}

#[test]
fn a_job_of_several_signers() {
    let lists = [response(100, 3, 4), response(40, 5, 6), response(200, 0, 0)];
    let shares = [vec![share_of(1, &[71, 72, 73]), share_of(2, &[])], vec![share_of(3, &[80])], vec![]];
    let part = |i: usize| job_part(&lists[i], &shares[i]);
    for signature_type in TYPES {
        let packet = write::job(Head { signature_type, ..head(b"pay") }, &[part(0), part(1), part(2)]).unwrap();
        let job = Job {
            ids: IDS,
            signature_type,
            message: b"pay".to_vec(),
            key_ids: lists.iter().flat_map(|r| r.key_ids.clone()).collect(),
            nonces: lists.iter().flat_map(|r| r.nonces.clone()).collect(),
            shares: shares.concat(),
        };
        assert_eq!(Job::read(&packet), Ok(job));
        assert_eq!(Packet::read(&packet), Err(Refusal::Layout), "it only goes out");
    }
}

/// Both of a signer's calls; where they write, they write the same.
fn answered(response: &NonceResponse) -> Result<Vec<u8>, Refusal> {
    let NonceResponse { ids, signer, message, key_ids, nonces } = response.clone();
    let request = NonceRequest { ids, signature_type: TYPES[0], message };
    let packet = signer::answer(&request, signer, &key_ids, &nonces);
    let mut out = [7; NONCE_RESPONSE_LIMIT];
    let head = signer::Head { ids, signer };
    let length = signer::nonce_response(&mut out, head, &request.message, &key_ids, &nonces);
    assert_eq!(packet, length.map(|length| out[..length].to_vec()));
    packet
}

fn shared(response: &ShareResponse) -> Result<Vec<u8>, Refusal> {
    let ShareResponse { ids, signer, shares } = response;
    let request = ShareRequest { ids: *ids, signature_type: TYPES[0], message: vec![], responses: vec![] };
    let packet = signer::share(&request, *signer, shares);
    let mut out = [7; SHARE_RESPONSE_LIMIT];
    let length = signer::share_response(&mut out, signer::Head { ids: *ids, signer: *signer }, shares);
    assert_eq!(packet, length.map(|length| out[..length].to_vec()));
    packet
}

#[test]
fn a_nonce_response_with_any_lists() {
    for (keys, nonces) in [(0, 0), (1, 1), (2, 4), (16, 0), (0, 16), (3, 2), (16, 16)] {
        for message in [&b""[..], b"pay", &[0xff; 256]] {
            let response = NonceResponse { message: message.to_vec(), ..response(100, keys, nonces) };
            let packet = answered(&response).unwrap();
            assert_eq!(packet, by_hand::nonce_response(&response));
            assert_eq!(NonceResponse::read(&packet), Ok(response));
        }
    }
}

#[test]
fn a_share_response_with_any_shares() {
    let several = vec![share_of(7, &[3, 1, 3]), share_of(8, &[]), share_of(7, &[9])];
    for shares in [vec![], vec![share_of(1, &[])], several, (0..16).map(|i| share_of(i, &[i])).collect()] {
        let response = ShareResponse { ids: IDS, signer: SignerId(u32::MAX), shares };
        let packet = shared(&response).unwrap();
        assert_eq!(packet, by_hand::share_response(&response));
        assert_eq!(ShareResponse::read(&packet), Ok(response));
    }
}

/// Kind 2 and kind 4 into buffers of every length.
#[test]
fn a_buffer_that_is_as_short_as_the_packet() {
    let (nonces, shares) = (response(100, 2, 2), [share_of(1, &[2, 3])]);
    let head = signer::Head { ids: nonces.ids, signer: nonces.signer };
    let write_nonces = |out: &mut [u8]| signer::nonce_response(out, head, b"a", &nonces.key_ids, &nonces.nonces);
    let write_shares = |out: &mut [u8]| signer::share_response(out, head, &shares);
    at_every_length(197, write_nonces);
    at_every_length(84, write_shares);
}

fn at_every_length(length: usize, write: impl Fn(&mut [u8]) -> Result<usize, Refusal>) {
    for room in 0..length + 9 {
        let mut out = vec![0xaa; room];
        let wanted = if room < length { Err(Refusal::Buffer) } else { Ok(length) };
        assert_eq!(write(&mut out), wanted, "{room} bytes");
        assert!(out[wanted.unwrap_or(0)..].iter().all(|byte| *byte == 0xaa), "{room} bytes");
    }
}

#[test]
fn one_past_each_limit_of_a_response() {
    let answer = |message: usize, keys, nonces| {
        answered(&NonceResponse { message: vec![7; message], ..response(1, keys, nonces) }).map(|packet| packet.len())
    };
    assert_eq!(answer(256, 16, 16), Ok(NONCE_RESPONSE_LIMIT));
    assert_eq!(answer(257, 16, 16), Err(Refusal::Limit));
    assert_eq!(answer(256, 17, 16), Err(Refusal::Limit));
    assert_eq!(answer(256, 16, 17), Err(Refusal::Limit));

    let of = |keys: usize| share_of(1, &vec![4; keys]);
    let share = |shares| shared(&ShareResponse { ids: IDS, signer: SignerId(1), shares }).map(|packet| packet.len());
    assert_eq!(share(vec![of(1); 16]), Ok(SHARE_RESPONSE_LIMIT));
    assert_eq!(share(vec![of(0); 17]), Err(Refusal::Limit));
    assert_eq!(share(vec![of(8), of(8)]), Ok(32 + 2 * 44 + 16 * 4));
    assert_eq!(share(vec![of(8), of(9)]), Err(Refusal::Limit), "17 in all");
    assert_eq!(share(vec![of(17)]), Err(Refusal::Limit));
}

#[test]
fn key_generation() {
    let (dkg_id, signer) = (0x0102_0304_0506_0708, SignerId(0x0a0b_0c0d));
    let read = |packet: Result<Vec<u8>, Refusal>| Contents::read(&packet.unwrap());
    assert_eq!(read(write::dkg_begin(dkg_id)), Ok(Contents::DkgBegin { dkg_id }));
    assert_eq!(read(write::dkg_signer(signer, dkg_id)), Ok(Contents::DkgSigner { dkg_id, signer }));
    assert_eq!(read(write::dkg_coordinator(dkg_id)), Ok(Contents::DkgCoordinator { dkg_id }));
    assert_eq!(write::dkg_signer(SignerId(3), 7).unwrap(), dkg_packet(6, 3, 7));
}

#[test]
fn lists_of_no_signers_to_ten() {
    let all: Vec<SignerId> = (0..20).map(|i| SignerId(u32::MAX - i)).collect();
    for count in 0..=10 {
        let (waiters, malicious) = (all[..count].to_vec(), all[10 + count..].to_vec());
        let packet = write::nonce_timeout(&waiters, &malicious).unwrap();
        assert_eq!(Outgoing::read(&packet), Ok(Outgoing::NonceTimeout { waiters, malicious: malicious.clone() }));
        let packet = write::insufficient_signers(&malicious).unwrap();
        assert_eq!(Outgoing::read(&packet), Ok(Outgoing::InsufficientSigners { malicious }));
    }
}

#[test]
fn no_arrivals_to_ten() {
    let clock = |i: u32| u64::MAX - u64::from(i) * 0x0102_0304_0506_0708;
    let all: Vec<Arrival> = (0..10).map(|i| Arrival { signer: SignerId(u32::MAX - i), clock: clock(i) }).collect();
    for count in 0..=10 {
        let packet = write::arrivals(&all[..count]).unwrap();
        assert_eq!(packet.len(), 48 + 12 * count);
        assert_eq!(Outgoing::read(&packet), Ok(Outgoing::Arrivals(all[..count].to_vec())));
    }
    let mut short = write::arrivals(&all[..2]).unwrap();
    (short[36], short[40]) = (4, 52); // one signer, and readings of 20 bytes
    short[44] = 20;
    assert_eq!(Outgoing::read(&short), Err(Refusal::Layout));
}

#[test]
fn one_past_each_limit_is_refused_with_9() {
    let (long, eleven) = ([7; 257], vec![SignerId(1); 11]);
    assert_eq!(write::nonce_request(head(&long)), Err(Refusal::Limit));
    assert_eq!(write::share_request(head(&long), &[]), Err(Refusal::Limit));
    assert_eq!(write::job(head(&long), &[]), Err(Refusal::Limit));
    assert_eq!(write::nonce_timeout(&eleven, &[]), Err(Refusal::Limit));
    assert_eq!(write::nonce_timeout(&[], &eleven), Err(Refusal::Limit));
    assert_eq!(write::insufficient_signers(&eleven), Err(Refusal::Limit));
    assert_eq!(write::arrivals(&[Arrival { signer: SignerId(1), clock: 7 }; 11]), Err(Refusal::Limit));

    let nested = |response: NonceResponse, count| write::share_request(head(b"pay"), &vec![response; count]).map(drop);
    assert_eq!(nested(response(1, 16, 16), 10), Ok(()));
    assert_eq!(nested(response(1, 16, 16), 11), Err(Refusal::Limit));
    assert_eq!(nested(response(1, 17, 1), 1), Err(Refusal::Limit));
    assert_eq!(nested(response(1, 1, 17), 1), Err(Refusal::Limit));
    assert_eq!(nested(NonceResponse { message: long.to_vec(), ..response(1, 1, 1) }, 1), Err(Refusal::Limit));
}

#[test]
fn one_past_each_limit_of_a_job() {
    let job = |keys, nonces, shares: &[Share], signers| {
        let part = response(1, keys, nonces);
        write::job(head(&[7; 256]), &vec![job_part(&part, shares); signers]).map(|packet| packet.len())
    };
    let of = |keys: usize| share_of(1, &vec![4; keys]);
    assert_eq!(job(16, 16, &vec![of(1); 16], 10), Ok(ANSWER_LENGTH), "the largest packet there is");
    assert_eq!(job(16, 16, &vec![of(1); 16], 11), Err(Refusal::Limit));
    assert_eq!(job(17, 0, &[], 1), Err(Refusal::Limit));
    assert_eq!(job(0, 17, &[], 1), Err(Refusal::Limit));
    assert_eq!(job(0, 0, &vec![of(0); 17], 1), Err(Refusal::Limit));
    assert!(job(0, 0, &[of(7), of(9)], 1).is_ok());
    assert_eq!(job(0, 0, &[of(8), of(9)], 1), Err(Refusal::Limit), "17 in all");
    assert_eq!(job(0, 0, &[of(256)], 1), Err(Refusal::Limit), "more than a byte counts");
}

/// What a coordinator sends in 01's worked round, written once more from what was read.
#[test]
fn what_a_coordinator_sends() {
    let mut c = ready(&worked());
    let sent = c.start_signing_round(100, b"a", TYPES[3], None).unwrap();
    let request = NonceRequest::read(&sent).unwrap();
    let head = Head { ids: request.ids, signature_type: TYPES[3], message: b"a" };
    assert_eq!(write::nonce_request(head).as_ref(), Ok(&sent));

    c.process(102, Verdict::Good, &answers(&request, 0)).unwrap();
    let Ok(Answer::Packet(sent)) = c.process(102, Verdict::Good, &answers(&request, 1)) else { panic!("a packet") };
    let request = ShareRequest::read(&sent).unwrap();
    assert_eq!(write::share_request(head, &request.responses).as_ref(), Ok(&sent));

    c.process(103, Verdict::Good, &shares(&request, 1)).unwrap();
    let Ok(Answer::Job { packet, .. }) = c.process(103, Verdict::Good, &shares(&request, 0)) else { panic!("a job") };
    let shares = [vec![share(1)], vec![share(2), share(3)]];
    let parts: Vec<_> = request.responses.iter().zip(&shares).map(|(r, s)| job_part(r, s)).collect();
    assert_eq!(write::job(head, &parts), Ok(packet));
}
