//! What is laid out as 01 says the library reads, field for field; and no other bytes pass for it.

mod common;
use common::*;
use roundcabinet::*;

const IDS: RoundIds = RoundIds { dkg_id: u64::MAX, sign_id: 1 << 33, iteration: 0 };
const TYPES: [SignatureType; 4] =
    [SignatureType::Frost, SignatureType::Schnorr, SignatureType::Taproot, SignatureType::TaprootRoot([0xab; 32])];

fn response(signer: u32, message: &[u8], count: u32) -> NonceResponse {
    let nonces = (0..count).map(|i| Nonce { d: [i as u8; 33], e: [!i as u8; 33] }).collect();
    let key_ids = (0..count).map(|i| KeyId(u32::MAX - i)).collect();
    NonceResponse { ids: IDS, signer: SignerId(signer), message: message.to_vec(), key_ids, nonces }
}

fn share_response() -> ShareResponse {
    let several = Share { key_ids: keys(&[3, 1, 3]), ..share(7) };
    let none = Share { key_ids: vec![], ..share(8) };
    ShareResponse { ids: IDS, signer: SignerId(u32::MAX), shares: vec![several, none, share(9)] }
}

#[test]
fn kind_1_of_each_type() {
    for signature_type in TYPES {
        for message in [&b""[..], b"m", &[0xff; 256]] {
            let request = NonceRequest { ids: IDS, signature_type, message: message.to_vec() };
            let packet = by_hand::nonce_request(&request);
            assert_eq!(Packet::read(&packet).unwrap().header().signature_type, signature_type);
            assert_eq!(NonceRequest::read(&packet), Ok(request));
        }
    }
}

#[test]
fn kind_2_with_any_lists() {
    for count in [0, 1, 16] {
        let response = response(4, b"pay", count);
        let packet = by_hand::nonce_response(&response);
        assert_eq!(NonceResponse::read(&packet), Ok(response));
    }
}

#[test]
fn kind_3_with_responses_of_their_own() {
    for signature_type in TYPES {
        let responses = vec![response(9, b"x", 3), response(2, b"", 0), response(9, b"x", 16)];
        let request = ShareRequest { ids: IDS, signature_type, message: b"pay".to_vec(), responses };
        let packet = by_hand::share_request(&request);
        assert_eq!(ShareRequest::read(&packet), Ok(request));
    }
}

#[test]
fn kind_4_with_any_shares() {
    let response = share_response();
    assert_eq!(ShareResponse::read(&by_hand::share_response(&response)), Ok(response));
    let none = ShareResponse { shares: vec![], ..share_response() };
    assert_eq!(ShareResponse::read(&by_hand::share_response(&none)), Ok(none));
}

#[test]
fn key_generation_has_no_parts() {
    assert_eq!(Contents::read(&dkg_packet(5, 0, 7)), Ok(Contents::DkgBegin { dkg_id: 7 }));
    assert_eq!(Contents::read(&dkg_packet(6, 3, 7)), Ok(Contents::DkgSigner { dkg_id: 7, signer: SignerId(3) }));
    assert_eq!(Contents::read(&dkg_packet(7, 0, 7)), Ok(Contents::DkgCoordinator { dkg_id: 7 }));
    assert_eq!(Contents::read(&dkg_packet(5, 1, 7)), Err(Refusal::Layout), "a signer, which kind 5 lacks");
}

#[test]
fn a_packet_of_another_kind_is_not_taken_for_one() {
    let nonces = by_hand::nonce_response(&response(1, b"a", 1));
    let shares = by_hand::share_response(&share_response());
    assert_eq!(NonceRequest::read(&nonces), Err(Refusal::Layout));
    assert_eq!(NonceResponse::read(&shares), Err(Refusal::Layout));
    assert_eq!(ShareRequest::read(&nonces), Err(Refusal::Layout));
    assert_eq!(ShareResponse::read(&nonces), Err(Refusal::Layout));
    assert_eq!(Job::read(&shares), Err(Refusal::Layout));
    assert_eq!(Outgoing::read(&nonces), Err(Refusal::Layout));
}

/// Each part that the library finds lies inside its packet, whatever the bytes: slices here would panic otherwise.
#[test]
fn cut_off_and_changed_packets() {
    let request = ShareRequest {
        ids: IDS,
        signature_type: TYPES[3],
        message: b"pay".to_vec(),
        responses: vec![response(1, b"x", 2)],
    };
    let packet = by_hand::share_request(&request);
    for length in 0..packet.len() {
        assert_eq!(Contents::read(&packet[..length]), Err(Refusal::Layout), "{length} bytes");
    }
    for at in 0..packet.len() {
        for flip in [0x01, 0x80, 0xff] {
            let mut changed = packet.clone();
            changed[at] ^= flip;
            let read = Contents::read(&changed);
            assert_ne!(read, Ok(Contents::ShareRequest(request.clone())), "byte {at}");
        }
    }
}

/// The job and the results are the host's own; nobody else can bring them in.
#[test]
fn what_only_goes_out_is_not_taken() {
    let (mut c, request) = to_shares(&worked());
    c.process(103, Verdict::Good, &shares(&request, 0)).unwrap();
    let Ok(Answer::Job { packet, .. }) = c.process(103, Verdict::Good, &shares(&request, 1)) else { panic!("a job") };
    assert!(Job::read(&packet).is_ok());
    assert_eq!(Packet::read(&packet), Err(Refusal::Layout));
    for length in 0..packet.len() {
        assert_eq!(Job::read(&packet[..length]), Err(Refusal::Layout), "{length} bytes");
    }
    c.aggregated(true).unwrap();
    assert_eq!(c.process(103, Verdict::Good, &packet), Err(Refusal::Layout));
}
