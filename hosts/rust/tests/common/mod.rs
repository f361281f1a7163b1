//! Rounds up to where a test begins, with 01's worked configuration. Nonces and shares are made up.
#![allow(dead_code)] // each test file uses some of it

pub mod by_hand;

use roundcabinet::*;

/// G, which is no valid commitment.
pub const GENERATOR: [u8; 33] = [
    0x02, 0x79, 0xBE, 0x66, 0x7E, 0xF9, 0xDC, 0xBB, 0xAC, 0x55, 0xA0, 0x62, 0x95, 0xCE, 0x87, 0x0B, 0x07, 0x02, 0x9B,
    0xFC, 0xDB, 0x2D, 0xCE, 0x28, 0xD9, 0x59, 0xF2, 0x81, 0x5B, 0x16, 0xF8, 0x17, 0x98,
];
pub const NONCE: Nonce = Nonce { d: [2; 33], e: [3; 33] };
/// Key generation's id in these tests.
pub const DKG: u64 = 7;

/// The key sets of signers 0, 1 and 2.
const KEYS: [&[u32]; 3] = [&[1], &[2, 3], &[4]];

pub fn keys(numbers: &[u32]) -> Vec<KeyId> {
    numbers.iter().copied().map(KeyId).collect()
}

pub fn signer_ids(numbers: &[u32]) -> Vec<SignerId> {
    numbers.iter().copied().map(SignerId).collect()
}

pub fn with_keys(id: u32, numbers: &[u32]) -> Signer {
    Signer::new(SignerId(id), keys(numbers))
}

/// Signers 0, 1, 2; keys {1}, {2, 3}, {4}; num_keys 4, both thresholds 3, both timeouts 10.
pub fn worked() -> Config {
    let ten = Timeout::nanoseconds(10);
    let config = Config::new(3, 4, 3).verify_packet_sigs(false).nonce_timeout(ten).sign_timeout(ten);
    (0..3).fold(config, |config, i| config.signer(with_keys(i, KEYS[i as usize])))
}

/// Commissioned, the group's key held, key generation ended by all.
pub fn ready(config: &Config) -> Coordinator {
    let mut coordinator = Coordinator::commission(config).unwrap();
    coordinator.set_group_key(true).unwrap();
    let ended: Vec<SignerId> = config.signers.iter().map(|signer| signer.id).collect();
    coordinator.take_results(DKG, &ended).unwrap();
    coordinator
}

/// The same, and nonces for "a" are asked for at 100.
pub fn started(config: &Config) -> (Coordinator, NonceRequest) {
    let mut coordinator = ready(config);
    let packet = coordinator.start_signing_round(100, b"a", SignatureType::Frost, None).unwrap();
    (coordinator, NonceRequest::read(&packet).unwrap())
}

/// The same, 0 and 1 have answered at 102, and shares are asked for.
pub fn to_shares(config: &Config) -> (Coordinator, ShareRequest) {
    let (mut coordinator, request) = started(config);
    assert_eq!(coordinator.process(102, Verdict::Good, &answers(&request, 0)), Ok(Answer::Nothing));
    let sent = coordinator.process(102, Verdict::Good, &answers(&request, 1)).unwrap();
    (coordinator, ShareRequest::read(sent.packet().unwrap()).unwrap())
}

/// A signer's answer with its own keys, a nonce for each.
pub fn answers(request: &NonceRequest, signer: u32) -> Vec<u8> {
    answers_with(request, signer, KEYS[signer as usize])
}

pub fn answers_with(request: &NonceRequest, signer: u32, numbers: &[u32]) -> Vec<u8> {
    signer::answer(request, SignerId(signer), &keys(numbers), &vec![NONCE; numbers.len()]).unwrap()
}

/// A signer's answer to another message than the request's.
pub fn answers_message(request: &NonceRequest, signer: u32, message: &[u8]) -> Vec<u8> {
    answers(&NonceRequest { message: message.to_vec(), ..request.clone() }, signer)
}

/// A signer's shares, one for each of its keys.
pub fn shares(request: &ShareRequest, signer: u32) -> Vec<u8> {
    shares_with(request, signer, KEYS[signer as usize])
}

pub fn shares_with(request: &ShareRequest, signer: u32, numbers: &[u32]) -> Vec<u8> {
    signer::share(request, SignerId(signer), &numbers.iter().map(|k| share(*k)).collect::<Vec<_>>()).unwrap()
}

pub fn share(key: u32) -> Share {
    Share { id: key, z_i: [key as u8; 32], key_ids: vec![KeyId(key)] }
}

/// A request of another coordinator, for Idle.
pub fn idle_request(message: &[u8], sign_id: u64, iteration: u64) -> Vec<u8> {
    let ids = RoundIds { dkg_id: DKG, sign_id, iteration };
    by_hand::nonce_request(&NonceRequest { ids, signature_type: SignatureType::Frost, message: message.to_vec() })
}

/// A message of key generation, which has no parts: kind 5, 6 or 7.
pub fn dkg_packet(kind: u8, signer: u8, dkg_id: u8) -> Vec<u8> {
    let mut packet = vec![0; 32];
    (packet[0], packet[4], packet[8]) = (kind, signer, dkg_id);
    packet
}
