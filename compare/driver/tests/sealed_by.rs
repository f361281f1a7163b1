//! Who sealed a message: net.rs's `Packet::verify`, unchanged, on each of its fourteen messages;
//! then fire.rs and the library on each kind.

mod common;
use common::*;
use compare::calls::{Answer, Commission};
use wsts::{
    curve::{ecdsa::PublicKey, point::Point, scalar::Scalar},
    net::*,
    schnorr::Proof,
    state_machine::PublicKeys,
};

/// Whether kinds 1 to 7 are a signer's.
const SIGNERS: [bool; 7] = [false, true, false, true, false, true, false];

/// The signing messages, by kind: signer 0's where they are a signer's. Sign id and iteration are
/// those of a coordinator that has not signed yet.
fn signing() -> [(u8, Message); 4] {
    let (dkg_id, sign_id, sign_iter_id, signer_id) = (DKG, 0, 0, 0);
    let (key_ids, nonces, nonce_responses) = (vec![], vec![], vec![]);
    let (message, signature_type) = (b"a".to_vec(), SignatureType::Frost);
    let asked = request(sign_id, sign_iter_id, &message);
    let share_request = SignatureShareRequest {
        dkg_id,
        sign_id,
        sign_iter_id,
        nonce_responses,
        message: message.clone(),
        signature_type,
    };
    let response =
        NonceResponse { dkg_id, sign_id, sign_iter_id, signer_id, key_ids, nonces, message };
    let signature_shares = vec![];
    let shares =
        SignatureShareResponse { dkg_id, sign_id, sign_iter_id, signer_id, signature_shares };
    [
        (1, asked),
        (2, Message::NonceResponse(response)),
        (3, Message::SignatureShareRequest(share_request)),
        (4, Message::SignatureShareResponse(shares)),
    ]
}

/// Of key generation's messages the one that the driver makes packets of, for each of kinds 5 to 7.
fn key_generation() -> [(u8, Message); 3] {
    let (dkg_id, signer_ids, key_ids) = (DKG, vec![], vec![]);
    [
        (5, Message::DkgBegin(DkgBegin { dkg_id })),
        (6, Message::DkgEnd(DkgEnd { dkg_id, signer_id: 0, status: DkgStatus::Success })),
        (7, Message::DkgEndBegin(DkgEndBegin { dkg_id, signer_ids, key_ids })),
    ]
}

/// The others, with the kind that stands for them.
fn others_of_key_generation() -> [(u8, Message); 7] {
    let (dkg_id, signer_id, signer_ids, key_ids) = (DKG, 0, Vec::new(), Vec::new());
    let (comms, kex_public_key) = (vec![], Point::default());
    let kex_proof = Proof { R: Point::default(), s: Scalar::default() };
    let public = DkgPublicShares { dkg_id, signer_id, comms, kex_public_key, kex_proof };
    let begin = DkgPrivateBegin { dkg_id, signer_ids: signer_ids.clone(), key_ids };
    let public_done = DkgPublicSharesDone { dkg_id, signer_ids: signer_ids.clone() };
    [
        (6, Message::DkgPublicShares(public)),
        (7, Message::DkgPublicSharesDone(public_done)),
        (6, Message::DkgPublicSharesDoneAck(DkgPublicSharesDoneAck { dkg_id, signer_id })),
        (7, Message::DkgPrivateBegin(begin)),
        (6, Message::DkgPrivateShares(DkgPrivateShares { dkg_id, signer_id, shares: vec![] })),
        (7, Message::DkgPrivateSharesDone(DkgPrivateSharesDone { dkg_id, signer_ids })),
        (6, Message::DkgPrivateSharesDoneAck(DkgPrivateSharesDoneAck { dkg_id, signer_id })),
    ]
}

/// Under a good seal only a signer whose key is not known fails.
#[test]
fn fourteen_messages() {
    let nobody = PublicKeys::default();
    let mut signer_0 = PublicKeys::default();
    signer_0.signers.insert(0, PublicKey(0));
    let all = signing().into_iter().chain(key_generation()).chain(others_of_key_generation());
    for (kind, msg) in all {
        let p = Packet { msg, sig: vec![1] };
        assert!(p.verify(&signer_0, &PublicKey(9)), "{p:?}");
        assert_eq!(p.verify(&nobody, &PublicKey(9)), !SIGNERS[usize::from(kind) - 1], "{p:?}");
    }
}

/// A coordinator's packet has 0 in a signer's place, and signer 0 is not configured here.
#[test]
fn each_kind_of_a_stranger() {
    let signers = vec![(1, Some(vec![2, 3])), (2, Some(vec![4]))];
    let mut r = Round::new(Commission { verify_packet_sigs: true, signers, ..worked() });
    for (kind, m) in signing().into_iter().chain(key_generation()) {
        let answer = r.send(m);
        if SIGNERS[usize::from(kind) - 1] {
            assert_refused(&answer, 14, &[]);
        } else {
            assert_eq!(answer, Answer::Nothing, "kind {kind}");
        }
    }
}
