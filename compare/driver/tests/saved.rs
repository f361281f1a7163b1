//! What fire.rs that survives a crash is timed for is real: what it serialises can be read back, is
//! what fire.rs's own `save` gave, and a coordinator that is loaded from it goes on.
//!
//! Sets are hash sets, so the order of their bytes is chance: states are compared by SavedState's
//! own equality, and their bytes by length.

mod common;

use std::time::Duration;

use common::*;
use compare::{
    bench::{
        rounds::Packets,
        shape::{Both, Shape},
        sides::{Came, Side, SurvivingSide},
    },
    calls::Call,
    clock,
    fire::Published,
    saved,
};
use wsts::{
    common::{PolyCommitment, Signature, TupleProof},
    curve::{ecdsa::PublicKey, field::Element, scalar::Scalar},
    net::{
        BadPrivateShare, DkgEnd, DkgFailure, DkgPrivateShares, DkgPublicShares, DkgStatus, Message,
        SignatureType,
    },
    schnorr::{Proof, ID},
    state_machine::coordinator::{Coordinator, SavedState, State},
    taproot::SchnorrProof,
};

fn bytes(s: &SavedState) -> Vec<u8> {
    // What stood in the buffer is replaced.
    let mut bytes = vec![0xa5; 7];
    saved::write(s, &mut bytes);
    bytes
}

fn comes_back(s: &SavedState) {
    let written = bytes(s);
    let read = saved::read(&written).expect("all fields");
    assert_eq!(read, *s);
    let again = Published::load(&read).save();
    assert_eq!(again, *s);
    assert_eq!(bytes(&again).len(), written.len());
    for length in 0..written.len() {
        assert!(saved::read(&written[..length]).is_err(), "a state of {length} bytes was read");
    }
}

fn with_key_generation(s: &mut SavedState) {
    let poly = PolyCommitment { id: ID { id: Scalar([3; 32]) }, poly: vec![point(1), point(2)] };
    let bad = BadPrivateShare { shared_key: point(4), tuple_proof: TupleProof };
    let failure = DkgFailure::BadPrivateShares([(1, bad)].into_iter().collect());
    let status = DkgStatus::Failure(failure);
    let public = DkgPublicShares {
        dkg_id: DKG,
        signer_id: 1,
        comms: vec![(1, poly.clone())],
        kex_public_key: point(5),
        kex_proof: Proof { R: point(6), s: Scalar([7; 32]) },
    };
    let shares = vec![(1, [(2, vec![8, 9])].into_iter().collect())];
    s.dkg_public_shares.insert(1, public);
    s.dkg_private_shares.insert(1, DkgPrivateShares { dkg_id: DKG, signer_id: 1, shares });
    s.dkg_end_messages.insert(1, DkgEnd { dkg_id: DKG, signer_id: 1, status });
    s.party_polynomials.insert(1, poly);
    s.dkg_wait_signer_ids.extend([1, 2]);
    s.dkg_public_start = Some(clock::instant(1));
    s.dkg_private_start = Some(clock::instant(2));
    s.dkg_end_start = Some(clock::instant(3));
    s.malicious_dkg_signer_ids.insert(2);
    s.config.dkg_public_timeout = Some(Duration::new(1, 2));
    s.config.dkg_private_timeout = Some(Duration::new(3, 4));
    s.config.dkg_end_timeout = Some(Duration::new(5, 6));
}

fn with_results(s: &mut SavedState) {
    s.signature = Some(Signature { R: point(1), z: Scalar([2; 32]) });
    s.schnorr_proof = Some(SchnorrProof { r: Element([3; 32]), s: Scalar([4; 32]) });
    s.malicious_signer_ids.extend([0, 2]);
    s.nonce_start = Some(clock::instant(4));
    s.sign_start = Some(clock::instant(u64::MAX));
    s.coordinator_public_key = Some(PublicKey(9));
    s.config.message_private_key = Scalar([5; 32]);
    s.config.public_keys.key_ids.insert(1, PublicKey(11));
    s.config.verify_packet_sigs = true;
}

#[test]
fn every_field_comes_back() {
    let mut r = Round::gathering_shares(worked());
    r.share(1, &[2, 3]);
    let mut s = r.both.fire.saved().unwrap().clone();
    with_key_generation(&mut s);
    with_results(&mut s);
    comes_back(&s);
    comes_back(&SavedState::default());
    for root in [None, Some(ROOT)] {
        s.state = State::SigShareRequest(SignatureType::Taproot(root));
        assert_eq!(saved::read(&bytes(&s)).unwrap(), s);
    }
}

#[test]
fn a_round_comes_back_after_each_call() {
    let mut r = Round::gathering_shares(worked());
    let check = |r: &Round| comes_back(r.both.fire.saved().unwrap());
    check(&r);
    r.share(1, &[2, 3]);
    check(&r);
    // A retry without the silent signer.
    r.now = 111;
    r.call(Call::ProcessTimeout);
    check(&r);
    r.call(Call::Reset);
    check(&r);
}

fn all(p: &Packets) -> Vec<&Both> {
    let lists = p.responses.iter().chain(&p.shares).chain(&p.others);
    [&p.refused, &p.dropped].into_iter().chain(lists).collect()
}

#[test]
fn a_decoded_packet_is_the_one_that_was_encoded() {
    for shape in [Shape { messages: 3, ..Shape::full() }, Shape::longest()] {
        for packet in all(&Packets::new(&shape, 1)) {
            let read = saved::read_packet(&packet.serialised).unwrap();
            assert_eq!(read, packet.decoded);
            let short = &packet.serialised[..packet.serialised.len() - 1];
            assert!(saved::read_packet(short).is_err());
        }
    }
}

fn kept(side: &mut SurvivingSide, crashes: bool) {
    assert_eq!(saved::read(side.kept()).unwrap(), side.save());
    if crashes {
        let before = side.save();
        side.crash();
        assert_eq!(side.save(), before);
    }
}

/// A round of the timed side, with a crash after each call, where there are crashes.
fn round(shape: &Shape, crashes: bool) {
    let p = Packets::new(shape, 1);
    let mut side = SurvivingSide::new(shape);
    side.start(shape);
    assert!(matches!(saved::read_packet(side.out()).unwrap().msg, Message::NonceRequest(_)));
    kept(&mut side, crashes);
    let (last, before) = p.responses.split_last().unwrap();
    for response in before {
        side.process(response, Came::Nothing);
        kept(&mut side, crashes);
    }
    side.process(last, Came::Packet);
    // The share request, as another coordinator would have sent it.
    assert_eq!(saved::read_packet(side.out()).unwrap().msg, p.dropped.decoded.msg);
    kept(&mut side, crashes);
    let (last, before) = p.shares.split_last().unwrap();
    for share in before {
        side.process(share, Came::Nothing);
        kept(&mut side, crashes);
    }
    side.process(last, Came::Job);
    kept(&mut side, crashes);
    side.aggregated();
}

#[test]
fn a_round_goes_on_after_a_crash_at_each_call() {
    clock::check();
    for shape in [Shape::full(), Shape::longest()] {
        round(&shape, false);
        round(&shape, true);
    }
}
