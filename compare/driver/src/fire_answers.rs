//! fire.rs's answers in 01's terms.

use wsts::{
    harness,
    net::Packet,
    state_machine::{
        coordinator::{Error, SavedState},
        OperationResult, SignError,
    },
};

use crate::{
    calls::{Answer, Outcome},
    fire::sorted,
    packet,
};

/// What fire.rs's calls give.
pub type Given = Result<(Option<Packet>, Option<OperationResult>), Error>;

/// The Rust's errors of the signing phase, by 01's numbers.
pub fn refusal(e: &Error, is_result: bool) -> Answer {
    let (number, values) = match e {
        Error::MissingAggregatePublicKey => (10, vec![]),
        Error::BadStateChange(_) => (11, vec![]),
        Error::MissingMessageNonceInfo => (12, vec![]),
        Error::MissingCoordinatorPublicKey => (13, vec![]),
        Error::InvalidPacketSignature => (14, vec![]),
        Error::BadDkgId(got, expected) => (16, vec![*got, *expected]),
        Error::BadSignId(got, expected) => (17, vec![*got, *expected]),
        Error::BadSignIterId(got, expected) => (18, vec![*got, *expected]),
        Error::MissingPublicKeyForSigner(id) => (20, vec![*id as u64]),
        Error::MissingKeyIDsForSigner(id) => (21, vec![*id as u64]),
        Error::BadKeyIDsForSigner(id) => (22, vec![*id as u64]),
        e => panic!("an error that 01 does not have: {e:?}"),
    };
    Answer::Refused { number, values, is_result }
}

/// The job that the stand-in aggregator noted.
fn job(saved: &SavedState, outcome: Outcome) -> Answer {
    let inputs = harness::take_run().expect("the aggregator ran");
    let ids = packet::JobIds {
        dkg_id: saved.current_dkg_id,
        sign_id: saved.current_sign_id,
        sign_iter_id: saved.current_sign_iter_id,
    };
    Answer::Job { bytes: packet::job(&ids, &inputs), outcome }
}

fn sign_error(e: SignError, saved: &SavedState) -> Answer {
    match e {
        SignError::NonceTimeout(waiting, malicious) => {
            Answer::Late(packet::nonce_timeout(&sorted(&waiting), &sorted(&malicious)))
        }
        SignError::InsufficientSigners(malicious) => {
            Answer::Late(packet::insufficient_signers(&sorted(&malicious)))
        }
        SignError::Coordinator(Error::Aggregator(_)) => job(saved, Outcome::Failed),
        SignError::Coordinator(e) => refusal(&e, true),
        SignError::Aggregator(_) => unreachable!("fire.rs never makes one"),
    }
}

pub fn answer(given: Given, saved: &SavedState) -> Answer {
    match given {
        Err(e) => refusal(&e, false),
        Ok((None, None)) => Answer::Nothing,
        Ok((Some(p), None)) => Answer::Packet(packet::encode(&p.msg)),
        Ok((None, Some(result))) => match result {
            OperationResult::Sign(_) => job(saved, Outcome::Signed(0)),
            OperationResult::SignSchnorr(_) => job(saved, Outcome::Signed(1)),
            OperationResult::SignTaproot(_) => job(saved, Outcome::Signed(2)),
            OperationResult::SignError(e) => sign_error(e, saved),
            r => panic!("a result outside the signing phase: {r:?}"),
        },
        Ok((Some(_), Some(_))) => unreachable!("fire.rs never gives both"),
    }
}
