//! What the driver sets and reads around a call: the aggregator's verdict, and the inputs that the
//! aggregator was given. One set a thread.

use std::cell::{Cell, RefCell};

use hashbrown::HashMap;

use crate::{
    common::{PolyCommitment, PublicNonce, Signature, SignatureShare},
    curve::{point::G, scalar::Scalar},
    errors::AggregatorError,
    taproot::SchnorrProof,
    traits::Aggregator,
};

/// Which of the aggregator's functions ran.
#[derive(Clone, Copy, Debug, PartialEq, Eq)]
pub enum Asked {
    Sign,
    Schnorr,
    Taproot(Option<[u8; 32]>),
}

/// The aggregator's inputs.
#[derive(Clone, Debug, PartialEq)]
pub struct Inputs {
    pub asked: Asked,
    pub message: Vec<u8>,
    pub nonces: Vec<PublicNonce>,
    pub shares: Vec<SignatureShare>,
    pub key_ids: Vec<u32>,
}

thread_local! {
    static VERDICT: Cell<bool> = const { Cell::new(true) };
    static NOTING: Cell<bool> = const { Cell::new(true) };
    static INPUTS: RefCell<Vec<Inputs>> = const { RefCell::new(Vec::new()) };
}

/// Forgets what was noted, and says what the aggregator will answer.
pub fn begin(aggregator_ok: bool) {
    VERDICT.with(|v| v.set(aggregator_ok));
    INPUTS.with(|i| i.borrow_mut().clear());
}

/// Whether the aggregator notes its inputs. A measurement goes without the copies.
pub fn set_noting(noting: bool) {
    NOTING.with(|n| n.set(noting));
}

/// The aggregator's run since `begin`, if it ran.
pub fn take_run() -> Option<Inputs> {
    let mut runs = INPUTS.with(|i| std::mem::take(&mut *i.borrow_mut()));
    assert!(runs.len() < 2, "the aggregator ran twice in one call");
    runs.pop()
}

/// The stand-in aggregator.
#[derive(Clone, Debug, PartialEq)]
pub struct Recorder;

fn note(
    asked: Asked,
    message: &[u8],
    nonces: &[PublicNonce],
    shares: &[SignatureShare],
    key_ids: &[u32],
) -> Result<(), AggregatorError> {
    if NOTING.with(|n| n.get()) {
        let inputs = Inputs {
            asked,
            message: message.to_vec(),
            nonces: nonces.to_vec(),
            shares: shares.to_vec(),
            key_ids: key_ids.to_vec(),
        };
        INPUTS.with(|i| i.borrow_mut().push(inputs));
    }
    if VERDICT.with(|v| v.get()) {
        Ok(())
    } else {
        Err(AggregatorError::BadGroupSig)
    }
}

fn proof() -> SchnorrProof {
    SchnorrProof { r: G.x(), s: Scalar::default() }
}

impl Aggregator for Recorder {
    fn new(_num_keys: u32, _threshold: u32) -> Self {
        Recorder
    }

    fn init(&mut self, _: &HashMap<u32, PolyCommitment>) -> Result<(), AggregatorError> {
        Ok(())
    }

    fn sign(
        &mut self,
        msg: &[u8],
        nonces: &[PublicNonce],
        shares: &[SignatureShare],
        key_ids: &[u32],
    ) -> Result<Signature, AggregatorError> {
        note(Asked::Sign, msg, nonces, shares, key_ids)?;
        Ok(Signature { R: G, z: Scalar::default() })
    }

    fn sign_schnorr(
        &mut self,
        msg: &[u8],
        nonces: &[PublicNonce],
        shares: &[SignatureShare],
        key_ids: &[u32],
    ) -> Result<SchnorrProof, AggregatorError> {
        note(Asked::Schnorr, msg, nonces, shares, key_ids)?;
        Ok(proof())
    }

    fn sign_taproot(
        &mut self,
        msg: &[u8],
        nonces: &[PublicNonce],
        shares: &[SignatureShare],
        key_ids: &[u32],
        merkle_root: Option<[u8; 32]>,
    ) -> Result<SchnorrProof, AggregatorError> {
        note(Asked::Taproot(merkle_root), msg, nonces, shares, key_ids)?;
        Ok(proof())
    }
}
