//! Stand-in for traits.rs: the two traits as far as the published files use them.

use hashbrown::HashMap;
use rand_core::{CryptoRng, RngCore};

use crate::{
    common::{PolyCommitment, PublicNonce, Signature, SignatureShare},
    curve::scalar::Scalar,
    errors::{AggregatorError, DkgError},
    taproot::SchnorrProof,
};

pub trait Aggregator: Clone + std::fmt::Debug + PartialEq {
    fn new(num_keys: u32, threshold: u32) -> Self;

    fn init(&mut self, poly_comms: &HashMap<u32, PolyCommitment>) -> Result<(), AggregatorError>;

    fn sign(
        &mut self,
        msg: &[u8],
        nonces: &[PublicNonce],
        sig_shares: &[SignatureShare],
        key_ids: &[u32],
    ) -> Result<Signature, AggregatorError>;

    fn sign_schnorr(
        &mut self,
        msg: &[u8],
        nonces: &[PublicNonce],
        sig_shares: &[SignatureShare],
        key_ids: &[u32],
    ) -> Result<SchnorrProof, AggregatorError>;

    fn sign_taproot(
        &mut self,
        msg: &[u8],
        nonces: &[PublicNonce],
        sig_shares: &[SignatureShare],
        key_ids: &[u32],
        merkle_root: Option<[u8; 32]>,
    ) -> Result<SchnorrProof, AggregatorError>;
}

/// Only named by taproot.rs's test functions; nothing here implements it.
pub trait Signer: Clone + PartialEq {
    fn get_id(&self) -> u32;
    fn get_key_ids(&self) -> Vec<u32>;
    fn get_poly_commitments<RNG: RngCore + CryptoRng>(
        &self,
        ctx: &[u8],
        rng: &mut RNG,
    ) -> Vec<PolyCommitment>;
    fn get_shares(&self) -> HashMap<u32, HashMap<u32, Scalar>>;
    fn compute_secrets(
        &mut self,
        shares: &HashMap<u32, HashMap<u32, Scalar>>,
        polys: &HashMap<u32, PolyCommitment>,
        ctx: &[u8],
    ) -> Result<(), HashMap<u32, DkgError>>;
    fn gen_nonces<RNG: RngCore + CryptoRng>(
        &mut self,
        secret_key: &Scalar,
        rng: &mut RNG,
    ) -> Vec<PublicNonce>;
    fn sign_schnorr(
        &self,
        msg: &[u8],
        signer_ids: &[u32],
        key_ids: &[u32],
        nonces: &[PublicNonce],
    ) -> Vec<SignatureShare>;
    fn sign_taproot(
        &self,
        msg: &[u8],
        signer_ids: &[u32],
        key_ids: &[u32],
        nonces: &[PublicNonce],
        merkle_root: Option<[u8; 32]>,
    ) -> Vec<SignatureShare>;
}
