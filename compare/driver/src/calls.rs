//! Calls and answers.

use crate::{probes::Probe, signature_type::SigType};

#[derive(Clone, Debug, PartialEq, Eq)]
pub struct Commission {
    pub num_signers: u32,
    pub num_keys: u32,
    pub threshold: u32,
    pub dkg_threshold: u32,
    pub sign_threshold: u32,
    /// Nanoseconds.
    pub nonce_timeout: Option<u64>,
    pub sign_timeout: Option<u64>,
    pub verify_packet_sigs: bool,
    /// Id and key set; `None` is a signer without a key set entry.
    pub signers: Vec<(u32, Option<Vec<u32>>)>,
}

impl Commission {
    /// The entry of a signer, if it is configured.
    pub fn entry(&self, signer_id: u32) -> Option<&Option<Vec<u32>>> {
        self.signers.iter().find(|s| s.0 == signer_id).map(|s| &s.1)
    }
}

/// A packet with what the host says of its signature, and what the aggregator will say if this
/// call comes to run it.
#[derive(Clone, Debug, PartialEq, Eq)]
pub struct Inbound {
    pub packet: Vec<u8>,
    pub verdict: bool,
    pub agg_ok: bool,
}

#[derive(Clone, Debug, PartialEq, Eq)]
pub enum Call {
    Commission(Commission),
    SetGroupKey(bool),
    SetCoordinatorKey(bool),
    DkgResults { dkg_id: u64, ended: Vec<u32> },
    Start { message: Vec<u8>, signature_type: SigType, sign_id: Option<u64> },
    Process(Inbound),
    ProcessTimeout,
    ProcessMessage(Inbound),
    Reset,
    CanMoveTo { state: u8, signature_type: SigType },
}

/// One call at one clock reading, and the call on the library alone that follows it.
#[derive(Clone, Debug, PartialEq, Eq)]
pub struct Step {
    pub now: u64,
    pub call: Call,
    pub probe: Probe,
}

/// What the aggregator came to, by the number that the library gives (0 sign, 1 schnorr, 2
/// taproot).
#[derive(Clone, Copy, Debug, PartialEq, Eq)]
pub enum Outcome {
    Signed(u8),
    Failed,
}

/// What fire.rs answered, in 01's terms.
#[derive(Clone, Debug, PartialEq, Eq)]
pub enum Answer {
    /// The Rust's `Ok((None, None))`; also the calls that give nothing back.
    Nothing,
    /// Kind 1 or 3.
    Packet(Vec<u8>),
    /// Kind 33 or 34.
    Late(Vec<u8>),
    /// Kind 32 without a mark (mark.rs), and what the aggregator then said: 01's two steps.
    Job { bytes: Vec<u8>, outcome: Outcome },
    /// A refusal by its number, with got and expected (16 to 18) or the signer (20 to 22). It is
    /// an `Err` of the Rust, or a `SignError` among its results.
    Refused { number: u8, values: Vec<u64>, is_result: bool },
    /// The move question's answer.
    Move(bool),
    /// Outside 01's domain of equality, by the number of the question answered no (1 to 4, 8, 9,
    /// 15, 19, 24, 25). Nothing has changed.
    Outside(u8),
}
