//! What a coordinator writes for its host alone: the job (kind 32) and the results that have lists (33 to 35). The library's reader
//! does not take these kinds, so they are read here, by 01's layout.

use crate::frame::{self, Frame};
use crate::ids::{KeyId, RoundIds, SignerId};
use crate::lists::{self, Arrival, Nonce, Share};
use crate::refusal::Refusal;
use crate::signature::SignatureType;
use std::fmt;

/// Kind 32: what the aggregator needs. Lists are each responder's list as it was sent, joined in ascending order of signers.
#[derive(Clone, Debug, PartialEq, Eq)]
pub struct Job {
    /// The round.
    pub ids: RoundIds,
    /// The signature type, its root with it.
    pub signature_type: SignatureType,
    /// The message to be signed.
    pub message: Vec<u8>,
    /// The responders' keys.
    pub key_ids: Vec<KeyId>,
    /// The responders' nonces.
    pub nonces: Vec<Nonce>,
    /// The shares that are held.
    pub shares: Vec<Share>,
}

/// What a packet of kind 32, 33, 34 or 35 says.
#[derive(Clone, Debug, PartialEq, Eq)]
pub enum Outgoing {
    /// Kind 32.
    Job(Job),
    /// Kind 33: nonces were late.
    NonceTimeout {
        /// Who answered the current message, and would be waited for.
        waiters: Vec<SignerId>,
        /// Who has been left out so far.
        malicious: Vec<SignerId>,
    },
    /// Kind 34: shares were late, and too few keys are left.
    InsufficientSigners {
        /// Who has been left out so far.
        malicious: Vec<SignerId>,
    },
    /// Kind 35: who has answered the current message, and when.
    Arrivals(Vec<Arrival>),
}

impl Outgoing {
    /// Reads what a coordinator wrote for its host. Anything else is refused with 8.
    ///
    /// ```
    /// use roundcabinet::{Outgoing, Refusal, SignerId};
    /// let mut packet = [0; 48];
    /// (packet[0], packet[2]) = (34, 1); // one part,
    /// (packet[32], packet[36]) = (40, 8); // eight bytes from 40 on:
    /// (packet[40], packet[44]) = (3, 9); // signers 3 and 9
    /// let malicious = vec![SignerId(3), SignerId(9)];
    /// assert_eq!(Outgoing::read(&packet)?, Outgoing::InsufficientSigners { malicious });
    /// assert_eq!(Outgoing::read(&packet[..47]).unwrap_err(), Refusal::Layout);
    /// # Ok::<(), Refusal>(())
    /// ```
    pub fn read(bytes: &[u8]) -> Result<Outgoing, Refusal> {
        frame::read(bytes).and_then(|frame| Outgoing::of(&frame)).ok_or(Refusal::Layout)
    }

    fn of(frame: &Frame<'_>) -> Option<Outgoing> {
        match (frame.kind, &frame.parts[..]) {
            (32, [message, root, keys, nonces, shares @ ..]) => Some(Outgoing::Job(Job {
                ids: frame.ids,
                signature_type: SignatureType::of(frame.type_byte, root)?,
                message: message.to_vec(),
                key_ids: lists::key_ids(keys)?,
                nonces: lists::nonces(nonces)?,
                shares: shares.iter().map(|part| lists::share(part)).collect::<Option<_>>()?,
            })),
            (33, [waiters, malicious]) => Some(Outgoing::NonceTimeout {
                waiters: lists::signer_ids(waiters)?,
                malicious: lists::signer_ids(malicious)?,
            }),
            (34, [malicious]) => Some(Outgoing::InsufficientSigners { malicious: lists::signer_ids(malicious)? }),
            (35, [signers, clocks]) => Some(Outgoing::Arrivals(lists::arrivals(signers, clocks)?)),
            _ => None,
        }
    }
}

impl fmt::Display for Outgoing {
    /// The header's words for its kind, `rc_kind_text`.
    fn fmt(&self, f: &mut fmt::Formatter<'_>) -> fmt::Result {
        f.pad(match self {
            Outgoing::Job(_) => "job",
            Outgoing::NonceTimeout { .. } => "nonce timeout",
            Outgoing::InsufficientSigners { .. } => "insufficient signers",
            Outgoing::Arrivals(_) => "arrivals",
        })
    }
}

impl Job {
    /// Reads a packet of kind 32. Anything else is refused with 8.
    pub fn read(bytes: &[u8]) -> Result<Job, Refusal> {
        match Outgoing::read(bytes)? {
            Outgoing::Job(job) => Ok(job),
            _ => Err(Refusal::Layout),
        }
    }
}
