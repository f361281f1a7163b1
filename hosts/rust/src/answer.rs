//! What a call answers.

use crate::ffi::{self, RcAnswer};
use crate::ids::SignerId;
use crate::outgoing::Outgoing;
use crate::refusal::Refusal;
use crate::signature::SignatureKind;

/// What a call that is not refused answers.
///
/// Packets are copies: a host saves state and store before it sends what is in them.
#[derive(Clone, Debug, PartialEq, Eq)]
pub enum Answer {
    /// Nothing to do: a packet was recorded, or dropped without a word, as fire.rs does it. What tells the two apart is whether the call
    /// changed [`state`](crate::Coordinator::state) or [`store`](crate::Coordinator::store); of nonces also
    /// [`arrivals`](crate::Coordinator::arrivals), which names who has answered.
    Nothing,
    /// A packet to be sealed and sent to the signers: kind 1 or 3.
    Packet(Vec<u8>),
    /// A job for the aggregator; answer it with [`aggregated`](crate::Coordinator::aggregated).
    Job {
        /// The job, kind 32: see [`Job`](crate::Job).
        packet: Vec<u8>,
        /// Whether every responder's shares are held and no key id occurs twice in the job's joined list. Where it is not whole no
        /// aggregator need be asked: answer `false`. Shares are missing where a signer's were refused (20 to 22): the share timeout
        /// retries. A key that occurs twice would do so again after a retry:
        /// [`ShareRequest::key_named_twice`](crate::ShareRequest::key_named_twice) says who named it.
        whole: bool,
    },
    /// Nonces were late. The round stays as it is.
    NonceTimeout {
        /// Who answered the current message.
        waiters: Vec<SignerId>,
        /// Who has been left out so far.
        malicious: Vec<SignerId>,
    },
    /// Shares were late, and the signers left have fewer keys than `threshold`. The round stays as it is.
    InsufficientSigners {
        /// Who has been left out so far, those that were late now among them.
        malicious: Vec<SignerId>,
    },
    /// The round is over, and made such a signature.
    Signed(SignatureKind),
    /// A signer's shares were not taken: 16 and 17, or 20 to 22, after which it is waited for no more. The round goes on.
    ShareRefused(Refusal),
    /// The aggregator failed (23). Nobody is waited for; the next share timeout retries.
    AggregationFailed,
}

impl Answer {
    /// The packet to be sent, where there is one.
    pub fn packet(&self) -> Option<&[u8]> {
        match self {
            Answer::Packet(packet) => Some(packet),
            _ => None,
        }
    }

    /// The refusal that the answer carries as a result.
    ///
    /// ```
    /// use roundcabinet::Answer;
    /// assert_eq!(Answer::AggregationFailed.refusal().map(|r| r.number()), Some(23));
    /// assert_eq!(Answer::Nothing.refusal(), None);
    /// ```
    pub fn refusal(&self) -> Option<Refusal> {
        match self {
            Answer::ShareRefused(refusal) => Some(*refusal),
            Answer::AggregationFailed => Some(Refusal::Aggregation),
            _ => None,
        }
    }

    /// The library's answer. `out` is what the call was lent to write to: the front of it, as long as the answer says, was written.
    pub(crate) fn of(a: RcAnswer, out: &[u8]) -> Result<Answer, Refusal> {
        let written = written(a, out);
        match a.class_ {
            ffi::NOTHING => Ok(Answer::Nothing),
            ffi::PACKET => Ok(Answer::Packet(written.to_vec())),
            ffi::JOB => Ok(Answer::Job { packet: written.to_vec(), whole: a.mark != 0 }),
            ffi::RESULT => result(a, written),
            ffi::ERROR => Err(Refusal::of(a)),
            _ => Err(Refusal::unknown(a)),
        }
    }
}

/// What the call wrote to `out`.
pub(crate) fn written(a: RcAnswer, out: &[u8]) -> &[u8] {
    let length = usize::try_from(a.length).map_or(out.len(), |n| n.min(out.len()));
    &out[..length]
}

fn result(a: RcAnswer, written: &[u8]) -> Result<Answer, Refusal> {
    match a.number {
        0 if written.is_empty() => SignatureKind::of(a.first).map(Answer::Signed).ok_or(Refusal::unknown(a)),
        0 => late(written).ok_or(Refusal::unknown(a)),
        23 => Ok(Answer::AggregationFailed),
        _ => Ok(Answer::ShareRefused(Refusal::of(a))),
    }
}

/// A timeout's result.
fn late(written: &[u8]) -> Option<Answer> {
    match Outgoing::read(written).ok()? {
        Outgoing::NonceTimeout { waiters, malicious } => Some(Answer::NonceTimeout { waiters, malicious }),
        Outgoing::InsufficientSigners { malicious } => Some(Answer::InsufficientSigners { malicious }),
        Outgoing::Job(_) | Outgoing::Arrivals(_) => None,
    }
}
