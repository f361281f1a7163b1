//! Refusals, with document 01's numbers; 26 is asked by a signer's writers alone.

use crate::ffi::RcAnswer;
use crate::ids::SignerId;
use std::fmt;

/// Why a call, a packet or a signer's shares were not taken. Unless something is said, a refusal changes nothing.
///
/// ```
/// use roundcabinet::Refusal;
/// let refusal = Refusal::SignId { got: 4, expected: 5 };
/// assert_eq!(refusal.number(), 17);
/// assert_eq!(refusal.to_string(), "refused with 17: not the current sign id (got 4, expected 5)");
/// ```
#[derive(Clone, Copy, Debug, PartialEq, Eq, Hash)]
pub enum Refusal {
    /// 1: more than 10 signers, or an id twice. After 1 to 3 the state is uncommissioned and the store untouched.
    Signers,
    /// 2: a key set of more than 16 keys, or a key twice in it.
    Keys,
    /// 3: the key sets have more keys than `num_keys`.
    Total,
    /// 4: the state is not commissioned or no call can have left it, or the store is too short.
    State,
    /// 5: a job is out. Answer it or reset first.
    JobOut,
    /// 6: no job is out.
    NoJob,
    /// 7: the answer buffer is too short. A [`Coordinator`](crate::Coordinator) owns one that is long enough, and so does each writer.
    Room,
    /// 8: the packet is not laid out as 01 says.
    Layout,
    /// 9: a message, a list or the nested responses are over 01's limits.
    Limit,
    /// 10: no group key is held. In Idle the iteration has changed; in NonceGather the response is recorded and the message replaced; a
    /// start has changed nothing.
    GroupKey,
    /// 11: the state does not allow a start. Message and sign id HAVE changed: see
    /// [`start_signing_round`](crate::Coordinator::start_signing_round).
    Move,
    /// 12: a timeout fired, and nobody has answered the current message.
    NoRecord,
    /// 13: seals are verified, and no coordinator key is held.
    CoordinatorKey,
    /// 14: the signer is unknown, or the seal is not good.
    Seal,
    /// 15: another key generation was begun.
    DkgBegin,
    /// 16: not the current dkg id.
    DkgId {
        /// What the packet has.
        got: u64,
        /// What the coordinator has.
        expected: u64,
    },
    /// 17: not the current sign id.
    SignId {
        /// What the packet has.
        got: u64,
        /// What the coordinator has.
        expected: u64,
    },
    /// 18: not the current iteration.
    Iteration {
        /// What the packet has.
        got: u64,
        /// What the coordinator has.
        expected: u64,
    },
    /// 19: four messages have been answered already, and this is a fifth.
    Messages,
    /// 20: the signer has no public key. After 20 to 22 it is waited for no more.
    PublicKey(SignerId),
    /// 21: the signer has no key set.
    NoKeys(SignerId),
    /// 22: the signer shared for other keys than its own.
    WrongKeys(SignerId),
    /// 23: the aggregator failed. The job is no longer out.
    Aggregation,
    /// 24: results of key generation are taken in Idle alone.
    NotIdle,
    /// 25: more than 10 ended signers, or one that is not configured.
    Ended,
    /// 26: the buffer that was lent to a signer's writer is shorter than the packet.
    Buffer,
    /// An answer that this crate does not know: crate and archive do not fit together.
    Other {
        /// The answer's class.
        class: u32,
        /// The answer's number.
        number: u32,
    },
}

impl Refusal {
    /// Document 01's number, or 26.
    pub fn number(self) -> u32 {
        match self {
            Refusal::Signers => 1,
            Refusal::Keys => 2,
            Refusal::Total => 3,
            Refusal::State => 4,
            Refusal::JobOut => 5,
            Refusal::NoJob => 6,
            Refusal::Room => 7,
            Refusal::Layout => 8,
            Refusal::Limit => 9,
            Refusal::GroupKey => 10,
            Refusal::Move => 11,
            Refusal::NoRecord => 12,
            Refusal::CoordinatorKey => 13,
            Refusal::Seal => 14,
            Refusal::DkgBegin => 15,
            Refusal::DkgId { .. } => 16,
            Refusal::SignId { .. } => 17,
            Refusal::Iteration { .. } => 18,
            Refusal::Messages => 19,
            Refusal::PublicKey(_) => 20,
            Refusal::NoKeys(_) => 21,
            Refusal::WrongKeys(_) => 22,
            Refusal::Aggregation => 23,
            Refusal::NotIdle => 24,
            Refusal::Ended => 25,
            Refusal::Buffer => 26,
            Refusal::Other { number, .. } => number,
        }
    }

    /// The refusal that an answer names.
    pub(crate) fn of(a: RcAnswer) -> Refusal {
        let (got, expected) = (a.first, a.second);
        let signer = SignerId(a.first as u32); // the library's ids have 32 bits
        match a.number {
            10 => Refusal::GroupKey,
            11 => Refusal::Move,
            12 => Refusal::NoRecord,
            13 => Refusal::CoordinatorKey,
            14 => Refusal::Seal,
            15 => Refusal::DkgBegin,
            16 => Refusal::DkgId { got, expected },
            17 => Refusal::SignId { got, expected },
            18 => Refusal::Iteration { got, expected },
            19 => Refusal::Messages,
            20 => Refusal::PublicKey(signer),
            21 => Refusal::NoKeys(signer),
            22 => Refusal::WrongKeys(signer),
            23 => Refusal::Aggregation,
            24 => Refusal::NotIdle,
            25 => Refusal::Ended,
            number => Refusal::of_number(number).unwrap_or(Refusal::unknown(a)),
        }
    }

    /// 1 to 9, which are asked before a call's own work, and 26: readers and writers give no others.
    pub(crate) fn of_number(number: u32) -> Option<Refusal> {
        match number {
            1 => Some(Refusal::Signers),
            2 => Some(Refusal::Keys),
            3 => Some(Refusal::Total),
            4 => Some(Refusal::State),
            5 => Some(Refusal::JobOut),
            6 => Some(Refusal::NoJob),
            7 => Some(Refusal::Room),
            8 => Some(Refusal::Layout),
            9 => Some(Refusal::Limit),
            26 => Some(Refusal::Buffer),
            _ => None,
        }
    }

    /// An answer that no call gives.
    pub(crate) fn unknown(a: RcAnswer) -> Refusal {
        Refusal::Other { class: a.class_, number: a.number }
    }

    /// What it says in words, as the header's `rc_text` does: the line without number and values.
    pub fn text(self) -> &'static str {
        match self {
            Refusal::Signers => "more than 10 signers, or an id twice",
            Refusal::Keys => "a key set of more than 16 keys, or a key twice in it",
            Refusal::Total => "the key sets have more keys than num_keys",
            Refusal::State => "the state is not commissioned or no call left it, or the store is too short",
            Refusal::JobOut => "a job is out: answer it or reset first",
            Refusal::NoJob => "no job is out",
            Refusal::Room => "the answer buffer is too short",
            Refusal::Layout => "the packet is not laid out as it must be",
            Refusal::Limit => "a message or a list is over its limit",
            Refusal::GroupKey => "no group key is held",
            Refusal::Move => "the state does not allow a start; message and sign id have changed",
            Refusal::NoRecord => "a timeout fired, and nobody has answered the current message",
            Refusal::CoordinatorKey => "seals are verified, and no coordinator key is held",
            Refusal::Seal => "the signer is unknown, or the seal is not good",
            Refusal::DkgBegin => "another key generation was begun",
            Refusal::DkgId { .. } => "not the current dkg id",
            Refusal::SignId { .. } => "not the current sign id",
            Refusal::Iteration { .. } => "not the current iteration",
            Refusal::Messages => "four messages have been answered already, and this is a fifth",
            Refusal::PublicKey(_) => "the signer has no public key",
            Refusal::NoKeys(_) => "the signer has no key set",
            Refusal::WrongKeys(_) => "the signer shared for other keys than its own",
            Refusal::Aggregation => "the aggregator failed",
            Refusal::NotIdle => "results of key generation are taken in Idle alone",
            Refusal::Ended => "more than 10 ended signers, or one that is not configured",
            Refusal::Buffer => "the lent buffer is shorter than the packet",
            Refusal::Other { .. } => "this crate does not know the answer; crate and archive do not fit together",
        }
    }
}

impl fmt::Display for Refusal {
    fn fmt(&self, f: &mut fmt::Formatter<'_>) -> fmt::Result {
        write!(f, "refused with {}: {}", self.number(), self.text())?;
        match self {
            Refusal::DkgId { got, expected }
            | Refusal::SignId { got, expected }
            | Refusal::Iteration { got, expected } => write!(f, " (got {got}, expected {expected})"),
            Refusal::PublicKey(signer) | Refusal::NoKeys(signer) | Refusal::WrongKeys(signer) => {
                write!(f, " (signer {signer})")
            }
            Refusal::Other { class, .. } => write!(f, " (class {class})"),
            _ => Ok(()),
        }
    }
}

impl std::error::Error for Refusal {}
