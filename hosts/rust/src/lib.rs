//! RoundCabinet's signing coordinator for a host in Rust: a safe crate over libroundcabinet.a, which does what fire.rs of xoloki/wsts does
//! when it gathers nonces and signature shares. The library is written in Rattle and proved; this crate is not, it hands calls on and gives
//! bytes and numbers their types. The manual of the library is include/roundcabinet.h; "01" is the paper that it is built from, and
//! numbers of refusals are 01's.
//!
//! A [`Coordinator`] is commissioned with a [`Config`], told which keys are held and who ended key generation, and then starts rounds. Each
//! call answers an [`Answer`] or is refused with a [`Refusal`]. The host does what the library can't: it judges and makes seals, sends
//! packets, reads the clock, computes on the curve, and keeps state and store safe before it sends anything. Packets of a host's own are
//! written by [`write`](mod@write), those of signers by [`signer`].
//!
//! Two duties more are the host's, because neither 01 nor fire.rs has them, and packets can be played back or come late:
//!
//! - A share's iteration. The library compares a share's dkg id and sign id, never its iteration: a share from before a retry, heard late,
//!   is recorded, and the sum is wrong. Hand on a [`ShareResponse`] only where its `ids.iteration` is that of the share request that is out.
//! - Requests played back. A nonce request that comes in Idle starts that round, and the coordinator's own old requests bear its good seal.
//!   Hand on no coordinator's packet ([`Kind`] 1, 3, 5, 7), unless this host stands by for another coordinator; then look at what it is
//!   asked to sign.
//!
//! A job says whether it is whole ([`Answer::Job`]). Of nonces that name a key twice no whole job comes, so a host does well to leave
//! such a [`NonceResponse`] unheard ([`NonceResponse::names_key_twice`]).
//!
//! And a start belongs into Idle alone: ask [`Coordinator::is_idle`] before [`Coordinator::start_signing_round`].
//!
//! While nonces are waited for, [`Coordinator::arrivals`] says who has answered, and when: an operator may call the others before the
//! timeout.
//!
//! A whole round, with two signers of three keys:
//!
//! ```
//! use roundcabinet::*;
//!
//! let config = Config::new(2, 3, 3)
//!     .signer(Signer::new(SignerId(0), [KeyId(1)]))
//!     .signer(Signer::new(SignerId(1), [KeyId(2), KeyId(3)]));
//! let mut coordinator = Coordinator::commission(&config)?;
//! coordinator.set_coordinator_key(true)?;
//! coordinator.set_group_key(true)?;
//! coordinator.take_results(7, &[SignerId(0), SignerId(1)])?;
//!
//! // A nonce request: save `state()` and `store()`, seal it, send it.
//! let packet = coordinator.start_signing_round(1_000, b"payout 7", SignatureType::Schnorr, None)?;
//! let request = NonceRequest::read(&packet)?;
//! assert_eq!(request.ids, RoundIds { dkg_id: 7, sign_id: 1, iteration: 1 });
//!
//! // The signers answer; nonces and shares are made up here, the library looks at no curve.
//! let nonce = Nonce { d: [2; 33], e: [3; 33] };
//! let from_0 = signer::answer(&request, SignerId(0), &[KeyId(1)], &[nonce])?;
//! let from_1 = signer::answer(&request, SignerId(1), &[KeyId(2), KeyId(3)], &[nonce, nonce])?;
//! assert_eq!(coordinator.process(1_001, Verdict::Good, &from_0)?, Answer::Nothing);
//! let Answer::Packet(packet) = coordinator.process(1_002, Verdict::Good, &from_1)? else {
//!     panic!("three keys have answered");
//! };
//!
//! // A share request: save, seal, send.
//! let request = ShareRequest::read(&packet)?;
//! assert_eq!(request.responses.len(), 2);
//! let share = |key| Share { id: key, z_i: [9; 32], key_ids: vec![KeyId(key)] };
//! let from_1 = signer::share(&request, SignerId(1), &[share(2), share(3)])?;
//! let from_0 = signer::share(&request, SignerId(0), &[share(1)])?;
//! assert_eq!(coordinator.process(1_003, Verdict::Good, &from_1)?, Answer::Nothing);
//! let Answer::Job { packet, whole: true } = coordinator.process(1_004, Verdict::Good, &from_0)? else {
//!     panic!("all shares are there");
//! };
//!
//! // The job for the aggregator, ordered by signer. The coordinator waits for the answer.
//! let job = Job::read(&packet)?;
//! assert_eq!(job.key_ids, [KeyId(1), KeyId(2), KeyId(3)]);
//! assert_eq!(coordinator.process_timeout(1_005), Err(Refusal::JobOut));
//! assert_eq!(coordinator.aggregated(true)?, Answer::Signed(SignatureKind::Schnorr));
//! # Ok::<(), Refusal>(())
//! ```

#![deny(missing_docs)]
#![deny(unsafe_code)]
#![deny(clippy::undocumented_unsafe_blocks)]

mod answer;
mod buffers;
mod config;
mod contents;
mod coordinator;
#[allow(unsafe_code)]
mod ffi;
mod frame;
mod ids;
mod limits;
mod lists;
#[cfg(test)]
mod names_test;
mod outgoing;
mod packet;
mod phase;
mod refusal;
mod signature;
pub mod signer;
pub mod write;

pub use answer::Answer;
pub use config::{Config, Signer, Timeout};
pub use contents::{Contents, NonceRequest, NonceResponse, ShareRequest, ShareResponse};
pub use coordinator::{Coordinator, Verdict};
pub use ids::{KeyId, RoundIds, SignerId};
pub use limits::{
    version, ANSWER_LENGTH, KEY_LIMIT, MESSAGE_LIMIT, NONCE_RESPONSE_LIMIT, SHARE_RESPONSE_LIMIT, SIGNER_LIMIT,
    STATE_LENGTH, STATE_VERSION, STORE_LENGTH,
};
pub use lists::{Arrival, Nonce, Share};
pub use outgoing::{Job, Outgoing};
pub use packet::{Header, Kind, Packet};
pub use phase::Phase;
pub use refusal::Refusal;
pub use signature::{SignatureKind, SignatureType};
