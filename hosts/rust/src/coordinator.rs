//! The coordinator: the library's calls, over buffers of its own.

use crate::answer::{self, Answer};
use crate::buffers::Buffers;
use crate::config::Config;
use crate::ffi::{self, RcAnswer};
use crate::ids::SignerId;
use crate::limits::ANSWER_LENGTH;
use crate::lists::Arrival;
use crate::outgoing::Outgoing;
use crate::phase::Phase;
use crate::refusal::Refusal;
use crate::signature::SignatureType;
use std::fmt;

/// The host's verdict on a packet's seal (its signature).
#[derive(Clone, Copy, Debug, PartialEq, Eq, Hash)]
pub enum Verdict {
    /// The seal is the sender's.
    Good,
    /// It is not.
    Bad,
}

/// A signing coordinator. It owns its state, what signers sent (the store) and an answer buffer; `&mut self` sees to it that one caller at a
/// time uses them. [`arrivals`](Coordinator::arrivals), which only reads, may be asked by several threads at once.
///
/// Clock readings are nanoseconds since whenever the host likes, and do not go back; one that does counts as no time elapsed.
///
/// After each call, save [`state`](Coordinator::state) and [`store`](Coordinator::store) together, in one transaction, and only then send
/// what the call answered. A refused call may have changed the state too: [`Refusal`] says which.
///
/// A share timeout leaves out who stayed silent, and the round is tried again without them:
///
/// ```
/// use roundcabinet::*;
///
/// let config = Config::new(3, 3, 2)
///     .verify_packet_sigs(false)
///     .sign_timeout(Timeout::nanoseconds(10))
///     .signer(Signer::new(SignerId(0), [KeyId(1)]))
///     .signer(Signer::new(SignerId(1), [KeyId(2)]))
///     .signer(Signer::new(SignerId(2), [KeyId(3)]));
/// let mut coordinator = Coordinator::commission(&config)?;
/// coordinator.set_group_key(true)?;
/// coordinator.take_results(7, &[SignerId(0), SignerId(1), SignerId(2)])?;
///
/// // Made-up bytes: the library looks at no curve.
/// let nonce = Nonce { d: [2; 33], e: [3; 33] };
/// let respond = |request: &NonceRequest, i| signer::answer(request, SignerId(i), &[KeyId(i + 1)], &[nonce]);
///
/// let request = NonceRequest::read(&coordinator.start_signing_round(100, b"pay", SignatureType::Frost, None)?)?;
/// coordinator.process(101, Verdict::Good, &respond(&request, 0)?)?;
/// let sent = coordinator.process(102, Verdict::Good, &respond(&request, 1)?)?;
/// let request = ShareRequest::read(sent.packet().expect("two keys are enough"))?;
///
/// // 0 shares, 1 does not. 112 is ten nanoseconds after the request, and 113 is more.
/// let share = Share { id: 1, z_i: [9; 32], key_ids: vec![KeyId(1)] };
/// coordinator.process(103, Verdict::Good, &signer::share(&request, SignerId(0), &[share])?)?;
/// assert_eq!(coordinator.process_timeout(112)?, Answer::Nothing);
/// let retry = coordinator.process_timeout(113)?;
/// let request = NonceRequest::read(retry.packet().expect("two keys are left"))?;
/// assert_eq!((request.ids.sign_id, request.ids.iteration), (1, 2));
///
/// // 1 is heard no more; 0 and 2 go on without it.
/// assert_eq!(coordinator.process(114, Verdict::Good, &respond(&request, 1)?)?, Answer::Nothing);
/// assert_eq!(coordinator.process(115, Verdict::Good, &respond(&request, 2)?)?, Answer::Nothing);
/// assert!(coordinator.process(116, Verdict::Good, &respond(&request, 0)?)?.packet().is_some());
///
/// // Both silent now: no key is left.
/// let malicious = vec![SignerId(0), SignerId(1), SignerId(2)];
/// assert_eq!(coordinator.process_timeout(127)?, Answer::InsufficientSigners { malicious });
/// # Ok::<(), Refusal>(())
/// ```
pub struct Coordinator {
    buffers: Buffers,
}

impl Coordinator {
    /// A new coordinator: Idle, ids 0, nothing held, nobody left out. Refused with 1, 2 and 3.
    pub fn commission(config: &Config) -> Result<Coordinator, Refusal> {
        let mut coordinator = Coordinator { buffers: Buffers::zeros() };
        coordinator.commission_again(config)?;
        Ok(coordinator)
    }

    /// Commissions this coordinator anew. Whatever it held is gone, a job that is out too; after a refusal it is not commissioned.
    /// Refused with 1, 2 and 3; and with 4 where it was loaded from a state that is too short.
    pub fn commission_again(&mut self, config: &Config) -> Result<(), Refusal> {
        done(ffi::commission(&mut self.buffers, config.plain()))
    }

    /// A coordinator from saved bytes, any bytes. Those that no call has left are not commissioned: [`check`](Coordinator::check) and every
    /// call but commissioning refuse them with 4, and leave them as they are. A state and a store belong together; nothing here can see
    /// where they don't.
    ///
    /// ```
    /// use roundcabinet::{Config, Coordinator, Refusal};
    /// let mut saved = Coordinator::commission(&Config::new(0, 0, 0))?;
    /// saved.set_group_key(true)?;
    ///
    /// let mut loaded = Coordinator::load(saved.state(), saved.store());
    /// assert_eq!(loaded.check(), Ok(()));
    /// assert_eq!((loaded.state(), loaded.store()), (saved.state(), saved.store()));
    ///
    /// let mut half = Coordinator::load(&saved.state()[..1600], saved.store());
    /// assert_eq!(half.check(), Err(Refusal::State));
    /// assert_eq!(half.reset(), Err(Refusal::State));
    /// # Ok::<(), Refusal>(())
    /// ```
    pub fn load(state: impl Into<Box<[u8]>>, store: impl Into<Box<[u8]>>) -> Coordinator {
        Coordinator { buffers: Buffers::of(state.into(), store.into()) }
    }

    /// Whether the bytes that it was loaded from are a coordinator's: refused with 4 where they are not. Changes nothing.
    pub fn check(&mut self) -> Result<(), Refusal> {
        match self.can_move_to(Phase::Idle) {
            Ok(_) | Err(Refusal::JobOut) => Ok(()),
            Err(refusal) => Err(refusal),
        }
    }

    /// The state, to be saved as it is.
    pub fn state(&self) -> &[u8] {
        &self.buffers.state
    }

    /// What signers sent, to be saved as it is beside the state.
    pub fn store(&self) -> &[u8] {
        &self.buffers.store
    }

    /// The host holds the coordinator's key from now on, or no more. Its bytes stay with the host. Refused with 4 and 5.
    pub fn set_coordinator_key(&mut self, held: bool) -> Result<(), Refusal> {
        done(ffi::set_coordinator_key(&mut self.buffers, held))
    }

    /// The host holds the group's key from now on, or no more. Its bytes stay with the host. Refused with 4 and 5.
    pub fn set_group_key(&mut self, held: bool) -> Result<(), Refusal> {
        done(ffi::set_group_key(&mut self.buffers, held))
    }

    /// Key generation's results: its id, and the signers that ended it. They replace the earlier ones. Refused with 4, 5, 24, 25.
    ///
    /// ```
    /// use roundcabinet::{Config, Coordinator, Refusal, SignerId};
    /// let mut coordinator = Coordinator::commission(&Config::new(0, 0, 0))?;
    /// assert_eq!(coordinator.take_results(7, &[SignerId(1)]), Err(Refusal::Ended)); // not configured
    /// assert_eq!(coordinator.take_results(7, &[]), Ok(()));
    /// # Ok::<(), Refusal>(())
    /// ```
    pub fn take_results(&mut self, dkg_id: u64, ended: &[SignerId]) -> Result<(), Refusal> {
        let ended: Vec<u32> = ended.iter().map(|signer| signer.0).collect();
        done(ffi::take_results(&mut self.buffers, dkg_id, &ended))
    }

    /// Starts a signing round and gives the nonce request to be sent (kind 1). Without a sign id it is the last one plus 1. Refused with 4,
    /// 5, 9, 10, 11.
    ///
    /// WARNING. A start that is refused with 11 has already replaced message and sign id, as fire.rs does it. While shares are gathered, a
    /// start of another type makes signers that answer in time look silent: their shares get 17, and the share timeout leaves them out. A
    /// start of the same type (and root) is taken there: it puts itself in the place of the round in hand, whose shares come to nothing.
    /// So start where [`is_idle`](Coordinator::is_idle) says yes, and nowhere else; to give a round up, [`reset`](Coordinator::reset) first.
    /// `can_move_to(Phase::NonceRequest(..))` is not the question to ask: while shares of that type are gathered it says yes.
    ///
    /// ```
    /// use roundcabinet::{Config, Coordinator, Refusal, SignatureType};
    /// let mut coordinator = Coordinator::commission(&Config::new(0, 0, 0))?;
    /// let schnorr = SignatureType::Schnorr;
    /// assert_eq!(coordinator.start_signing_round(0, b"pay", schnorr, None), Err(Refusal::GroupKey));
    /// coordinator.set_group_key(true)?;
    /// assert_eq!(coordinator.start_signing_round(0, &[0; 257], schnorr, None), Err(Refusal::Limit));
    ///
    /// assert!(coordinator.is_idle()?);
    /// coordinator.start_signing_round(0, b"pay", schnorr, Some(40))?;
    /// assert!(!coordinator.is_idle()?); // nonces are gathered
    /// # Ok::<(), Refusal>(())
    /// ```
    pub fn start_signing_round(
        &mut self,
        clock: u64,
        message: &[u8],
        signature_type: SignatureType,
        sign_id: Option<u64>,
    ) -> Result<Vec<u8>, Refusal> {
        let (byte, root) = (signature_type.byte(), signature_type.root());
        let start = ffi::Start { clock, message, signature_type: byte, root, sign_id };
        let a = ffi::start_signing_round(&mut self.buffers, &start);
        match Answer::of(a, &self.buffers.out)? {
            Answer::Packet(packet) => Ok(packet),
            _ => Err(Refusal::unknown(a)),
        }
    }

    /// A packet has come. The timeout is tested first, as [`process_timeout`](Coordinator::process_timeout) does; where that yields anything,
    /// the packet is dropped. Refused with 4, 5, 8, 9, 12 to 14, and by the state: Idle 10 and 15, NonceGather 16 to 19 and 10. While shares
    /// are gathered, refused shares are an answer.
    ///
    /// Two things that fire.rs does not look at are the host's to see before it hands a packet on (this crate's first page says why): a
    /// share's iteration, and whether a nonce request that comes in Idle is one of the coordinator's own, played back.
    ///
    /// [`Answer::Nothing`] says "recorded" and "dropped" alike, as fire.rs does.
    ///
    /// ```
    /// use roundcabinet::{Answer, Config, Coordinator, Refusal, Verdict};
    /// let mut coordinator = Coordinator::commission(&Config::new(0, 0, 0))?;
    /// let mut begin = [0; 32];
    /// begin[0] = 5; // DkgBegin of key generation 0, which is the current one
    /// assert_eq!(coordinator.process(0, Verdict::Good, &begin[1..]), Err(Refusal::Layout));
    /// assert_eq!(coordinator.process(0, Verdict::Good, &begin), Err(Refusal::CoordinatorKey));
    /// coordinator.set_coordinator_key(true)?;
    /// assert_eq!(coordinator.process(0, Verdict::Bad, &begin), Err(Refusal::Seal));
    /// assert_eq!(coordinator.process(0, Verdict::Good, &begin), Ok(Answer::Nothing));
    /// begin[8] = 1;
    /// assert_eq!(coordinator.process(0, Verdict::Good, &begin), Err(Refusal::DkgBegin));
    /// # Ok::<(), Refusal>(())
    /// ```
    pub fn process(&mut self, clock: u64, verdict: Verdict, packet: &[u8]) -> Result<Answer, Refusal> {
        let a = ffi::process(&mut self.buffers, clock, verdict == Verdict::Good, packet);
        Answer::of(a, &self.buffers.out)
    }

    /// A packet has come. As [`process`](Coordinator::process), but no timeout is tested.
    pub fn process_message(&mut self, clock: u64, verdict: Verdict, packet: &[u8]) -> Result<Answer, Refusal> {
        let a = ffi::process_message(&mut self.buffers, clock, verdict == Verdict::Good, packet);
        Answer::of(a, &self.buffers.out)
    }

    /// No packet has come: only the timeout is tested. Nonces late: [`Answer::NonceTimeout`], or refused with 12 where nobody has answered.
    /// Shares late: all who are waited for are left out from now on; then the retry, a nonce request, or [`Answer::InsufficientSigners`].
    /// Refused with 4, 5, 12.
    ///
    /// ```
    /// use roundcabinet::{Answer, Config, Coordinator, Refusal, SignatureType};
    /// use std::time::Duration;
    /// let config = Config::new(0, 0, 0).nonce_timeout(Duration::from_nanos(10));
    /// let mut coordinator = Coordinator::commission(&config)?;
    /// coordinator.set_group_key(true)?;
    /// coordinator.start_signing_round(100, b"pay", SignatureType::Frost, None)?;
    /// assert_eq!(coordinator.process_timeout(110), Ok(Answer::Nothing));
    /// assert_eq!(coordinator.process_timeout(111), Err(Refusal::NoRecord));
    /// # Ok::<(), Refusal>(())
    /// ```
    pub fn process_timeout(&mut self, clock: u64) -> Result<Answer, Refusal> {
        let a = ffi::process_timeout(&mut self.buffers, clock);
        Answer::of(a, &self.buffers.out)
    }

    /// Who has answered the current message, and when: ascending by signer, with the clock reading of the call that recorded its response,
    /// as the host gave it to [`process`](Coordinator::process) or [`process_message`](Coordinator::process_message), also where it went
    /// back or came late. Nobody where nobody has answered. For an operator who calls slow signers before the timeout: whom one would call
    /// is every configured signer that is neither here nor left out.
    ///
    /// A second response leaves the first one's reading, and refusal 10 while nonces are gathered keeps the response with its reading. A
    /// nonce request (a start, a retry, a request that is taken in Idle), a reset and commissioning empty the list; success does not. After
    /// a start that was refused with 11 the current message is that start's, and often nobody has answered it.
    ///
    /// No timeout is tested and nothing is changed: there is nothing to save. Refused with 4 and 5.
    ///
    /// ```
    /// use roundcabinet::*;
    ///
    /// let config = (0..3).fold(Config::new(3, 3, 3), |c, i| c.signer(Signer::new(SignerId(i), [KeyId(i + 1)])));
    /// let mut coordinator = Coordinator::commission(&config.verify_packet_sigs(false))?;
    /// coordinator.set_group_key(true)?;
    /// coordinator.take_results(7, &[SignerId(0), SignerId(1), SignerId(2)])?;
    /// let request = NonceRequest::read(&coordinator.start_signing_round(100, b"pay", SignatureType::Frost, None)?)?;
    /// assert_eq!(coordinator.arrivals(), Ok(vec![]));
    ///
    /// let respond = |i| signer::answer(&request, SignerId(i), &[KeyId(i + 1)], &[]);
    /// coordinator.process(101, Verdict::Good, &respond(2)?)?;
    /// coordinator.process(103, Verdict::Good, &respond(0)?)?;
    /// let came = [Arrival { signer: SignerId(0), clock: 103 }, Arrival { signer: SignerId(2), clock: 101 }];
    /// assert_eq!(coordinator.arrivals()?, came); // call signer 1
    /// # Ok::<(), Refusal>(())
    /// ```
    pub fn arrivals(&self) -> Result<Vec<Arrival>, Refusal> {
        // A buffer of its own, so that nothing is borrowed mutably.
        let mut out = vec![0; ANSWER_LENGTH];
        let a = ffi::tell_arrivals(&self.buffers.state, &self.buffers.store, &mut out);
        if a.class_ == ffi::ERROR {
            return Err(Refusal::of(a));
        }
        match Outgoing::read(answer::written(a, &out)) {
            Ok(Outgoing::Arrivals(arrivals)) => Ok(arrivals),
            _ => Err(Refusal::unknown(a)),
        }
    }

    /// The aggregator's answer to the job that is out: whether it succeeded. [`Answer::Signed`], and Idle; or
    /// [`Answer::AggregationFailed`]. Refused with 4 and 6.
    ///
    /// ```
    /// use roundcabinet::{Config, Coordinator, Refusal};
    /// let mut coordinator = Coordinator::commission(&Config::new(0, 0, 0))?;
    /// assert_eq!(coordinator.aggregated(true), Err(Refusal::NoJob));
    /// # Ok::<(), Refusal>(())
    /// ```
    pub fn aggregated(&mut self, ok: bool) -> Result<Answer, Refusal> {
        Answer::of(ffi::aggregated(&mut self.buffers, ok), &[])
    }

    /// Idle again: ended signers, records, shares, clocks and a job that is out are forgotten. Who was left out, ids, message and held keys
    /// stay. Refused with 4.
    ///
    /// ```
    /// use roundcabinet::{Config, Coordinator, NonceRequest, Refusal, SignatureType};
    /// let mut coordinator = Coordinator::commission(&Config::new(0, 0, 0))?;
    /// coordinator.set_group_key(true)?;
    /// coordinator.start_signing_round(0, b"pay", SignatureType::Frost, Some(5))?;
    /// assert_eq!(coordinator.take_results(7, &[]), Err(Refusal::NotIdle));
    /// coordinator.reset()?;
    /// coordinator.take_results(7, &[])?;
    /// let packet = coordinator.start_signing_round(0, b"pay", SignatureType::Frost, None)?;
    /// assert_eq!(NonceRequest::read(&packet)?.ids.sign_id, 6); // the ids stayed
    /// # Ok::<(), Refusal>(())
    /// ```
    pub fn reset(&mut self) -> Result<(), Refusal> {
        done(ffi::reset(&mut self.buffers))
    }

    /// Whether no round is in hand: the question to ask before a start. No while nonces or shares are gathered, and while a job is out.
    /// Changes nothing. Refused with 4.
    ///
    /// ```
    /// use roundcabinet::{Config, Coordinator, Refusal, SignatureType};
    /// let mut coordinator = Coordinator::commission(&Config::new(0, 0, 0))?;
    /// coordinator.set_group_key(true)?;
    /// assert_eq!(coordinator.is_idle(), Ok(true));
    /// coordinator.start_signing_round(0, b"pay", SignatureType::Frost, None)?;
    /// assert_eq!(coordinator.is_idle(), Ok(false));
    /// coordinator.reset()?;
    /// assert_eq!(coordinator.is_idle(), Ok(true));
    /// assert_eq!(Coordinator::load([0; 3520], [0; 52224]).is_idle(), Err(Refusal::State)); // no call left these
    /// # Ok::<(), Refusal>(())
    /// ```
    pub fn is_idle(&mut self) -> Result<bool, Refusal> {
        // fire.rs enters that state from Idle alone.
        match self.can_move_to(Phase::DkgPublicDistribute) {
            Err(Refusal::JobOut) => Ok(false),
            answer => answer,
        }
    }

    /// Whether the coordinator may move to a phase, as fire.rs's `can_move_to` answers it. Changes nothing. Refused with 4 and 5. Before a
    /// start ask [`is_idle`](Coordinator::is_idle) instead: while shares are gathered, `NonceRequest` of the same type may be moved to, and
    /// a start takes the place of the round in hand.
    ///
    /// ```
    /// use roundcabinet::{Config, Coordinator, Phase, Refusal, SignatureType};
    /// let mut coordinator = Coordinator::commission(&Config::new(0, 0, 0))?;
    /// coordinator.set_group_key(true)?;
    /// let frost = SignatureType::Frost;
    /// assert_eq!(coordinator.can_move_to(Phase::NonceRequest(frost)), Ok(true));
    /// coordinator.start_signing_round(0, b"pay", frost, None)?;
    /// assert_eq!(coordinator.can_move_to(Phase::NonceRequest(frost)), Ok(false));
    /// assert_eq!(coordinator.start_signing_round(0, b"pay", frost, None), Err(Refusal::Move)); // and the sign id is 2 now
    /// # Ok::<(), Refusal>(())
    /// ```
    pub fn can_move_to(&mut self, next: Phase) -> Result<bool, Refusal> {
        let signature_type = next.signature_type();
        let a = ffi::can_move_to(&mut self.buffers, next.number(), signature_type.byte(), signature_type.root());
        match a.class_ {
            ffi::RESULT => Ok(a.first != 0),
            _ => Err(Refusal::of(a)),
        }
    }
}

/// A call that answers nothing, or refuses.
fn done(a: RcAnswer) -> Result<(), Refusal> {
    match Answer::of(a, &[])? {
        Answer::Nothing => Ok(()),
        _ => Err(Refusal::unknown(a)),
    }
}

impl fmt::Debug for Coordinator {
    /// Without its bytes, of which there are 74,656.
    fn fmt(&self, f: &mut fmt::Formatter<'_>) -> fmt::Result {
        f.debug_struct("Coordinator").finish_non_exhaustive()
    }
}
