//! The published coordinator behind 01's calls.

use std::{collections::BTreeMap, time::Duration};

use hashbrown::HashSet;
use wsts::{
    curve::{ecdsa::PublicKey, point::Point, scalar::Scalar},
    harness::{self, Recorder},
    net::{DkgEnd, DkgStatus, Message, Packet, SignatureType},
    state_machine::{
        coordinator::{fire, Config, Coordinator, SavedState},
        PublicKeys, StateMachine,
    },
};

use crate::{
    calls::{Answer, Call, Commission, Inbound},
    clock,
    fire_answers::{answer, refusal, Given},
    packet,
    states::{self, IDLE},
};

pub type Published = fire::Coordinator<Recorder>;

/// The name of the coordinator's key; a signer's key has its id as name.
const COORDINATOR_KEY: u64 = 1 << 32;

const GROUP_KEY: Point = Point([3; 33]);

struct Held {
    published: Published,
    commission: Commission,
    /// What the coordinator holds now, and what it held before the last call: its own `save`,
    /// made once a call.
    saved: SavedState,
    previous: SavedState,
}

/// The coordinator, once commissioned.
#[derive(Default)]
pub struct Fire {
    held: Option<Box<Held>>,
}

pub fn sorted<'a>(list: impl IntoIterator<Item = &'a u32>) -> Vec<u32> {
    let mut list: Vec<u32> = list.into_iter().copied().collect();
    list.sort();
    list
}

/// Questions 1 to 3.
fn commission_question(c: &Commission) -> Option<u8> {
    let ids: HashSet<u32> = c.signers.iter().map(|s| s.0).collect();
    if c.signers.len() > 10 || ids.len() != c.signers.len() {
        return Some(1);
    }
    let sets: Vec<&Vec<u32>> = c.signers.iter().filter_map(|s| s.1.as_ref()).collect();
    for set in &sets {
        if set.len() > 16 || set.iter().collect::<HashSet<_>>().len() != set.len() {
            return Some(2);
        }
    }
    let total: u64 = sets.iter().map(|s| s.len() as u64).sum();
    (total > c.num_keys as u64).then_some(3)
}

pub fn config(c: &Commission) -> Config {
    let mut public_keys = PublicKeys::default();
    for (id, keys) in &c.signers {
        public_keys.signers.insert(*id, PublicKey(*id as u64));
        if let Some(keys) = keys {
            public_keys.signer_key_ids.insert(*id, keys.iter().copied().collect());
        }
    }
    Config {
        num_signers: c.num_signers,
        num_keys: c.num_keys,
        threshold: c.threshold,
        dkg_threshold: c.dkg_threshold,
        sign_threshold: c.sign_threshold,
        message_private_key: Scalar::default(),
        dkg_public_timeout: None,
        dkg_private_timeout: None,
        dkg_end_timeout: None,
        nonce_timeout: c.nonce_timeout.map(Duration::from_nanos),
        sign_timeout: c.sign_timeout.map(Duration::from_nanos),
        public_keys,
        verify_packet_sigs: c.verify_packet_sigs,
    }
}

fn ended_messages(dkg_id: u64, ended: &[u32]) -> BTreeMap<u32, DkgEnd> {
    let end = |id: &u32| DkgEnd { dkg_id, signer_id: *id, status: DkgStatus::Success };
    ended.iter().map(|id| (*id, end(id))).collect()
}

impl Fire {
    /// Not commissioned.
    pub fn new() -> Self {
        Fire::default()
    }

    /// The configuration, once commissioned.
    pub fn commission(&self) -> Option<&Commission> {
        self.held.as_ref().map(|h| &h.commission)
    }

    /// What the coordinator holds, once commissioned.
    pub fn saved(&self) -> Option<&SavedState> {
        self.held.as_ref().map(|h| &h.saved)
    }

    /// What it held before the last call.
    pub fn previous(&self) -> Option<&SavedState> {
        self.held.as_ref().map(|h| &h.previous)
    }

    /// One call at one clock reading.
    pub fn call(&mut self, now: u64, call: &Call) -> Answer {
        if let Call::Commission(c) = call {
            return self.commission_call(now, c);
        }
        match &mut self.held {
            Some(held) => held.call(now, call),
            None => Answer::Outside(4),
        }
    }

    fn commission_call(&mut self, now: u64, c: &Commission) -> Answer {
        if let Some(number) = commission_question(c) {
            return Answer::Outside(number);
        }
        let published = clock::at(now, || Published::new(config(c)));
        let (saved, previous) = (published.save(), published.save());
        self.held = Some(Box::new(Held { published, commission: c.clone(), saved, previous }));
        Answer::Nothing
    }
}

impl Held {
    fn save(&mut self) {
        self.previous = std::mem::replace(&mut self.saved, self.published.save());
    }

    fn call(&mut self, now: u64, call: &Call) -> Answer {
        let answer = match call {
            Call::Commission(_) => unreachable!("made above"),
            Call::SetGroupKey(held) => {
                self.published.set_aggregate_public_key(held.then_some(GROUP_KEY));
                Answer::Nothing
            }
            Call::SetCoordinatorKey(held) => {
                let key = held.then_some(PublicKey(COORDINATOR_KEY));
                self.published.set_coordinator_public_key(key);
                Answer::Nothing
            }
            Call::DkgResults { dkg_id, ended } => self.results(*dkg_id, ended),
            Call::Start { message, signature_type, sign_id } => {
                return self.start(now, message, signature_type.to_rust(), *sign_id);
            }
            Call::Process(i) => return self.message(now, i, |fire, p| fire.process(p)),
            Call::ProcessMessage(i) => {
                return self.message(now, i, |fire, p| fire.process_message(p));
            }
            Call::ProcessTimeout => {
                let given = clock::at(now, || self.published.process_timeout());
                self.save();
                return answer(given, &self.saved);
            }
            Call::Reset => {
                clock::at(now, || self.published.reset());
                Answer::Nothing
            }
            Call::CanMoveTo { state, signature_type } => {
                let next = states::to_rust(*state, *signature_type);
                Answer::Move(self.published.can_move_to(&next).is_ok())
            }
        };
        self.save();
        answer
    }

    /// fire.rs has no such call: its own save and load put the results in place.
    fn results(&mut self, dkg_id: u64, ended: &[u32]) -> Answer {
        if states::from_rust(&self.published.state).0 != IDLE {
            return Answer::Outside(24);
        }
        if ended.len() > 10 || !ended.iter().all(|id| self.commission.entry(*id).is_some()) {
            return Answer::Outside(25);
        }
        let mut saved = self.published.save();
        saved.current_dkg_id = dkg_id;
        saved.dkg_end_messages = ended_messages(dkg_id, ended);
        self.published = Published::load(&saved);
        Answer::Nothing
    }

    fn start(
        &mut self,
        now: u64,
        message: &[u8],
        signature_type: SignatureType,
        sign_id: Option<u64>,
    ) -> Answer {
        if message.len() > packet::MESSAGE_LIMIT {
            return Answer::Outside(9);
        }
        let given =
            clock::at(now, || self.published.start_signing_round(message, signature_type, sign_id));
        self.save();
        match given {
            Ok(p) => Answer::Packet(packet::encode(&p.msg)),
            Err(e) => refusal(&e, false),
        }
    }

    fn message(
        &mut self,
        now: u64,
        inbound: &Inbound,
        f: impl FnOnce(&mut Published, &Packet) -> Given,
    ) -> Answer {
        let msg = match packet::decode(&inbound.packet) {
            Ok(msg) => msg,
            Err(number) => return Answer::Outside(number),
        };
        // Questions 15 and 19 are asked of what the Rust then did, so it can be taken back.
        let before = self.may_be_outside(&msg).then(|| self.published.clone());
        let p = Packet { msg, sig: vec![inbound.verdict as u8] };
        harness::begin(inbound.agg_ok);
        let given = clock::at(now, || f(&mut self.published, &p));
        if let (Ok((Some(Packet { msg: Message::DkgBegin(_), .. }), _)), Some(b)) =
            (&given, &before)
        {
            self.published = b.clone();
            return Answer::Outside(15);
        }
        self.save();
        if self.saved.message_nonces.len() > 4 {
            self.published = before.expect("a fifth message was seen to come");
            self.save();
            return Answer::Outside(19);
        }
        answer(given, &self.saved)
    }

    fn may_be_outside(&self, msg: &Message) -> bool {
        match msg {
            Message::DkgBegin(_) => true,
            Message::NonceResponse(_) => self.saved.message_nonces.len() >= 4,
            _ => false,
        }
    }
}
