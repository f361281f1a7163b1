//! Corners of a call that its answer alone does not show, found from what fire.rs held before and
//! after it.

use std::collections::{BTreeMap, BTreeSet};

use wsts::{
    net::{Message, NonceResponse, SignatureShareResponse},
    state_machine::coordinator::SavedState,
};

use crate::{
    calls::{Answer, Call, Commission, Inbound, Outcome, Step},
    clock,
    mark::{all_shared, has_twice, key_ids},
    packet,
    states::{self, IDLE, NONCE_GATHER, SIG_SHARE_GATHER},
};

/// A run of some hundred thousand calls should reach each of them.
pub const NAMES: [&str; 68] = [
    "a job with the mark",
    "a job without the mark: shares are missing, no key id twice",
    "a job without the mark: a key id twice, all shares held",
    "a job without the mark: both",
    "a job with a key id twice in one list",
    "a job with a key id in two lists",
    "a job with two key ids that end in the same byte",
    "a job with fewer keys than sign_threshold",
    "a job with a Taproot root",
    "the aggregator succeeds: sign",
    "the aggregator succeeds: schnorr",
    "the aggregator succeeds: taproot",
    "the aggregator fails (23)",
    "kind 3 replaces the message",
    "kind 3 with a response nested under another sign id",
    "kind 3 with ten responses",
    "kind 3 by a response more than the threshold needs: after 10",
    "10 in NonceGather replaces the message",
    "10 on a packet in Idle changes the iteration",
    "10 on a start",
    "start taken in Idle",
    "start taken in SigShareGather",
    "a start without an id wraps the sign id",
    "a nonce request with iteration 0: it wrapped",
    "retry after a share timeout, signers newly malicious",
    "retry after a share timeout, nobody newly malicious",
    "retry without a group key",
    "InsufficientSigners (34)",
    "InsufficientSigners again in the same state",
    "NonceTimeout (33)",
    "NonceTimeout with malicious signers",
    "elapsed equals the timeout",
    "elapsed is one more than the timeout",
    "a timeout drops a packet",
    "a clock that went back",
    "a packet while the timeout has fired, by process_message",
    "14 of a signer that is not configured: kind 2",
    "14 of a signer that is not configured: kind 4",
    "14 of a signer that is not configured: kind 6",
    "a coordinator's packet passes 14, signer 0 not configured",
    "Idle request with the current sign id",
    "response dropped: signer not configured",
    "response dropped: key generation not ended",
    "response dropped: no key set",
    "response dropped: set differs",
    "response dropped: nonce invalid",
    "response dropped: signer malicious",
    "second response to a message",
    "response with a key id twice recorded",
    "response of a signer with an empty key set recorded",
    "response to the empty message recorded",
    "response without a nonce recorded",
    "four messages recorded",
    "response recorded at a reading before the request's",
    "response recorded after the timeout, by process_message",
    "arrivals of ten signers",
    "arrivals of nobody, while another message has been answered",
    "arrivals of another message, after 11",
    "arrivals in Idle",
    "shares, no record for the current message",
    "shares of a signer that is not waited for",
    "a waiter's shares are held already",
    "a waiter's shares are held already, the last waiter",
    "shares taken with another iteration",
    "a share response without a share taken",
    "records in Idle that are under another dkg id than the current one",
    "22 for the last waiter: no job",
    "a packet of 6 or 7, or of a kind that the state does not gather",
];

#[derive(Default)]
pub struct Corners {
    counts: BTreeMap<&'static str, u64>,
}

/// What a call is looked at with.
pub struct Seen<'a> {
    pub c: &'a Commission,
    pub before: &'a SavedState,
    pub after: &'a SavedState,
    pub step: &'a Step,
    pub answer: &'a Answer,
    /// Before the call.
    pub state: u8,
}

impl Seen<'_> {
    /// Elapsed and timeout of the state's clock.
    fn elapsed(&self) -> Option<(u64, u64)> {
        let (begun, timeout) = match self.state {
            NONCE_GATHER => (self.before.nonce_start, self.c.nonce_timeout),
            SIG_SHARE_GATHER => (self.before.sign_start, self.c.sign_timeout),
            _ => (None, None),
        };
        Some((self.step.now.saturating_sub(clock::reading(begun?)), timeout?))
    }

    fn fired(&self) -> bool {
        self.elapsed().is_some_and(|(elapsed, timeout)| elapsed > timeout)
    }

    fn went_back(&self) -> bool {
        let start = match self.state {
            NONCE_GATHER => self.before.nonce_start,
            SIG_SHARE_GATHER => self.before.sign_start,
            _ => None,
        };
        start.is_some_and(|start| clock::reading(start) > self.step.now)
    }

    fn refusal(&self) -> u8 {
        match self.answer {
            Answer::Refused { number, .. } => *number,
            _ => 0,
        }
    }
}

impl Corners {
    pub fn count(&self, name: &str) -> u64 {
        self.counts.get(name).copied().unwrap_or(0)
    }

    fn corner(&mut self, yes: bool, name: &'static str) {
        debug_assert!(NAMES.contains(&name), "{name}");
        if yes {
            *self.counts.entry(name).or_default() += 1;
        }
    }

    pub fn look(&mut self, s: &Seen) {
        if let Answer::Job { bytes, outcome } = s.answer {
            self.mark(s, bytes);
            self.job(s, bytes, *outcome);
        }
        if let Answer::Packet(bytes) = s.answer {
            let wrapped = bytes[0] == 1 && s.after.current_sign_iter_id == 0;
            self.corner(wrapped, "a nonce request with iteration 0: it wrapped");
        }
        let other = |r: &NonceResponse| r.dkg_id != s.after.current_dkg_id;
        let records = s.after.message_nonces.values();
        let moved = records.flat_map(|i| i.public_nonces.values()).any(other);
        self.corner(moved, "records in Idle that are under another dkg id than the current one");
        self.arrivals(s);
        match &s.step.call {
            Call::Start { sign_id, .. } => self.start(s, sign_id.is_none()),
            Call::Process(i) => {
                self.timeout(s, true);
                if !s.fired() {
                    self.packet(s, i);
                }
            }
            Call::ProcessMessage(i) => {
                let name = "a packet while the timeout has fired, by process_message";
                self.corner(s.fired(), name);
                self.packet(s, i);
            }
            Call::ProcessTimeout => self.timeout(s, false),
            _ => {}
        }
    }

    /// What the query after the call was about.
    fn arrivals(&mut self, s: &Seen) {
        let records = &s.after.message_nonces;
        let Some(info) = records.get(&s.after.message) else {
            let name = "arrivals of nobody, while another message has been answered";
            return self.corner(!records.is_empty(), name);
        };
        self.corner(info.public_nonces.len() == 10, "arrivals of ten signers");
        let other = s.refusal() == 11 && s.before.message != s.after.message;
        self.corner(other, "arrivals of another message, after 11");
        let state = states::from_rust(&s.after.state).0;
        self.corner(state == IDLE, "arrivals in Idle");
    }

    fn mark(&mut self, s: &Seen, job: &[u8]) {
        let (shared, ids) = (all_shared(s.after, job), key_ids(job));
        let twice = has_twice(&ids);
        self.corner(shared && !twice, "a job with the mark");
        let name = "a job without the mark: shares are missing, no key id twice";
        self.corner(!shared && !twice, name);
        let name = "a job without the mark: a key id twice, all shares held";
        self.corner(shared && twice, name);
        self.corner(!shared && twice, "a job without the mark: both");
        let message = packet::parts(job).expect("a packet")[0];
        let lists = || s.after.message_nonces[message].public_nonces.values().map(|r| &r.key_ids);
        self.corner(lists().any(|l| has_twice(l)), "a job with a key id twice in one list");
        let sets = lists().flat_map(|l| l.iter().copied().collect::<BTreeSet<u32>>());
        let shares_a_key = has_twice(&sets.collect::<Vec<u32>>());
        self.corner(shares_a_key, "a job with a key id in two lists");
        let apart: BTreeSet<u32> = ids.iter().copied().collect();
        let last: BTreeSet<u32> = apart.iter().map(|id| id % 256).collect();
        let name = "a job with two key ids that end in the same byte";
        self.corner(last.len() < apart.len(), name);
    }

    fn job(&mut self, s: &Seen, bytes: &[u8], outcome: Outcome) {
        self.corner(bytes[1] == 3, "a job with a Taproot root");
        let mut keys = key_ids(bytes);
        keys.sort();
        keys.dedup();
        let few = (keys.len() as u64) < s.c.sign_threshold as u64;
        self.corner(few, "a job with fewer keys than sign_threshold");
        self.corner(outcome == Outcome::Signed(0), "the aggregator succeeds: sign");
        self.corner(outcome == Outcome::Signed(1), "the aggregator succeeds: schnorr");
        self.corner(outcome == Outcome::Signed(2), "the aggregator succeeds: taproot");
        self.corner(outcome == Outcome::Failed, "the aggregator fails (23)");
    }

    fn start(&mut self, s: &Seen, without_id: bool) {
        let taken = matches!(s.answer, Answer::Packet(_));
        self.corner(taken && s.state == IDLE, "start taken in Idle");
        self.corner(taken && s.state == SIG_SHARE_GATHER, "start taken in SigShareGather");
        self.corner(s.refusal() == 10, "10 on a start");
        let wraps = without_id && s.before.current_sign_id == u64::MAX && s.refusal() != 10;
        self.corner(wraps, "a start without an id wraps the sign id");
    }

    fn timeout(&mut self, s: &Seen, with_packet: bool) {
        let Some((elapsed, timeout)) = s.elapsed() else {
            return;
        };
        self.corner(elapsed == timeout, "elapsed equals the timeout");
        self.corner(
            elapsed.checked_sub(timeout) == Some(1),
            "elapsed is one more than the timeout",
        );
        self.corner(s.went_back(), "a clock that went back");
        if elapsed <= timeout {
            return;
        }
        self.corner(with_packet, "a timeout drops a packet");
        let newly = s.after.malicious_signer_ids.len() > s.before.malicious_signer_ids.len();
        match s.answer {
            Answer::Packet(_) => {
                self.corner(newly, "retry after a share timeout, signers newly malicious");
                self.corner(!newly, "retry after a share timeout, nobody newly malicious");
                let keyless = s.before.aggregate_public_key.is_none();
                self.corner(keyless, "retry without a group key");
            }
            Answer::Late(_) if s.state == NONCE_GATHER => {
                self.corner(true, "NonceTimeout (33)");
                let some = !s.before.malicious_signer_ids.is_empty();
                self.corner(some, "NonceTimeout with malicious signers");
            }
            Answer::Late(_) => {
                self.corner(true, "InsufficientSigners (34)");
                self.corner(!newly, "InsufficientSigners again in the same state");
            }
            _ => {}
        }
    }

    /// Who sealed it: 14 by the kind, and not by the verdict.
    fn sealed_by(&mut self, s: &Seen, i: &Inbound) {
        let stranger = s.refusal() == 14 && i.verdict;
        match i.packet[0] {
            2 => self.corner(stranger, "14 of a signer that is not configured: kind 2"),
            4 => self.corner(stranger, "14 of a signer that is not configured: kind 4"),
            6 => self.corner(stranger, "14 of a signer that is not configured: kind 6"),
            _ => {
                let no_0 = s.c.signers.iter().all(|(id, _)| *id != 0);
                let passed = s.c.verify_packet_sigs && !matches!(s.refusal(), 13 | 14);
                let name = "a coordinator's packet passes 14, signer 0 not configured";
                self.corner(no_0 && passed, name);
            }
        }
    }

    /// A packet that passed 13 and 14.
    fn packet(&mut self, s: &Seen, i: &Inbound) {
        self.sealed_by(s, i);
        if matches!(s.refusal(), 13 | 14) {
            return;
        }
        let kind = i.packet[0];
        let gathered = match s.state {
            IDLE => matches!(kind, 1 | 5),
            NONCE_GATHER => kind == 2,
            _ => kind == 4,
        };
        if !gathered {
            let name = "a packet of 6 or 7, or of a kind that the state does not gather";
            return self.corner(true, name);
        }
        match packet::decode(&i.packet) {
            Ok(Message::NonceRequest(m)) => {
                let current = m.sign_id == s.before.current_sign_id;
                self.corner(current, "Idle request with the current sign id");
                self.corner(s.refusal() == 10, "10 on a packet in Idle changes the iteration");
            }
            Ok(Message::NonceResponse(m)) => self.nonces(s, &m),
            Ok(Message::SignatureShareResponse(m)) => self.shares(s, &m),
            _ => {}
        }
    }

    fn nonces(&mut self, s: &Seen, m: &NonceResponse) {
        if matches!(s.refusal(), 16..=18) {
            return;
        }
        if let Some(name) = dropped(s, m) {
            return self.corner(true, name);
        }
        let before = s.before.message_nonces.get(&m.message);
        if before.is_some_and(|i| i.public_nonces.contains_key(&m.signer_id)) {
            return self.corner(true, "second response to a message");
        }
        self.recorded(s, m);
        let replaced = s.before.message != s.after.message;
        self.corner(s.refusal() == 10 && replaced, "10 in NonceGather replaces the message");
        if !matches!(s.answer, Answer::Packet(_)) {
            return;
        }
        self.corner(replaced, "kind 3 replaces the message");
        let keys = before.map_or(0, |i| i.nonce_recv_key_ids.len()) as u64;
        let enough = before.is_some() && keys >= s.c.sign_threshold as u64;
        self.corner(enough, "kind 3 by a response more than the threshold needs: after 10");
        let responses = &s.after.message_nonces[&s.after.message].public_nonces;
        let other = responses.values().any(|r| r.sign_id != s.after.current_sign_id);
        self.corner(other, "kind 3 with a response nested under another sign id");
        self.corner(responses.len() == 10, "kind 3 with ten responses");
    }

    fn recorded(&mut self, s: &Seen, m: &NonceResponse) {
        self.corner(has_twice(&m.key_ids), "response with a key id twice recorded");
        let empty = m.key_ids.is_empty();
        self.corner(empty, "response of a signer with an empty key set recorded");
        self.corner(m.message.is_empty(), "response to the empty message recorded");
        self.corner(m.nonces.is_empty(), "response without a nonce recorded");
        self.corner(s.after.message_nonces.len() == 4, "four messages recorded");
        self.corner(s.went_back(), "response recorded at a reading before the request's");
        self.corner(s.fired(), "response recorded after the timeout, by process_message");
    }

    fn shares(&mut self, s: &Seen, m: &SignatureShareResponse) {
        let Some(info) = s.before.message_nonces.get(&s.before.message) else {
            return self.corner(true, "shares, no record for the current message");
        };
        let waiting = &info.sign_wait_signer_ids;
        if !waiting.contains(&m.signer_id) {
            return self.corner(true, "shares of a signer that is not waited for");
        }
        let last = waiting.len() == 1;
        self.corner(last && s.refusal() == 22, "22 for the last waiter: no job");
        let held = s.before.signature_shares.contains_key(&m.signer_id);
        let silent = held && matches!(s.answer, Answer::Nothing);
        self.corner(silent, "a waiter's shares are held already");
        self.corner(silent && last, "a waiter's shares are held already, the last waiter");
        let taken = !held && s.after.signature_shares.contains_key(&m.signer_id);
        let other = m.sign_iter_id != s.before.current_sign_iter_id;
        self.corner(taken && other, "shares taken with another iteration");
        let none = taken && m.signature_shares.is_empty();
        self.corner(none, "a share response without a share taken");
    }
}

/// The first of fire.rs's silent tests that a response fails.
fn dropped(s: &Seen, m: &NonceResponse) -> Option<&'static str> {
    let Some(entry) = s.c.entry(m.signer_id) else {
        return Some("response dropped: signer not configured");
    };
    if !s.before.dkg_end_messages.contains_key(&m.signer_id) {
        return Some("response dropped: key generation not ended");
    }
    let Some(keys) = entry else {
        return Some("response dropped: no key set");
    };
    let all = m.key_ids.iter().all(|k| keys.contains(k));
    if !all || !keys.iter().all(|k| m.key_ids.contains(k)) {
        return Some("response dropped: set differs");
    }
    if !m.nonces.iter().all(|n| n.is_valid()) {
        return Some("response dropped: nonce invalid");
    }
    let malicious = s.before.malicious_signer_ids.contains(&m.signer_id);
    malicious.then_some("response dropped: signer malicious")
}
