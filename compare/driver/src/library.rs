//! libroundcabinet.a behind 01's calls, with its three buffers; and its reader and a signer's
//! writers, which need none.

use wsts::net::{NonceResponse, SignatureShareResponse};

use crate::{
    buffers::Buffer,
    c,
    calls::{Call, Commission, Inbound},
    signature_type::SigType,
};

pub struct Library {
    pub state: Buffer,
    pub store: Buffer,
    pub out: Buffer,
}

/// How many bytes more than the needed ones are lent of each buffer.
#[derive(Clone, Copy, Debug, Default, PartialEq, Eq)]
pub struct Surplus {
    pub state: usize,
    pub store: usize,
    pub out: usize,
}

/// What must not be looked at: numbers that do not count.
const JUNK: u32 = 0x5A5A_5A5A;

/// Every number but 0 is yes.
fn timeout(t: Option<u64>, yes: u64) -> c::Timeout {
    match t {
        Some(nanoseconds) => c::Timeout { given: yes, nanoseconds },
        None => c::Timeout { given: 0, nanoseconds: JUNK as u64 },
    }
}

fn signer(id: u32, keys: Option<&[u32]>) -> c::Signer {
    let mut place = c::Signer { id, has_keys: 0, key_count: 3, keys: [JUNK; 17], reserved: JUNK };
    if let Some(keys) = keys {
        place.has_keys = 1 + keys.len() as u32;
        place.key_count = keys.len() as u64;
        for (to, from) in place.keys.iter_mut().zip(keys) {
            *to = *from;
        }
    }
    place
}

/// Lists that are longer than the header's places keep their count, so that it is refused.
fn config(commission: &Commission) -> c::Config {
    let mut out = c::Config {
        num_signers: commission.num_signers,
        num_keys: commission.num_keys,
        threshold: commission.threshold,
        dkg_threshold: commission.dkg_threshold,
        sign_threshold: commission.sign_threshold,
        verify_packet_sigs: commission.verify_packet_sigs as u32,
        dkg_public_timeout: timeout(None, 0),
        dkg_private_timeout: timeout(None, 0),
        dkg_end_timeout: timeout(None, 0),
        nonce_timeout: timeout(commission.nonce_timeout, 1),
        sign_timeout: timeout(commission.sign_timeout, u64::MAX),
        signer_count: commission.signers.len() as u64,
        signers: [signer(JUNK, Some(&[JUNK])); c::SIGNER_PLACES],
    };
    for (place, (id, keys)) in out.signers.iter_mut().zip(&commission.signers) {
        *place = signer(*id, keys.as_deref());
    }
    out
}

/// The host's verdict on a packet: 1, or another number than 0, where it is good.
fn verdict(i: &Inbound) -> u8 {
    match (i.verdict, i.packet.len() % 8) {
        (false, _) => 0,
        (true, 0) => 0x80,
        (true, _) => 1,
    }
}

/// A root lies beside every type; the library must not look at it unless the type is 3.
fn root(t: &SigType) -> [u8; 32] {
    if t.code == 3 {
        t.root
    } else {
        [0x5A; 32]
    }
}

impl Library {
    /// All zeros: not commissioned.
    pub fn new(s: Surplus) -> Self {
        Library {
            state: Buffer::new(c::STATE_LENGTH, c::STATE_LENGTH + s.state),
            store: Buffer::new(c::STORE_LENGTH, c::STORE_LENGTH + s.store),
            out: Buffer::new(c::ANSWER_LENGTH, c::ANSWER_LENGTH + s.out),
        }
    }

    pub fn call(&mut self, now: u64, call: &Call) -> c::Answer {
        match call {
            Call::Commission(commission) => self.commission(&config(commission)),
            Call::SetGroupKey(held) => self.set_group_key(*held),
            Call::SetCoordinatorKey(held) => self.set_coordinator_key(*held),
            Call::DkgResults { dkg_id, ended } => self.take_results(*dkg_id, ended),
            Call::Start { message, signature_type, sign_id } => {
                self.start(now, message, signature_type, *sign_id)
            }
            Call::Process(i) => self.process(now, i),
            Call::ProcessMessage(i) => self.process_message(now, i),
            Call::ProcessTimeout => self.process_timeout(now),
            Call::Reset => self.reset(),
            Call::CanMoveTo { state, signature_type } => self.can_move_to(*state, signature_type),
        }
    }

    // SAFETY, of every call below: the pointers are those of live buffers that do not overlap,
    // and the lengths beside them are no longer than they are.

    pub fn commission(&mut self, config: &c::Config) -> c::Answer {
        let (state, store) = (self.state.pointer(), self.store.pointer());
        unsafe { c::rc_commission(state, self.state.lent(), store, self.store.lent(), *config) }
    }

    fn set_group_key(&mut self, held: bool) -> c::Answer {
        let (state, store) = (self.state.pointer(), self.store.pointer());
        let held = held as u8;
        unsafe { c::rc_set_group_key(state, self.state.lent(), store, self.store.lent(), held) }
    }

    fn set_coordinator_key(&mut self, held: bool) -> c::Answer {
        let (state, store) = (self.state.pointer(), self.store.pointer());
        let lent = (self.state.lent(), self.store.lent());
        unsafe { c::rc_set_coordinator_key(state, lent.0, store, lent.1, held as u8) }
    }

    fn take_results(&mut self, dkg_id: u64, ended: &[u32]) -> c::Answer {
        let (state, store) = (self.state.pointer(), self.store.pointer());
        let lent = (self.state.lent(), self.store.lent());
        let (list, count) = (ended.as_ptr(), ended.len());
        unsafe { c::rc_take_results(state, lent.0, store, lent.1, dkg_id, list, count) }
    }

    fn start(&mut self, now: u64, message: &[u8], t: &SigType, id: Option<u64>) -> c::Answer {
        let root = root(t);
        unsafe {
            c::rc_start_signing_round(
                self.state.pointer(),
                self.state.lent(),
                self.store.pointer(),
                self.store.lent(),
                self.out.pointer(),
                self.out.lent(),
                now,
                message.as_ptr(),
                message.len(),
                t.code,
                root.as_ptr(),
                root.len(),
                id.is_some() as u8,
                id.unwrap_or(JUNK as u64),
            )
        }
    }

    pub fn process(&mut self, now: u64, i: &Inbound) -> c::Answer {
        unsafe {
            c::rc_process(
                self.state.pointer(),
                self.state.lent(),
                self.store.pointer(),
                self.store.lent(),
                self.out.pointer(),
                self.out.lent(),
                now,
                verdict(i),
                i.packet.as_ptr(),
                i.packet.len(),
            )
        }
    }

    pub fn process_message(&mut self, now: u64, i: &Inbound) -> c::Answer {
        unsafe {
            c::rc_process_message(
                self.state.pointer(),
                self.state.lent(),
                self.store.pointer(),
                self.store.lent(),
                self.out.pointer(),
                self.out.lent(),
                now,
                verdict(i),
                i.packet.as_ptr(),
                i.packet.len(),
            )
        }
    }

    pub fn process_timeout(&mut self, now: u64) -> c::Answer {
        let (store_length, out_length) = (self.store.lent(), self.out.lent());
        self.process_timeout_lending(now, store_length, out_length)
    }

    /// `process_timeout` with less lent than there is.
    pub fn process_timeout_lending(&mut self, now: u64, store: usize, out: usize) -> c::Answer {
        assert!(store <= self.store.lent() && out <= self.out.lent());
        unsafe {
            c::rc_process_timeout(
                self.state.pointer(),
                self.state.lent(),
                self.store.pointer(),
                store,
                self.out.pointer(),
                out,
                now,
            )
        }
    }

    /// The query of arrivals, to a buffer beside the three: what was written to `out` stays.
    pub fn tell_arrivals(&self, out: &mut Buffer) -> c::Answer {
        let (state, store) = (self.state.start(), self.store.start());
        let lent = (self.state.lent(), self.store.lent(), out.lent());
        unsafe { c::rc_tell_arrivals(state, lent.0, store, lent.1, out.pointer(), lent.2) }
    }

    /// The same to `out`, with less lent than there is.
    pub fn tell_arrivals_lending(&mut self, store: usize, out: usize) -> c::Answer {
        assert!(store <= self.store.lent() && out <= self.out.lent());
        unsafe {
            c::rc_tell_arrivals(
                self.state.start(),
                self.state.lent(),
                self.store.start(),
                store,
                self.out.pointer(),
                out,
            )
        }
    }

    pub fn aggregated(&mut self, ok: bool) -> c::Answer {
        let (state, store) = (self.state.pointer(), self.store.pointer());
        let ok = ok as u8;
        unsafe { c::rc_aggregated(state, self.state.lent(), store, self.store.lent(), ok) }
    }

    pub fn reset(&mut self) -> c::Answer {
        let (state, store) = (self.state.pointer(), self.store.pointer());
        unsafe { c::rc_reset(state, self.state.lent(), store, self.store.lent()) }
    }

    pub fn can_move_to(&mut self, next: u8, t: &SigType) -> c::Answer {
        let root = root(t);
        unsafe {
            c::rc_can_move_to(
                self.state.pointer(),
                self.state.lent(),
                self.store.pointer(),
                self.store.lent(),
                next,
                t.code,
                root.as_ptr(),
                root.len(),
            )
        }
    }

    /// The same state and store in buffers of their own.
    pub fn copy(&self) -> Library {
        let mut out = Library::new(Surplus::default());
        out.state.bytes_mut().copy_from_slice(self.state.bytes());
        out.store.bytes_mut().copy_from_slice(self.store.bytes());
        out
    }
}

/// Reads a packet: header, and question 8 or 9.
pub fn read_packet(packet: &[u8]) -> c::Packet {
    unsafe { c::rc_read_packet(packet.as_ptr(), packet.len()) }
}

/// Where part `i` of a packet lies.
pub fn packet_part(packet: &[u8], i: u16) -> c::Part {
    unsafe { c::rc_packet_part(packet.as_ptr(), packet.len(), i) }
}

/// Who responds to which request; what is reserved is not looked at.
fn response_head([dkg_id, sign_id, sign_iter_id]: [u64; 3], signer_id: u32) -> c::ResponseHead {
    c::ResponseHead { dkg_id, sign_id, sign_iter_id, signer_id, reserved: JUNK }
}

/// A signer's packet of kind 2, to the front of `out`.
pub fn write_nonce_response(out: &mut [u8], m: &NonceResponse) -> c::Written {
    let head = response_head([m.dkg_id, m.sign_id, m.sign_iter_id], m.signer_id);
    let mut nonces = Vec::with_capacity(66 * m.nonces.len());
    for nonce in &m.nonces {
        nonces.extend_from_slice(&nonce.D.0);
        nonces.extend_from_slice(&nonce.E.0);
    }
    unsafe {
        c::rc_write_nonce_response(
            out.as_mut_ptr(),
            out.len(),
            head,
            m.message.as_ptr(),
            m.message.len(),
            m.key_ids.as_ptr(),
            m.key_ids.len(),
            nonces.as_ptr(),
            nonces.len(),
        )
    }
}

/// A signer's packet of kind 4, to the front of `out`.
pub fn write_share_response(out: &mut [u8], m: &SignatureShareResponse) -> c::Written {
    let head = response_head([m.dkg_id, m.sign_id, m.sign_iter_id], m.signer_id);
    let shares = &m.signature_shares[..];
    let ids: Vec<u32> = shares.iter().map(|s| s.id).collect();
    let z_i: Vec<u8> = shares.iter().flat_map(|s| s.z_i.0).collect();
    let key_counts: Vec<u32> = shares.iter().map(|s| s.key_ids.len() as u32).collect();
    let key_ids: Vec<u32> = shares.iter().flat_map(|s| &s.key_ids).copied().collect();
    unsafe {
        c::rc_write_signature_share_response(
            out.as_mut_ptr(),
            out.len(),
            head,
            ids.as_ptr(),
            ids.len(),
            z_i.as_ptr(),
            z_i.len(),
            key_counts.as_ptr(),
            key_counts.len(),
            key_ids.as_ptr(),
            key_ids.len(),
        )
    }
}
