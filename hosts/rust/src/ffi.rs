//! The C interface of libroundcabinet.a, as include/roundcabinet.h declares it. All `unsafe` of the crate is in this file.
//!
//! What the header asks of a host holds in every block below for the same reasons, and each SAFETY comment names what is its own:
//! - pointers come from slices that live through the call, so they are not null, and lengths are those of the slices;
//! - what is written is borrowed mutably (`&mut Buffers`, three boxes of their own, or a writer's or a query's `&mut [u8]`), so no other
//!   buffer of the call overlaps it, and no other caller has it meanwhile;
//! - the library keeps no pointer, and it is proved that it reads and writes nothing outside the buffers and that it returns.

use crate::buffers::Buffers;
use crate::limits::{KEY_LIMIT, SIGNER_LIMIT};

#[cfg(test)]
mod header_test;
#[cfg(test)]
mod lengths_test;
#[cfg(test)]
mod writers_test;

pub(crate) const NOTHING: u32 = 0;
pub(crate) const PACKET: u32 = 1;
pub(crate) const JOB: u32 = 2;
pub(crate) const RESULT: u32 = 3;
pub(crate) const ERROR: u32 = 4;

/// One place more than the limits, so that what is refused can be said.
pub(crate) const SIGNER_PLACES: usize = 11;
pub(crate) const KEY_PLACES: usize = 17;

#[repr(C)]
#[derive(Clone, Copy, Debug, Default, PartialEq, Eq)]
pub(crate) struct RcAnswer {
    pub(crate) class_: u32,
    pub(crate) number: u32,
    pub(crate) first: u64,
    pub(crate) second: u64,
    pub(crate) values: u64,
    pub(crate) mark: u64,
    pub(crate) length: u64,
}

#[repr(C)]
#[derive(Clone, Copy, Debug, Default, PartialEq, Eq)]
pub(crate) struct RcTimeout {
    pub(crate) given: u64,
    pub(crate) nanoseconds: u64,
}

#[repr(C)]
#[derive(Clone, Copy, Debug, Default, PartialEq, Eq)]
pub(crate) struct RcSigner {
    pub(crate) id: u32,
    pub(crate) has_keys: u32,
    pub(crate) key_count: u64,
    pub(crate) keys: [u32; KEY_PLACES],
    pub(crate) reserved: u32,
}

#[repr(C)]
#[derive(Clone, Copy, Debug, Default, PartialEq, Eq)]
pub(crate) struct RcConfig {
    pub(crate) num_signers: u32,
    pub(crate) num_keys: u32,
    pub(crate) threshold: u32,
    pub(crate) dkg_threshold: u32,
    pub(crate) sign_threshold: u32,
    pub(crate) verify_packet_sigs: u32,
    pub(crate) dkg_public_timeout: RcTimeout,
    pub(crate) dkg_private_timeout: RcTimeout,
    pub(crate) dkg_end_timeout: RcTimeout,
    pub(crate) nonce_timeout: RcTimeout,
    pub(crate) sign_timeout: RcTimeout,
    pub(crate) signer_count: u64,
    pub(crate) signers: [RcSigner; SIGNER_PLACES],
}

#[repr(C)]
#[derive(Clone, Copy, Debug, Default, PartialEq, Eq)]
pub(crate) struct RcPacket {
    pub(crate) refusal: u32,
    pub(crate) kind: u32,
    pub(crate) signature_type: u32,
    pub(crate) pairs: u32,
    pub(crate) signer_id: u32,
    pub(crate) reserved: u32,
    pub(crate) dkg_id: u64,
    pub(crate) sign_id: u64,
    pub(crate) sign_iter_id: u64,
}

#[repr(C)]
#[derive(Clone, Copy, Debug, Default, PartialEq, Eq)]
pub(crate) struct RcPart {
    pub(crate) at: u64,
    pub(crate) length: u64,
}

#[repr(C)]
#[derive(Clone, Copy, Debug, Default, PartialEq, Eq)]
pub(crate) struct RcWritten {
    pub(crate) refusal: u32,
    pub(crate) reserved: u32,
    pub(crate) length: u64,
}

#[repr(C)]
#[derive(Clone, Copy, Debug, Default, PartialEq, Eq)]
pub(crate) struct RcHead {
    pub(crate) dkg_id: u64,
    pub(crate) sign_id: u64,
    pub(crate) sign_iter_id: u64,
    pub(crate) signature_type: u8,
    pub(crate) reserved: [u8; 7],
    pub(crate) root: [u8; 32],
}

#[repr(C)]
#[derive(Clone, Copy, Debug, Default, PartialEq, Eq)]
pub(crate) struct RcSignerIds {
    pub(crate) ids: [u32; SIGNER_LIMIT],
    pub(crate) count: u64,
}

#[repr(C)]
#[derive(Clone, Copy, Debug, Default, PartialEq, Eq)]
pub(crate) struct RcArrival {
    pub(crate) signer_id: u32,
    pub(crate) reserved: u32,
    pub(crate) clock: u64,
}

#[repr(C)]
#[derive(Clone, Copy, Debug, Default, PartialEq, Eq)]
pub(crate) struct RcArrivals {
    pub(crate) arrivals: [RcArrival; SIGNER_LIMIT],
    pub(crate) count: u64,
}

#[repr(C)]
#[derive(Clone, Copy, Debug, Default, PartialEq, Eq)]
pub(crate) struct RcPlace {
    pub(crate) at: u64,
    pub(crate) count: u64,
}

#[repr(C)]
#[derive(Clone, Copy, Debug, Default, PartialEq, Eq)]
pub(crate) struct RcResponse {
    pub(crate) dkg_id: u64,
    pub(crate) sign_id: u64,
    pub(crate) sign_iter_id: u64,
    pub(crate) signer_id: u32,
    pub(crate) reserved: u32,
    pub(crate) message: RcPlace,
    pub(crate) key_ids: RcPlace,
    pub(crate) nonces: RcPlace,
}

#[repr(C)]
#[derive(Clone, Copy, Debug, Default, PartialEq, Eq)]
pub(crate) struct RcResponses {
    pub(crate) places: [RcResponse; SIGNER_LIMIT],
    pub(crate) count: u64,
}

#[repr(C)]
#[derive(Clone, Copy, Debug, Default, PartialEq, Eq)]
pub(crate) struct RcJobPlace {
    pub(crate) key_ids: RcPlace,
    pub(crate) nonces: RcPlace,
    pub(crate) shares: RcPlace,
    pub(crate) share_keys_at: u64,
    pub(crate) share_key_counts: [u8; KEY_LIMIT],
}

#[repr(C)]
#[derive(Clone, Copy, Debug, Default, PartialEq, Eq)]
pub(crate) struct RcJobPlaces {
    pub(crate) places: [RcJobPlace; SIGNER_LIMIT],
    pub(crate) count: u64,
}

#[repr(C)]
#[derive(Clone, Copy, Debug, Default, PartialEq, Eq)]
pub(crate) struct RcResponseHead {
    pub(crate) dkg_id: u64,
    pub(crate) sign_id: u64,
    pub(crate) sign_iter_id: u64,
    pub(crate) signer_id: u32,
    pub(crate) reserved: u32,
}

#[rustfmt::skip] // in the header's order, a buffer with its length
extern "C" {
    fn rc_version() -> u32;
    fn rc_commission(state: *mut u8, state_length: usize, store: *mut u8, store_length: usize, config: RcConfig) -> RcAnswer;
    fn rc_set_coordinator_key(state: *mut u8, state_length: usize, store: *const u8, store_length: usize, held: u8) -> RcAnswer;
    fn rc_set_group_key(state: *mut u8, state_length: usize, store: *const u8, store_length: usize, held: u8) -> RcAnswer;
    fn rc_take_results(state: *mut u8, state_length: usize, store: *const u8, store_length: usize, dkg_id: u64,
                       ended: *const u32, ended_count: usize) -> RcAnswer;
    fn rc_start_signing_round(state: *mut u8, state_length: usize, store: *const u8, store_length: usize,
                              out: *mut u8, out_length: usize, clock: u64, message: *const u8, message_length: usize,
                              signature_type: u8, root: *const u8, root_length: usize, sign_id_given: u8, sign_id: u64) -> RcAnswer;
    fn rc_process(state: *mut u8, state_length: usize, store: *mut u8, store_length: usize, out: *mut u8, out_length: usize,
                  clock: u64, verdict: u8, packet: *const u8, packet_length: usize) -> RcAnswer;
    fn rc_process_message(state: *mut u8, state_length: usize, store: *mut u8, store_length: usize, out: *mut u8, out_length: usize,
                          clock: u64, verdict: u8, packet: *const u8, packet_length: usize) -> RcAnswer;
    fn rc_process_timeout(state: *mut u8, state_length: usize, store: *const u8, store_length: usize,
                          out: *mut u8, out_length: usize, clock: u64) -> RcAnswer;
    fn rc_tell_arrivals(state: *const u8, state_length: usize, store: *const u8, store_length: usize,
                        out: *mut u8, out_length: usize) -> RcAnswer;
    fn rc_aggregated(state: *mut u8, state_length: usize, store: *const u8, store_length: usize, ok: u8) -> RcAnswer;
    fn rc_reset(state: *mut u8, state_length: usize, store: *const u8, store_length: usize) -> RcAnswer;
    fn rc_can_move_to(state: *mut u8, state_length: usize, store: *const u8, store_length: usize, next: u8, signature_type: u8,
                      root: *const u8, root_length: usize) -> RcAnswer;
    fn rc_read_packet(packet: *const u8, packet_length: usize) -> RcPacket;
    fn rc_packet_part(packet: *const u8, packet_length: usize, i: u16) -> RcPart;
    fn rc_write_nonce_request(out: *mut u8, out_length: usize, head: RcHead, message: *const u8, message_length: usize) -> RcWritten;
    fn rc_write_signature_share_request(out: *mut u8, out_length: usize, head: RcHead, message: *const u8, message_length: usize,
                                        source: *const u8, source_length: usize, places: RcResponses) -> RcWritten;
    fn rc_write_job(out: *mut u8, out_length: usize, head: RcHead, message: *const u8, message_length: usize,
                    source: *const u8, source_length: usize, places: RcJobPlaces) -> RcWritten;
    fn rc_write_dkg_begin(out: *mut u8, out_length: usize, dkg_id: u64) -> RcWritten;
    fn rc_write_dkg_signer(out: *mut u8, out_length: usize, signer_id: u32, dkg_id: u64) -> RcWritten;
    fn rc_write_dkg_coordinator(out: *mut u8, out_length: usize, dkg_id: u64) -> RcWritten;
    fn rc_write_nonce_timeout(out: *mut u8, out_length: usize, waiters: RcSignerIds, malicious: RcSignerIds) -> RcWritten;
    fn rc_write_insufficient_signers(out: *mut u8, out_length: usize, malicious: RcSignerIds) -> RcWritten;
    fn rc_write_arrivals(out: *mut u8, out_length: usize, arrivals: RcArrivals) -> RcWritten;
    fn rc_write_nonce_response(out: *mut u8, out_length: usize, head: RcResponseHead, message: *const u8, message_length: usize,
                               key_ids: *const u32, key_count: usize, nonces: *const u8, nonces_length: usize) -> RcWritten;
    fn rc_write_signature_share_response(out: *mut u8, out_length: usize, head: RcResponseHead, share_ids: *const u32,
                                         share_count: usize, z_i: *const u8, z_i_length: usize, key_counts: *const u32,
                                         key_counts_length: usize, key_ids: *const u32, key_count: usize) -> RcWritten;
}

pub(crate) fn version() -> u32 {
    // SAFETY: nothing is lent.
    unsafe { rc_version() }
}

pub(crate) fn commission(b: &mut Buffers, config: RcConfig) -> RcAnswer {
    // SAFETY: state and store are written, both from `b`; the configuration is a copy.
    unsafe { rc_commission(b.state.as_mut_ptr(), b.state.len(), b.store.as_mut_ptr(), b.store.len(), config) }
}

pub(crate) fn set_coordinator_key(b: &mut Buffers, held: bool) -> RcAnswer {
    // SAFETY: the state is written, the store read, both from `b`.
    unsafe {
        rc_set_coordinator_key(b.state.as_mut_ptr(), b.state.len(), b.store.as_ptr(), b.store.len(), u8::from(held))
    }
}

pub(crate) fn set_group_key(b: &mut Buffers, held: bool) -> RcAnswer {
    // SAFETY: the state is written, the store read, both from `b`.
    unsafe { rc_set_group_key(b.state.as_mut_ptr(), b.state.len(), b.store.as_ptr(), b.store.len(), u8::from(held)) }
}

pub(crate) fn take_results(b: &mut Buffers, dkg_id: u64, ended: &[u32]) -> RcAnswer {
    let (state, store) = (&mut b.state, &b.store);
    // SAFETY: the state is written, the store read, both from `b`; `ended` is read, and its count is in entries of four bytes.
    unsafe {
        rc_take_results(
            state.as_mut_ptr(),
            state.len(),
            store.as_ptr(),
            store.len(),
            dkg_id,
            ended.as_ptr(),
            ended.len(),
        )
    }
}

/// What a start says.
pub(crate) struct Start<'a> {
    pub(crate) clock: u64,
    pub(crate) message: &'a [u8],
    pub(crate) signature_type: u8,
    pub(crate) root: &'a [u8],
    pub(crate) sign_id: Option<u64>,
}

pub(crate) fn start_signing_round(b: &mut Buffers, s: &Start<'_>) -> RcAnswer {
    let (state, store, out) = (&mut b.state, &b.store, &mut b.out);
    // SAFETY: state and answer buffer are written, the store read, all from `b`; message and root are read.
    unsafe {
        rc_start_signing_round(
            state.as_mut_ptr(),
            state.len(),
            store.as_ptr(),
            store.len(),
            out.as_mut_ptr(),
            out.len(),
            s.clock,
            s.message.as_ptr(),
            s.message.len(),
            s.signature_type,
            s.root.as_ptr(),
            s.root.len(),
            u8::from(s.sign_id.is_some()),
            s.sign_id.unwrap_or(0),
        )
    }
}

pub(crate) fn process(b: &mut Buffers, clock: u64, verdict: bool, packet: &[u8]) -> RcAnswer {
    let (state, store, out) = (&mut b.state, &mut b.store, &mut b.out);
    // SAFETY: state, store and answer buffer are written, all from `b`; the packet is read.
    unsafe {
        rc_process(
            state.as_mut_ptr(),
            state.len(),
            store.as_mut_ptr(),
            store.len(),
            out.as_mut_ptr(),
            out.len(),
            clock,
            u8::from(verdict),
            packet.as_ptr(),
            packet.len(),
        )
    }
}

pub(crate) fn process_message(b: &mut Buffers, clock: u64, verdict: bool, packet: &[u8]) -> RcAnswer {
    let (state, store, out) = (&mut b.state, &mut b.store, &mut b.out);
    // SAFETY: state, store and answer buffer are written, all from `b`; the packet is read.
    unsafe {
        rc_process_message(
            state.as_mut_ptr(),
            state.len(),
            store.as_mut_ptr(),
            store.len(),
            out.as_mut_ptr(),
            out.len(),
            clock,
            u8::from(verdict),
            packet.as_ptr(),
            packet.len(),
        )
    }
}

pub(crate) fn process_timeout(b: &mut Buffers, clock: u64) -> RcAnswer {
    let (state, store, out) = (&mut b.state, &b.store, &mut b.out);
    // SAFETY: state and answer buffer are written, the store read, all from `b`.
    unsafe {
        rc_process_timeout(
            state.as_mut_ptr(),
            state.len(),
            store.as_ptr(),
            store.len(),
            out.as_mut_ptr(),
            out.len(),
            clock,
        )
    }
}

pub(crate) fn tell_arrivals(state: &[u8], store: &[u8], out: &mut [u8]) -> RcAnswer {
    // SAFETY: `out` is written; state and store are only read, so that others may read them meanwhile.
    unsafe { rc_tell_arrivals(state.as_ptr(), state.len(), store.as_ptr(), store.len(), out.as_mut_ptr(), out.len()) }
}

pub(crate) fn aggregated(b: &mut Buffers, ok: bool) -> RcAnswer {
    // SAFETY: the state is written, the store read, both from `b`.
    unsafe { rc_aggregated(b.state.as_mut_ptr(), b.state.len(), b.store.as_ptr(), b.store.len(), u8::from(ok)) }
}

pub(crate) fn reset(b: &mut Buffers) -> RcAnswer {
    // SAFETY: the state is written, the store read, both from `b`.
    unsafe { rc_reset(b.state.as_mut_ptr(), b.state.len(), b.store.as_ptr(), b.store.len()) }
}

pub(crate) fn can_move_to(b: &mut Buffers, next: u8, signature_type: u8, root: &[u8]) -> RcAnswer {
    let (state, store) = (&mut b.state, &b.store);
    // SAFETY: the state is written, the store read, both from `b`; the root is read.
    unsafe {
        rc_can_move_to(
            state.as_mut_ptr(),
            state.len(),
            store.as_ptr(),
            store.len(),
            next,
            signature_type,
            root.as_ptr(),
            root.len(),
        )
    }
}

pub(crate) fn read_packet(packet: &[u8]) -> RcPacket {
    // SAFETY: the packet is read; nothing is written.
    unsafe { rc_read_packet(packet.as_ptr(), packet.len()) }
}

pub(crate) fn packet_part(packet: &[u8], i: u16) -> RcPart {
    // SAFETY: the packet is read; nothing is written.
    unsafe { rc_packet_part(packet.as_ptr(), packet.len(), i) }
}

pub(crate) fn write_nonce_request(out: &mut [u8], head: RcHead, message: &[u8]) -> RcWritten {
    // SAFETY: `out` is written, the message read; the head is a copy.
    unsafe { rc_write_nonce_request(out.as_mut_ptr(), out.len(), head, message.as_ptr(), message.len()) }
}

pub(crate) fn write_signature_share_request(
    out: &mut [u8],
    head: RcHead,
    message: &[u8],
    source: &[u8],
    places: RcResponses,
) -> RcWritten {
    // SAFETY: `out` is written, message and source are read; head and places are copies, and the library asks where the places lie.
    unsafe {
        rc_write_signature_share_request(
            out.as_mut_ptr(),
            out.len(),
            head,
            message.as_ptr(),
            message.len(),
            source.as_ptr(),
            source.len(),
            places,
        )
    }
}

pub(crate) fn write_job(out: &mut [u8], head: RcHead, message: &[u8], source: &[u8], places: RcJobPlaces) -> RcWritten {
    // SAFETY: `out` is written, message and source are read; head and places are copies, and the library asks where the places lie.
    unsafe {
        rc_write_job(
            out.as_mut_ptr(),
            out.len(),
            head,
            message.as_ptr(),
            message.len(),
            source.as_ptr(),
            source.len(),
            places,
        )
    }
}

pub(crate) fn write_dkg_begin(out: &mut [u8], dkg_id: u64) -> RcWritten {
    // SAFETY: `out` is written.
    unsafe { rc_write_dkg_begin(out.as_mut_ptr(), out.len(), dkg_id) }
}

pub(crate) fn write_dkg_signer(out: &mut [u8], signer_id: u32, dkg_id: u64) -> RcWritten {
    // SAFETY: `out` is written.
    unsafe { rc_write_dkg_signer(out.as_mut_ptr(), out.len(), signer_id, dkg_id) }
}

pub(crate) fn write_dkg_coordinator(out: &mut [u8], dkg_id: u64) -> RcWritten {
    // SAFETY: `out` is written.
    unsafe { rc_write_dkg_coordinator(out.as_mut_ptr(), out.len(), dkg_id) }
}

pub(crate) fn write_nonce_timeout(out: &mut [u8], waiters: RcSignerIds, malicious: RcSignerIds) -> RcWritten {
    // SAFETY: `out` is written; the lists are copies.
    unsafe { rc_write_nonce_timeout(out.as_mut_ptr(), out.len(), waiters, malicious) }
}

pub(crate) fn write_insufficient_signers(out: &mut [u8], malicious: RcSignerIds) -> RcWritten {
    // SAFETY: `out` is written; the list is a copy.
    unsafe { rc_write_insufficient_signers(out.as_mut_ptr(), out.len(), malicious) }
}

pub(crate) fn write_arrivals(out: &mut [u8], arrivals: RcArrivals) -> RcWritten {
    // SAFETY: `out` is written; the list is a copy.
    unsafe { rc_write_arrivals(out.as_mut_ptr(), out.len(), arrivals) }
}

pub(crate) fn write_nonce_response(
    out: &mut [u8],
    head: RcResponseHead,
    message: &[u8],
    key_ids: &[u32],
    nonces: &[u8],
) -> RcWritten {
    // SAFETY: `out` is written; message, key ids (counted in entries of four bytes) and nonces are read; the head is a copy.
    unsafe {
        rc_write_nonce_response(
            out.as_mut_ptr(),
            out.len(),
            head,
            message.as_ptr(),
            message.len(),
            key_ids.as_ptr(),
            key_ids.len(),
            nonces.as_ptr(),
            nonces.len(),
        )
    }
}

/// The shares of a response, list by list.
pub(crate) struct Shares<'a> {
    pub(crate) ids: &'a [u32],
    pub(crate) z_i: &'a [u8],
    pub(crate) key_counts: &'a [u32],
    pub(crate) key_ids: &'a [u32],
}

pub(crate) fn write_signature_share_response(out: &mut [u8], head: RcResponseHead, s: &Shares<'_>) -> RcWritten {
    // SAFETY: `out` is written; the lists are read, and those of numbers are counted in entries of four bytes; the head is a copy.
    // The library asks whether the lists agree.
    unsafe {
        rc_write_signature_share_response(
            out.as_mut_ptr(),
            out.len(),
            head,
            s.ids.as_ptr(),
            s.ids.len(),
            s.z_i.as_ptr(),
            s.z_i.len(),
            s.key_counts.as_ptr(),
            s.key_counts.len(),
            s.key_ids.as_ptr(),
            s.key_ids.len(),
        )
    }
}
