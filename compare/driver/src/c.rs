//! include/roundcabinet.h as Rust sees it. layout.c says what the C compiler makes of the header,
//! and a test holds the two together.

pub use crate::places::STATE_LENGTH;
pub const STORE_LENGTH: usize = 52224;
pub const ANSWER_LENGTH: usize = 19232;
pub const SIGNER_PLACES: usize = 11;
pub const KEY_PLACES: usize = 17;
pub const NONCE_RESPONSE_LIMIT: usize = 1432;
pub const SHARE_RESPONSE_LIMIT: usize = 800;

pub const NOTHING: u32 = 0;
pub const PACKET: u32 = 1;
pub const JOB: u32 = 2;
pub const RESULT: u32 = 3;
pub const ERROR: u32 = 4;

#[repr(C)]
#[derive(Clone, Copy, Debug, Default, PartialEq, Eq)]
pub struct Answer {
    pub class: u32,
    pub number: u32,
    pub first: u64,
    pub second: u64,
    pub values: u64,
    pub mark: u64,
    pub length: u64,
}

#[repr(C)]
#[derive(Clone, Copy, Debug, Default)]
pub struct Timeout {
    pub given: u64,
    pub nanoseconds: u64,
}

#[repr(C)]
#[derive(Clone, Copy, Debug, Default)]
pub struct Signer {
    pub id: u32,
    pub has_keys: u32,
    pub key_count: u64,
    pub keys: [u32; KEY_PLACES],
    pub reserved: u32,
}

#[repr(C)]
#[derive(Clone, Copy, Debug, Default)]
pub struct Config {
    pub num_signers: u32,
    pub num_keys: u32,
    pub threshold: u32,
    pub dkg_threshold: u32,
    pub sign_threshold: u32,
    pub verify_packet_sigs: u32,
    pub dkg_public_timeout: Timeout,
    pub dkg_private_timeout: Timeout,
    pub dkg_end_timeout: Timeout,
    pub nonce_timeout: Timeout,
    pub sign_timeout: Timeout,
    pub signer_count: u64,
    pub signers: [Signer; SIGNER_PLACES],
}

#[repr(C)]
#[derive(Clone, Copy, Debug, Default, PartialEq, Eq)]
pub struct Packet {
    pub refusal: u32,
    pub kind: u32,
    pub signature_type: u32,
    pub pairs: u32,
    pub signer_id: u32,
    pub reserved: u32,
    pub dkg_id: u64,
    pub sign_id: u64,
    pub sign_iter_id: u64,
}

#[repr(C)]
#[derive(Clone, Copy, Debug, Default, PartialEq, Eq)]
pub struct Part {
    pub at: u64,
    pub length: u64,
}

#[repr(C)]
#[derive(Clone, Copy, Debug, Default, PartialEq, Eq)]
pub struct Written {
    pub refusal: u32,
    pub reserved: u32,
    pub length: u64,
}

#[repr(C)]
#[derive(Clone, Copy, Debug, Default)]
pub struct ResponseHead {
    pub dkg_id: u64,
    pub sign_id: u64,
    pub sign_iter_id: u64,
    pub signer_id: u32,
    pub reserved: u32,
}

extern "C" {
    pub fn rc_commission(
        state: *mut u8,
        state_length: usize,
        store: *mut u8,
        store_length: usize,
        config: Config,
    ) -> Answer;
    pub fn rc_set_coordinator_key(
        state: *mut u8,
        state_length: usize,
        store: *const u8,
        store_length: usize,
        held: u8,
    ) -> Answer;
    pub fn rc_set_group_key(
        state: *mut u8,
        state_length: usize,
        store: *const u8,
        store_length: usize,
        held: u8,
    ) -> Answer;
    pub fn rc_take_results(
        state: *mut u8,
        state_length: usize,
        store: *const u8,
        store_length: usize,
        dkg_id: u64,
        ended: *const u32,
        ended_count: usize,
    ) -> Answer;
    pub fn rc_start_signing_round(
        state: *mut u8,
        state_length: usize,
        store: *const u8,
        store_length: usize,
        out: *mut u8,
        out_length: usize,
        clock: u64,
        message: *const u8,
        message_length: usize,
        signature_type: u8,
        root: *const u8,
        root_length: usize,
        sign_id_given: u8,
        sign_id: u64,
    ) -> Answer;
    pub fn rc_process(
        state: *mut u8,
        state_length: usize,
        store: *mut u8,
        store_length: usize,
        out: *mut u8,
        out_length: usize,
        clock: u64,
        verdict: u8,
        packet: *const u8,
        packet_length: usize,
    ) -> Answer;
    pub fn rc_process_message(
        state: *mut u8,
        state_length: usize,
        store: *mut u8,
        store_length: usize,
        out: *mut u8,
        out_length: usize,
        clock: u64,
        verdict: u8,
        packet: *const u8,
        packet_length: usize,
    ) -> Answer;
    pub fn rc_process_timeout(
        state: *mut u8,
        state_length: usize,
        store: *const u8,
        store_length: usize,
        out: *mut u8,
        out_length: usize,
        clock: u64,
    ) -> Answer;
    pub fn rc_tell_arrivals(
        state: *const u8,
        state_length: usize,
        store: *const u8,
        store_length: usize,
        out: *mut u8,
        out_length: usize,
    ) -> Answer;
    pub fn rc_aggregated(
        state: *mut u8,
        state_length: usize,
        store: *const u8,
        store_length: usize,
        ok: u8,
    ) -> Answer;
    pub fn rc_reset(
        state: *mut u8,
        state_length: usize,
        store: *const u8,
        store_length: usize,
    ) -> Answer;
    pub fn rc_can_move_to(
        state: *mut u8,
        state_length: usize,
        store: *const u8,
        store_length: usize,
        next: u8,
        signature_type: u8,
        root: *const u8,
        root_length: usize,
    ) -> Answer;
    pub fn rc_read_packet(packet: *const u8, packet_length: usize) -> Packet;
    pub fn rc_packet_part(packet: *const u8, packet_length: usize, i: u16) -> Part;
    pub fn rc_write_nonce_response(
        out: *mut u8,
        out_length: usize,
        head: ResponseHead,
        message: *const u8,
        message_length: usize,
        key_ids: *const u32,
        key_count: usize,
        nonces: *const u8,
        nonces_length: usize,
    ) -> Written;
    pub fn rc_write_signature_share_response(
        out: *mut u8,
        out_length: usize,
        head: ResponseHead,
        share_ids: *const u32,
        share_count: usize,
        z_i: *const u8,
        z_i_length: usize,
        key_counts: *const u32,
        key_counts_length: usize,
        key_ids: *const u32,
        key_count: usize,
    ) -> Written;
}
