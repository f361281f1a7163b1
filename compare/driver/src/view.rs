//! What stands in the library's state and store. The places in the state are those of places.rs,
//! the store's those of crates/state/specs/View.antt.

use std::ops::Range;

use crate::{
    packet::{u32_at, u64_at},
    places::{layout::*, *},
    signature_type::SigType,
};

/// The configuration, in the state.
pub const CONFIG: Range<usize> = CONFIG_START..CONFIG_START + CONFIG_BYTES;

// In the store.
const STORED_RECORD: usize = 11456;
const STORED_MESSAGE: usize = 256;
const STORED_RESPONSE: usize = 1120;
const STORED_KEYS: usize = 64;
const STORED_SHARES: usize = 45824;
const STORED_SHARE_LIST: usize = 640;
const STORED_SHARE_KEYS: usize = 576;

/// State and store. Row, slot and share numbers count from 0; a slot is a configured signer.
#[derive(Clone, Copy)]
pub struct View<'a> {
    pub state: &'a [u8],
    pub store: &'a [u8],
}

/// A recorded response: its ids, key ids (4 bytes each) and nonces (66 each), and the reading of
/// the call that recorded it.
pub struct ResponseView<'a> {
    pub dkg_id: u64,
    pub sign_id: u64,
    pub sign_iter_id: u64,
    pub key_ids: &'a [u8],
    pub nonces: &'a [u8],
    pub clock: u64,
}

/// A held share: its id, z_i and key ids (4 bytes each).
pub struct ShareView<'a> {
    pub id: u32,
    pub z_i: &'a [u8],
    pub key_ids: &'a [u8],
}

impl<'a> View<'a> {
    fn flag(&self, at: usize) -> bool {
        self.state[at] == 1
    }

    fn number(&self, at: usize) -> usize {
        u64_at(self.state, at) as usize
    }

    fn reading(&self, at: usize) -> Option<u64> {
        self.flag(at).then(|| u64_at(self.state, at + NANOSECONDS))
    }

    pub fn commissioned(&self) -> bool {
        self.flag(COMMISSIONED_START)
    }

    // ---- configuration ----

    /// num_signers, num_keys, threshold, dkg_threshold, sign_threshold.
    pub fn config_numbers(&self) -> [u32; 5] {
        let places = [0, NUM_KEYS, THRESHOLD, DKG_THRESHOLD, SIGN_THRESHOLD];
        places.map(|at| u32_at(self.state, CONFIG_START + at))
    }

    /// The timeouts: public, private and end of key generation, nonce, sign.
    pub fn timeouts(&self) -> [Option<u64>; TIMEOUT_COUNT] {
        timeout_places().map(|at| self.reading(at))
    }

    pub fn signer_count(&self) -> usize {
        self.number(CONFIG_START + SIGNER_COUNT)
    }

    pub fn verify_packet_sigs(&self) -> bool {
        self.flag(CONFIG_START + VERIFY_PACKET_SIGS)
    }

    pub fn signer_id(&self, slot: usize) -> u32 {
        u32_at(self.state, signer_at(slot))
    }

    /// The key set of a signer, if it has one.
    pub fn signer_keys(&self, slot: usize) -> Option<Vec<u32>> {
        let at = signer_at(slot);
        let count = self.number(at + KEY_COUNT);
        let key = |k| u32_at(self.state, at + KEY_IDS + KEY_BYTES * k);
        self.flag(at + HAS_KEYS).then(|| (0..count).map(key).collect())
    }

    // ---- ids, state, message ----

    pub fn dkg_id(&self) -> u64 {
        u64_at(self.state, IDS_START)
    }

    pub fn sign_id(&self) -> u64 {
        u64_at(self.state, IDS_START + SIGN_ID)
    }

    pub fn sign_iter_id(&self) -> u64 {
        u64_at(self.state, IDS_START + SIGN_ITER_ID)
    }

    pub fn state_number(&self) -> u8 {
        self.state[POSITION_START]
    }

    /// The root counts for type 3 alone.
    pub fn signature_type(&self) -> SigType {
        let root = self.state[POSITION_START + ROOT..][..ROOT_LENGTH].try_into().unwrap();
        SigType::new(self.state[POSITION_START + SIGNATURE_TYPE] & 3, root)
    }

    pub fn message(&self) -> &'a [u8] {
        let length = self.number(MESSAGE_START + MESSAGE_LEN).min(MESSAGE_LIMIT);
        &self.state[MESSAGE_START..][..length]
    }

    // ---- records ----

    pub fn record_count(&self) -> usize {
        self.number(RECORDS_START + ROW_COUNT)
    }

    pub fn record_message(&self, row: usize) -> &'a [u8] {
        let length = self.number(row_at(row)).min(MESSAGE_LIMIT);
        &self.store[STORED_RECORD * row..][..length]
    }

    pub fn responded(&self, row: usize, slot: usize) -> bool {
        self.flag(slot_at(row, slot))
    }

    pub fn waits(&self, row: usize, slot: usize) -> bool {
        self.responded(row, slot) && self.flag(waits_at(row, slot))
    }

    pub fn response(&self, row: usize, slot: usize) -> ResponseView<'a> {
        let at = slot_at(row, slot);
        let key_ids = self.number(at + SLOT_KEY_IDS).min(LIST_LIMIT);
        let nonces = self.number(at + SLOT_NONCES).min(LIST_LIMIT);
        let from = STORED_RECORD * row + STORED_MESSAGE + STORED_RESPONSE * slot;
        ResponseView {
            dkg_id: u64_at(self.state, at + SLOT_IDS),
            sign_id: u64_at(self.state, at + SLOT_IDS + SIGN_ID),
            sign_iter_id: u64_at(self.state, at + SLOT_IDS + SIGN_ITER_ID),
            key_ids: &self.store[from..][..4 * key_ids],
            nonces: &self.store[from + STORED_KEYS..][..66 * nonces],
            clock: u64_at(self.state, at + SLOT_CLOCK),
        }
    }

    // ---- shares ----

    pub fn has_shares(&self, slot: usize) -> bool {
        self.flag(shares_at(slot))
    }

    pub fn shares(&self, slot: usize) -> impl Iterator<Item = ShareView<'a>> {
        let at = shares_at(slot);
        let count = self.number(at + SHARE_COUNT).min(LIST_LIMIT);
        let counts = &self.state[at + KEY_COUNTS..][..count];
        let list = &self.store[STORED_SHARES + STORED_SHARE_LIST * slot..][..STORED_SHARE_LIST];
        let mut keys_at = STORED_SHARE_KEYS;
        counts.iter().enumerate().map(move |(i, keys)| {
            let keys_end = (keys_at + 4 * *keys as usize).min(STORED_SHARE_LIST);
            let key_ids = &list[keys_at..keys_end];
            keys_at = keys_end;
            let share = &list[36 * i..36 * i + 36];
            ShareView { id: u32_at(share, 0), z_i: &share[4..], key_ids }
        })
    }

    // ---- marks, clocks, keys, job ----

    pub fn ended(&self, slot: usize) -> bool {
        self.flag(MARKS_START + slot)
    }

    pub fn malicious(&self, slot: usize) -> bool {
        self.flag(malicious_at(slot))
    }

    pub fn nonce_start(&self) -> Option<u64> {
        self.reading(CLOCKS_START)
    }

    pub fn sign_start(&self) -> Option<u64> {
        self.reading(CLOCKS_START + SIGN_START)
    }

    pub fn coordinator_key(&self) -> bool {
        self.flag(KEYS_START)
    }

    pub fn group_key(&self) -> bool {
        self.flag(KEYS_START + AGGREGATE)
    }

    pub fn job(&self) -> bool {
        self.flag(JOB_START)
    }

    // ---- the form of the bytes ----

    /// Whether a save can have left these bytes: mark and version, flags of 0 or 1, no number
    /// where a reading is absent, a state with a type of its own, zeros at the end.
    pub fn is_saved_form(&self) -> bool {
        let s = self.state;
        let flag = |at: usize| s[at] < 2;
        let reading = |at: usize| flag(at) && (s[at] == 1 || u64_at(s, at + NANOSECONDS) == 0);
        let slot = |row: usize, i: usize| flag(slot_at(row, i)) && flag(waits_at(row, i));
        let signer = |i: usize| {
            flag(signer_at(i) + HAS_KEYS)
                && (0..RECORD_LIMIT).all(|row| slot(row, i))
                && flag(shares_at(i))
                && flag(MARKS_START + i)
                && flag(malicious_at(i))
        };
        let (number, signature_type) = (s[POSITION_START], s[POSITION_START + SIGNATURE_TYPE]);
        let typed = number > 10;
        s[..VERSION_START] == *b"ROUNDCAB"
            && u64_at(s, VERSION_START) == VERSION
            && flag(COMMISSIONED_START)
            && timeout_places().into_iter().all(reading)
            && flag(CONFIG_START + VERIFY_PACKET_SIGS)
            && number < 15
            && (if typed { signature_type < 4 } else { signature_type == 0 })
            && (0..SIGNER_LIMIT).all(signer)
            && reading(CLOCKS_START)
            && reading(CLOCKS_START + SIGN_START)
            && flag(KEYS_START)
            && flag(KEYS_START + AGGREGATE)
            && flag(JOB_START)
            && s[ZEROS_START..].iter().all(|b| *b == 0)
    }
}

// ---- places of what a signer or a record has ----

fn timeout_places() -> [usize; TIMEOUT_COUNT] {
    [0, DKG_PRIVATE_TIMEOUT, DKG_END_TIMEOUT, NONCE_TIMEOUT, SIGN_TIMEOUT]
        .map(|at| CONFIG_START + TIMEOUTS + at)
}

fn signer_at(slot: usize) -> usize {
    CONFIG_START + SIGNERS + SIGNER_BYTES * slot
}

fn row_at(row: usize) -> usize {
    RECORDS_START + ROW_BYTES * row
}

fn slot_at(row: usize, slot: usize) -> usize {
    row_at(row) + SLOTS + SLOT_BYTES * slot
}

fn shares_at(slot: usize) -> usize {
    SHARES_START + SHARE_BYTES * slot
}

pub fn malicious_at(slot: usize) -> usize {
    MARKS_START + MALICIOUS + slot
}

pub fn waits_at(row: usize, slot: usize) -> usize {
    slot_at(row, slot) + WAITS
}

pub fn clock_at(row: usize, slot: usize) -> usize {
    slot_at(row, slot) + SLOT_CLOCK
}

pub fn stored_nonces_at(row: usize, slot: usize) -> usize {
    STORED_RECORD * row + STORED_MESSAGE + STORED_RESPONSE * slot + STORED_KEYS
}

pub fn stored_shares_at(slot: usize) -> usize {
    STORED_SHARES + STORED_SHARE_LIST * slot
}
