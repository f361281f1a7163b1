//! The mark beside a job. It is ours: fire.rs has none and is compared without it. So that a wrong
//! one is found all the same, it is worked out here from what the other side has: who answered and
//! whose shares are held stands in fire.rs's fields after the call, the joined key ids in the bytes
//! of the job that its aggregator was given.

use wsts::state_machine::coordinator::SavedState;

use crate::packet;

/// The places of the message and of the key ids among a job's parts.
const MESSAGE: usize = 0;
const KEY_IDS: usize = 2;

fn part(job: &[u8], at: usize) -> &[u8] {
    packet::parts(job).expect("a packet")[at]
}

/// The job's joined list of key ids.
pub fn key_ids(job: &[u8]) -> Vec<u32> {
    let ids = part(job, KEY_IDS);
    (0..ids.len() / 4).map(|i| packet::u32_at(ids, 4 * i)).collect()
}

pub fn has_twice(ids: &[u32]) -> bool {
    ids.iter().enumerate().any(|(i, id)| ids[..i].contains(id))
}

/// Whether the shares of everyone are held who answered the job's message.
pub fn all_shared(saved: &SavedState, job: &[u8]) -> bool {
    let responders = &saved.message_nonces[part(job, MESSAGE)].public_nonces;
    responders.keys().all(|id| saved.signature_shares.contains_key(id))
}

/// Every responder's shares are held, and no key id occurs twice in the job's joined list.
pub fn is_whole(saved: &SavedState, job: &[u8]) -> bool {
    all_shared(saved, job) && !has_twice(&key_ids(job))
}
