//! The three buffers that every call is lent.

use crate::limits::{ANSWER_LENGTH, STATE_LENGTH, STORE_LENGTH};

/// State and store may have any length, since a host loads what it finds; the library answers 4 where one is too short.
pub(crate) struct Buffers {
    pub(crate) state: Box<[u8]>,
    pub(crate) store: Box<[u8]>,
    pub(crate) out: Box<[u8]>,
}

impl Buffers {
    /// Zeros: a state that is not commissioned.
    pub(crate) fn zeros() -> Buffers {
        Buffers::of(zeros(STATE_LENGTH), zeros(STORE_LENGTH))
    }

    pub(crate) fn of(state: Box<[u8]>, store: Box<[u8]>) -> Buffers {
        Buffers { state, store, out: zeros(ANSWER_LENGTH) }
    }
}

fn zeros(length: usize) -> Box<[u8]> {
    vec![0; length].into_boxed_slice()
}
