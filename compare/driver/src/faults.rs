//! Faults that are put into what the library gave, one sort at a time, to see that the comparison
//! finds them: `--break N`.

use crate::{
    c,
    library::Library,
    places::{layout::SIGNER_LIMIT, CLOCKS_START, IDS_START, NANOSECONDS, SIGN_ID, ZEROS_START},
    states::NONCE_GATHER,
    view::{self, View},
};

#[derive(Clone, Copy, Debug, PartialEq, Eq)]
pub struct Fault(pub u8);

/// What each fault does, from 1 on.
pub const FAULTS: [&str; 15] = [
    "the last byte of a share request (kind 3) is changed",
    "after a nonce request a malicious signer is forgotten",
    "in NonceGather nonce_start is one nanosecond later",
    "the mark of a job is turned round",
    "after a share request a signer is no longer waited for",
    "a byte of a recorded nonce is changed in the store",
    "a byte is written past the packet, or on a refusal",
    "refusal 17 says another expected id",
    "a byte at the state's end is not zero",
    "a byte of a recorded share is changed in the store",
    "after 11 the sign id is one more",
    "refusal 18 is given the number 17",
    "the last byte of a signer's packet that the library wrote is changed",
    "the last byte of the query of arrivals is changed, where it names somebody",
    "the reading of a recorded response is another one",
];

impl Fault {
    pub fn new(number: u8) -> Option<Fault> {
        (1..=FAULTS.len() as u8).contains(&number).then_some(Fault(number))
    }

    /// Whether it is put into what a signer's writers wrote, and nowhere else.
    pub fn is_in_responses(self) -> bool {
        self.0 == 13
    }

    /// Whether it is put into what the query of arrivals wrote, and nowhere else.
    pub fn is_in_arrivals(self) -> bool {
        self.0 == 14
    }

    pub fn put(self, given: &mut c::Answer, library: &mut Library) {
        match self.0 {
            1 | 7 => self.put_in_out(given, library),
            4 if given.class == c::JOB => given.mark ^= 1,
            8 if given.number == 17 => given.second ^= 1,
            12 if given.number == 18 => given.number = 17,
            6 | 10 => self.put_in_store(library),
            _ => self.put_in_state(given, library),
        }
    }

    fn put_in_out(self, given: &c::Answer, library: &mut Library) {
        let length = given.length as usize;
        let out = library.out.bytes_mut();
        match self.0 {
            1 if given.class == c::PACKET && out[0] == 3 => out[length - 1] ^= 1,
            7 if given.class != c::NOTHING && length < out.len() => out[length] ^= 1,
            _ => {}
        }
    }

    fn put_in_state(self, given: &c::Answer, library: &mut Library) {
        let kind = if given.class == c::PACKET { library.out.bytes()[0] } else { 0 };
        let v = View { state: library.state.bytes(), store: library.store.bytes() };
        let slots = || 0..v.signer_count().min(SIGNER_LIMIT);
        let place = match self.0 {
            2 if kind == 1 => slots().find(|i| v.malicious(*i)).map(view::malicious_at),
            3 if v.state_number() == NONCE_GATHER => Some(CLOCKS_START + NANOSECONDS),
            5 if kind == 3 => slots().find(|i| v.waits(0, *i)).map(|i| view::waits_at(0, i)),
            9 => Some(ZEROS_START),
            11 if given.number == 11 => Some(IDS_START + SIGN_ID),
            15 if v.record_count() > 0 => {
                slots().find(|i| v.responded(0, *i)).map(|i| view::clock_at(0, i))
            }
            _ => None,
        };
        if let Some(place) = place {
            library.state.bytes_mut()[place] ^= 1;
        }
    }

    fn put_in_store(self, library: &mut Library) {
        let v = View { state: library.state.bytes(), store: library.store.bytes() };
        let mut slots = 0..v.signer_count().min(SIGNER_LIMIT);
        let place = if self.0 == 6 && v.record_count() > 0 {
            let with_nonces =
                |i: &usize| v.responded(0, *i) && !v.response(0, *i).nonces.is_empty();
            slots.find(with_nonces).map(|i| view::stored_nonces_at(0, i))
        } else if self.0 == 10 {
            let with_shares = |i: &usize| v.has_shares(*i) && v.shares(*i).count() > 0;
            slots.find(with_shares).map(view::stored_shares_at)
        } else {
            None
        };
        if let Some(place) = place {
            library.store.bytes_mut()[place] ^= 1;
        }
    }
}
