//! What the generator looks at when it chooses a call.

use wsts::state_machine::coordinator::SavedState;

use super::Temper;
use crate::{
    calls::Commission,
    clock,
    fire::Fire,
    rng::Rng,
    signature_type::SigType,
    states::{self, IDLE, NONCE_GATHER, SIG_SHARE_GATHER},
};

pub struct Scene<'a> {
    pub c: &'a Commission,
    pub s: &'a SavedState,
    pub temper: &'a Temper,
    pub now: u64,
    pub state: u8,
    pub signature_type: SigType,
}

impl<'a> Scene<'a> {
    pub fn new(fire: &'a Fire, temper: &'a Temper, now: u64) -> Self {
        let (c, s) = (fire.commission().unwrap(), fire.saved().unwrap());
        let (state, signature_type) = states::from_rust(&s.state);
        Scene { c, s, temper, now, state, signature_type }
    }

    pub fn is_idle(&self) -> bool {
        self.state == IDLE
    }

    /// The reading after which the state's timeout fires.
    pub fn limit(&self) -> Option<u64> {
        let (begun, timeout) = match self.state {
            NONCE_GATHER => (self.s.nonce_start, self.c.nonce_timeout),
            SIG_SHARE_GATHER => (self.s.sign_start, self.c.sign_timeout),
            _ => (None, None),
        };
        clock::reading(begun?).checked_add(timeout?)
    }

    pub fn fires(&self) -> bool {
        self.limit().is_some_and(|limit| self.now > limit)
    }

    pub fn noisy(&self, r: &mut Rng) -> bool {
        r.percent(self.temper.noise)
    }

    pub fn wrong_id(&self, r: &mut Rng, right: u64) -> u64 {
        match r.weighted(&[4, 4, 2, 1]) {
            0 => right.wrapping_add(1),
            1 => right.wrapping_sub(1),
            2 => r.draw(),
            _ => 0,
        }
    }

    /// The right id, most of the time.
    pub fn id(&self, r: &mut Rng, right: u64) -> u64 {
        if self.noisy(r) {
            self.wrong_id(r, right)
        } else {
            right
        }
    }

    pub fn any_message(&self, r: &mut Rng) -> Vec<u8> {
        if r.percent(3) {
            return super::message(r);
        }
        r.pick(&self.temper.messages).clone()
    }

    /// A message that has a record, if there is one.
    pub fn recorded_message(&self, r: &mut Rng) -> Option<&'a Vec<u8>> {
        let count = self.s.message_nonces.len();
        (count > 0).then(|| self.s.message_nonces.keys().nth(r.below(count)).unwrap())
    }

    pub fn any_type(&self, r: &mut Rng) -> SigType {
        let root = *r.pick(&self.temper.roots);
        SigType::new(r.below(4) as u8, root)
    }

    pub fn any_signer(&self, r: &mut Rng) -> u32 {
        if self.c.signers.is_empty() || self.noisy(r) {
            return *r.pick(&[0, 5, 12, 77, u32::MAX]);
        }
        r.pick(&self.c.signers).0
    }

    pub fn sign_id(&self, r: &mut Rng) -> u64 {
        match r.weighted(&[40, 20, 20, 20]) {
            0 => self.s.current_sign_id.wrapping_add(1),
            1 => u64::MAX,
            2 => r.within(0, 3) as u64,
            _ => r.draw(),
        }
    }
}
