//! When each signer answered. fire.rs keeps no readings and has no such query, so the library's is
//! compared with what the driver itself knows: who has answered stands in fire.rs's fields, and the
//! reading is that of the call after which fire.rs held the response for the first time.

use std::collections::BTreeMap;

use wsts::state_machine::coordinator::SavedState;

use crate::view::View;

/// The reading of each response that fire.rs holds, by message and signer.
#[derive(Default)]
pub struct Arrivals {
    readings: BTreeMap<Vec<u8>, BTreeMap<u32, u64>>,
    /// How often the library's query named somebody.
    pub named: u64,
}

impl Arrivals {
    /// After a call at this reading: what is held no more is forgotten, what is held newly came now.
    pub fn note(&mut self, held: &SavedState, now: u64) {
        self.readings.retain(|message, _| held.message_nonces.contains_key(message));
        for (message, info) in &held.message_nonces {
            if !self.readings.contains_key(message) {
                self.readings.insert(message.clone(), BTreeMap::new());
            }
            let row = self.readings.get_mut(message).expect("just put there");
            row.retain(|id, _| info.public_nonces.contains_key(id));
            for id in info.public_nonces.keys() {
                row.entry(*id).or_insert(now);
            }
        }
    }

    /// Signers ascending, with their readings.
    pub fn of(&self, message: &[u8]) -> Vec<(u32, u64)> {
        self.readings.get(message).into_iter().flatten().map(|(id, now)| (*id, *now)).collect()
    }

    /// Whether the library's state has these readings, in the records of the other messages too.
    /// That it has the same records is asked before.
    pub fn same(&self, v: &View) -> bool {
        let slots = |row| (0..v.signer_count()).filter(move |i| v.responded(row, *i));
        (0..v.record_count()).all(|row| {
            let of = &self.readings[v.record_message(row)];
            slots(row).all(|i| v.response(row, i).clock == of[&v.signer_id(i)])
        })
    }
}
