//! Calls on the library alone that must change nothing. fire.rs has no counterpart to them.

use crate::{
    c,
    calls::{Call, Step},
    library::{self, Library},
    packet,
    places::{
        COMMISSIONED_START, CONFIG_START, KEYS_START, STATE_LENGTH, VERIFY_PACKET_SIGS,
        VERSION_START,
    },
    signature_type::SigType,
};

#[derive(Clone, Copy, Debug, PartialEq, Eq)]
pub enum Probe {
    None,
    /// The move question leaves the bytes as they are.
    MoveQuestion,
    /// An answer buffer that is one byte short: 7.
    ShortOut,
    /// A store that is one byte short: 4.
    ShortStore,
    /// A byte that no save leaves: 4.
    ForeignState,
    /// The call's packet through the reader for C: header, parts, 8 and 9.
    Reader,
    /// State and store go on in other buffers, as after a restart.
    OtherBuffers,
}

pub const ALL: [Probe; 7] = [
    Probe::None,
    Probe::MoveQuestion,
    Probe::ShortOut,
    Probe::ShortStore,
    Probe::ForeignState,
    Probe::Reader,
    Probe::OtherBuffers,
];

pub const NAMES: [&str; 7] = [
    "none",
    "move_question",
    "short_out",
    "short_store",
    "foreign_state",
    "reader",
    "other_buffers",
];

impl Probe {
    pub fn name(self) -> &'static str {
        NAMES[self as usize]
    }

    /// Makes the probe; what it gave that it should not have.
    pub fn make(self, step: &Step, library: &mut Library) -> Result<(), String> {
        let (store, out) = (library.store.lent(), library.out.lent());
        match self {
            Probe::None => Ok(()),
            Probe::MoveQuestion => {
                let given = library.can_move_to(11, &SigType::default());
                let wanted = c::Answer { class: c::RESULT, values: 1, ..given };
                equal(self, wanted, given)
            }
            Probe::ShortOut => {
                let length = c::ANSWER_LENGTH - 1;
                refused(self, 7, library.process_timeout_lending(step.now, store, length))?;
                refused(self, 7, library.tell_arrivals_lending(store, length))
            }
            Probe::ShortStore => {
                let length = c::STORE_LENGTH - 1;
                refused(self, 4, library.process_timeout_lending(step.now, length, out))?;
                refused(self, 4, library.tell_arrivals_lending(length, out))
            }
            Probe::ForeignState => foreign_state(step, library),
            Probe::Reader => reader(step),
            Probe::OtherBuffers => {
                let mut other = library.copy();
                other.out.bytes_mut().copy_from_slice(library.out.bytes());
                *library = other;
                Ok(())
            }
        }
    }
}

fn equal(probe: Probe, wanted: c::Answer, given: c::Answer) -> Result<(), String> {
    if given == wanted {
        return Ok(());
    }
    Err(format!("probe {}: {given:?}, not {wanted:?}", probe.name()))
}

fn refused(probe: Probe, number: u32, given: c::Answer) -> Result<(), String> {
    equal(probe, c::Answer { class: c::ERROR, number, ..c::Answer::default() }, given)
}

/// Spoils a byte of mark, version, a flag or the zeros at the end, and mends it again.
fn foreign_state(step: &Step, library: &mut Library) -> Result<(), String> {
    const PLACES: [usize; 8] = [
        0,
        VERSION_START - 1,
        VERSION_START,
        COMMISSIONED_START - 1,
        COMMISSIONED_START,
        CONFIG_START + VERIFY_PACKET_SIGS,
        KEYS_START,
        STATE_LENGTH - 1,
    ];
    let place = PLACES[step.now as usize % PLACES.len()];
    let good = library.state.bytes()[place];
    let spoilt = good ^ 0x42;
    library.state.bytes_mut()[place] = spoilt;
    let before = library.state.bytes().to_vec();
    let given = library.reset();
    let (store, out) = (library.store.lent(), library.out.lent());
    let told = library.tell_arrivals_lending(store, out);
    let kept = library.state.bytes() == before;
    library.state.bytes_mut()[place] = good;
    refused(Probe::ForeignState, 4, given)?;
    refused(Probe::ForeignState, 4, told)?;
    if kept {
        Ok(())
    } else {
        Err("probe foreign_state: the state is changed".into())
    }
}

fn reader(step: &Step) -> Result<(), String> {
    let (Call::Process(i) | Call::ProcessMessage(i)) = &step.call else {
        return Ok(());
    };
    let b = &i.packet[..];
    let given = library::read_packet(b);
    let wanted = match packet::decode(b) {
        Err(number) => c::Packet { refusal: number as u32, ..c::Packet::default() },
        Ok(_) => c::Packet {
            refusal: 0,
            kind: b[0] as u32,
            signature_type: b[1] as u32,
            pairs: u16::from_le_bytes([b[2], b[3]]) as u32,
            signer_id: packet::u32_at(b, 4),
            reserved: 0,
            dkg_id: packet::u64_at(b, 8),
            sign_id: packet::u64_at(b, 16),
            sign_iter_id: packet::u64_at(b, 24),
        },
    };
    if given != wanted {
        return Err(format!("probe reader: {given:?}, not {wanted:?}"));
    }
    if wanted.refusal == 0 {
        parts(b)?;
    }
    Ok(())
}

fn parts(b: &[u8]) -> Result<(), String> {
    let wanted = packet::parts(b).expect("a packet that is taken");
    for (i, part) in wanted.iter().enumerate() {
        let given = library::packet_part(b, i as u16);
        let at = part.as_ptr() as u64 - b.as_ptr() as u64;
        if (given.at, given.length) != (at, part.len() as u64) {
            return Err(format!("probe reader: part {i} is {given:?}, not {at}, {}", part.len()));
        }
    }
    let past = library::packet_part(b, wanted.len() as u16);
    if past.length != 0 {
        return Err(format!("probe reader: a part past the last: {past:?}"));
    }
    Ok(())
}
