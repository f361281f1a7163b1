//! A coordinator on each side, with the calls that are timed. What a call gives back, and all that
//! was allocated for it, is freed after the clock has been read.

use std::{collections::BTreeMap, hint::black_box};

use wsts::{
    curve::point::Point,
    net::{DkgEnd, DkgStatus, Packet},
    state_machine::coordinator::{Coordinator, SavedState, State},
};

use super::{
    shape::{Both, Shape},
    ticks,
};
use crate::{
    c,
    calls::Call,
    clock,
    fire::{self, Published},
    fire_answers::Given,
    library::{Library, Surplus},
    saved,
};

const NOW: u64 = 1_000;
pub const DKG_ID: u64 = 5;
pub const SIGN_ID: u64 = 7;

/// What a timed call has to come to, so that the right thing is timed.
#[derive(Clone, Copy, PartialEq, Eq, Debug)]
pub enum Came {
    Nothing,
    Packet,
    Job,
    Refused,
}

pub trait Side {
    fn start(&mut self, shape: &Shape) -> u64;
    fn process(&mut self, packet: &Both, came: Came) -> u64;
    /// The second step of a job, where it is one.
    fn aggregated(&mut self) -> u64;
    /// One of many timeouts that do not fire.
    fn timeout(&mut self) -> u64;
}

pub const TIMEOUTS: u64 = 16;

/// Ticks that `f` takes, and what it gives. A function of its own in the program, so that
/// callgrind can be told to count what runs inside it.
#[inline(never)]
fn timed<T>(f: impl FnOnce() -> T) -> (u64, T) {
    let begun = ticks::now();
    let given = f();
    (ticks::now() - begun, given)
}

/// Commissioned, with the group's key and key generation's results.
fn ready(shape: &Shape) -> Published {
    let mut published = Published::new(fire::config(&shape.commission()));
    let mut saved = published.save();
    let end = |id| DkgEnd { dkg_id: DKG_ID, signer_id: id, status: DkgStatus::Success };
    saved.current_dkg_id = DKG_ID;
    saved.dkg_end_messages = (0..shape.signers).map(|id| (id, end(id))).collect::<BTreeMap<_, _>>();
    published = Published::load(&saved);
    published.set_aggregate_public_key(Some(Point([3; 33])));
    published
}

fn came(given: &Given) -> Came {
    match given {
        Err(_) => Came::Refused,
        Ok((None, None)) => Came::Nothing,
        Ok((Some(_), _)) => Came::Packet,
        Ok((None, Some(_))) => Came::Job,
    }
}

/// fire.rs alone: decoded packets in, structs out, the state in memory.
pub struct FireSide(Published);

impl FireSide {
    pub fn new(shape: &Shape) -> Self {
        FireSide(ready(shape))
    }
}

impl Side for FireSide {
    fn start(&mut self, shape: &Shape) -> u64 {
        let (message, t) = (shape.message(0), shape.signature_type.to_rust());
        clock::at(NOW, || {
            let (ticks, given) = timed(|| self.0.start_signing_round(&message, t, Some(SIGN_ID)));
            given.expect("a start that is taken");
            ticks
        })
    }

    fn process(&mut self, packet: &Both, came: Came) -> u64 {
        let (ticks, given) = clock::at(NOW, || timed(|| self.0.process(&packet.decoded)));
        assert_eq!(self::came(&given), came);
        ticks
    }

    fn aggregated(&mut self) -> u64 {
        assert_eq!(self.0.state, State::Idle);
        0
    }

    fn timeout(&mut self) -> u64 {
        let all = || (0..TIMEOUTS).filter(|_| self.0.process_timeout().is_ok()).count();
        let (ticks, _) = clock::at(NOW, || timed(all));
        ticks / TIMEOUTS
    }
}

/// fire.rs as a host has it that survives a crash. Around each call: the packet's bytes are decoded
/// by serde (bincode) into net.rs's struct; what goes out is serialised; `save` copies the state;
/// and the copy is serialised, field by field. The two buffers keep their memory.
///
/// Not in it: `load`, since the coordinator stays in memory while the host lives (the library reads
/// its state at each call); the freeing of the decoded packet and of the copy; writing to a disk,
/// which is on neither side. A host could leave out the save where a timeout did not fire.
pub struct SurvivingSide {
    published: Published,
    out: Vec<u8>,
    kept: Vec<u8>,
}

impl SurvivingSide {
    pub fn new(shape: &Shape) -> Self {
        SurvivingSide { published: ready(shape), out: Vec::new(), kept: Vec::new() }
    }

    /// The state's bytes after the last call.
    pub fn kept(&self) -> &[u8] {
        &self.kept
    }

    /// The bytes of the last packet that went out.
    pub fn out(&self) -> &[u8] {
        &self.out
    }

    /// What fire.rs itself would save now.
    pub fn save(&self) -> SavedState {
        self.published.save()
    }

    /// The host crashes, and its next life goes on with what was kept.
    pub fn crash(&mut self) {
        let saved = saved::read(&self.kept).expect("what was kept");
        self.published = Published::load(&saved);
    }

    fn send(&mut self, packet: &Packet) {
        saved::write_packet(packet, &mut self.out);
        black_box(&self.out);
    }

    fn keep(&mut self) -> SavedState {
        let saved = self.published.save();
        saved::write(&saved, &mut self.kept);
        black_box(&self.kept);
        saved
    }
}

impl Side for SurvivingSide {
    fn start(&mut self, shape: &Shape) -> u64 {
        let (message, t) = (shape.message(0), shape.signature_type.to_rust());
        let call = || {
            let given = self.published.start_signing_round(&message, t, Some(SIGN_ID));
            let packet = given.expect("a start that is taken");
            self.send(&packet);
            (packet, self.keep())
        };
        clock::at(NOW, || timed(call)).0
    }

    fn process(&mut self, packet: &Both, came: Came) -> u64 {
        let call = || {
            let inbound = saved::read_packet(black_box(&packet.serialised)).expect("a packet");
            let given = self.published.process(&inbound);
            if let Ok((Some(packet), _)) = &given {
                self.send(packet);
            }
            (inbound, given, self.keep())
        };
        let (ticks, (_inbound, given, _saved)) = clock::at(NOW, || timed(call));
        assert_eq!(self::came(&given), came);
        ticks
    }

    fn aggregated(&mut self) -> u64 {
        assert_eq!(self.published.state, State::Idle);
        0
    }

    /// One alone: it takes long enough to be timed.
    fn timeout(&mut self) -> u64 {
        let call = || (self.published.process_timeout(), self.keep());
        let (ticks, (given, _saved)) = clock::at(NOW, || timed(call));
        assert_eq!(self::came(&given), Came::Nothing);
        ticks
    }
}

/// The library, through C.
pub struct LibrarySide(Library);

impl LibrarySide {
    pub fn new(shape: &Shape) -> Self {
        let mut library = Library::new(Surplus::default());
        let ended = (0..shape.signers).collect();
        for call in [
            Call::Commission(shape.commission()),
            Call::SetGroupKey(true),
            Call::DkgResults { dkg_id: DKG_ID, ended },
        ] {
            assert_eq!(library.call(NOW, &call).class, c::NOTHING);
        }
        LibrarySide(library)
    }

    /// The bytes that stand in the answer buffer.
    pub fn out(&self) -> &[u8] {
        self.0.out.bytes()
    }
}

impl Side for LibrarySide {
    fn start(&mut self, shape: &Shape) -> u64 {
        let call = Call::Start {
            message: shape.message(0),
            signature_type: shape.signature_type,
            sign_id: Some(SIGN_ID),
        };
        let (ticks, given) = timed(|| self.0.call(NOW, &call));
        assert_eq!(given.class, c::PACKET);
        ticks
    }

    fn process(&mut self, packet: &Both, came: Came) -> u64 {
        let (ticks, given) = timed(|| self.0.process(NOW, &packet.inbound));
        let seen = match (given.class, given.number) {
            (c::NOTHING, _) => Came::Nothing,
            (c::PACKET, _) => Came::Packet,
            (c::JOB, _) => Came::Job,
            _ => Came::Refused,
        };
        assert_eq!(seen, came);
        ticks
    }

    fn aggregated(&mut self) -> u64 {
        let (ticks, given) = timed(|| self.0.aggregated(true));
        assert_eq!((given.class, given.number), (c::RESULT, 0));
        ticks
    }

    fn timeout(&mut self) -> u64 {
        let all =
            || (0..TIMEOUTS).filter(|_| self.0.process_timeout(NOW).class == c::NOTHING).count();
        let (ticks, quiet) = timed(all);
        assert_eq!(quiet as u64, TIMEOUTS);
        ticks / TIMEOUTS
    }
}
