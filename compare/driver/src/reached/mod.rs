//! What the calls reached: how often each call, answer, state and corner came.

pub mod corners;

use std::collections::BTreeMap;

use crate::{
    calls::{Answer, Call, Step},
    fire::Fire,
    probes,
    responses::Counts,
    states::{self, IDLE, NONCE_GATHER},
};
use corners::{Corners, Seen};

pub const CALLS: [&str; 10] = [
    "commission",
    "group_key",
    "coordinator_key",
    "dkg_results",
    "start",
    "process",
    "process_timeout",
    "process_message",
    "reset",
    "can_move_to",
];

#[derive(Default)]
pub struct Reached {
    sequences: u64,
    calls: [u64; 10],
    /// By number, in Idle, NonceGather and SigShareGather.
    refused: [[u64; 3]; 26],
    outside: [u64; 26],
    probes: [u64; 7],
    states: [u64; 15],
    types: [u64; 4],
    /// How often a packet of this kind was written, and the longest.
    written: BTreeMap<u8, (u64, usize)>,
    nothing: u64,
    moves: [u64; 2],
    pub corners: Corners,
    largest_in: usize,
    responses: Counts,
    /// Queries of arrivals that named somebody.
    arrivals: u64,
}

fn call_number(c: &Call) -> usize {
    match c {
        Call::Commission(_) => 0,
        Call::SetGroupKey(_) => 1,
        Call::SetCoordinatorKey(_) => 2,
        Call::DkgResults { .. } => 3,
        Call::Start { .. } => 4,
        Call::Process(_) => 5,
        Call::ProcessTimeout => 6,
        Call::ProcessMessage(_) => 7,
        Call::Reset => 8,
        Call::CanMoveTo { .. } => 9,
    }
}

impl Reached {
    pub fn sequence(&mut self) {
        self.sequences += 1;
    }

    /// Of a whole sequence.
    pub fn responses(&mut self, counts: Counts) {
        let sum = &mut self.responses;
        sum.written.iter_mut().zip(counts.written).for_each(|(sum, n)| *sum += n);
        sum.refused += counts.refused;
    }

    /// Of a whole sequence.
    pub fn arrivals(&mut self, named: u64) {
        self.arrivals += named;
    }

    pub fn step(&mut self, fire: &Fire, step: &Step, answer: &Answer) {
        self.probes[step.probe as usize] += 1;
        if let Answer::Outside(number) = answer {
            self.outside[*number as usize] += 1;
            return;
        }
        self.calls[call_number(&step.call)] += 1;
        if let Call::Process(i) | Call::ProcessMessage(i) = &step.call {
            self.largest_in = self.largest_in.max(i.packet.len());
        }
        let (before, after) = (fire.previous().unwrap(), fire.saved().unwrap());
        let state = states::from_rust(&before.state).0;
        let (now, t) = states::from_rust(&after.state);
        self.states[now as usize] += 1;
        if now != IDLE {
            self.types[t.code as usize] += 1;
        }
        self.answer(answer, state);
        if !matches!(step.call, Call::Commission(_)) {
            let c = fire.commission().unwrap();
            self.corners.look(&Seen { c, before, after, step, answer, state });
        }
    }

    fn wrote(&mut self, bytes: &[u8]) {
        let entry = self.written.entry(bytes[0]).or_default();
        *entry = (entry.0 + 1, entry.1.max(bytes.len()));
    }

    fn answer(&mut self, answer: &Answer, state: u8) {
        match answer {
            Answer::Nothing => self.nothing += 1,
            Answer::Packet(bytes) | Answer::Late(bytes) => self.wrote(bytes),
            Answer::Job { bytes, .. } => self.wrote(bytes),
            Answer::Refused { number, .. } => {
                let place = match state {
                    IDLE => 0,
                    NONCE_GATHER => 1,
                    _ => 2,
                };
                self.refused[*number as usize][place] += 1;
            }
            Answer::Move(yes) => self.moves[*yes as usize] += 1,
            Answer::Outside(_) => {}
        }
    }

    /// Calls that were made on both sides.
    pub fn calls(&self) -> u64 {
        self.calls.iter().sum()
    }

    pub fn print(&self) {
        println!("| reached | times |\n|---|---:|");
        let row = |name: &str, n: u64| println!("| {name} | {n} |");
        row("sequences", self.sequences);
        row("calls compared", self.calls());
        CALLS.iter().zip(self.calls).for_each(|(name, n)| row(&format!("call: {name}"), n));
        row("state after: Idle", self.states[0]);
        row("state after: NonceGather", self.states[12]);
        row("state after: SigShareGather", self.states[14]);
        for (code, name) in ["Frost", "Schnorr", "Taproot", "Taproot with root"].iter().enumerate()
        {
            row(&format!("gathering with type {name}"), self.types[code]);
        }
        row("answer: nothing", self.nothing);
        for (kind, (n, longest)) in &self.written {
            row(&format!("answer: kind {kind}, longest {longest} bytes"), *n);
        }
        row("answer: move yes", self.moves[1]);
        row("answer: move no", self.moves[0]);
        self.print_refusals();
        corners::NAMES.iter().for_each(|name| row(name, self.corners.count(name)));
        row("longest packet in, bytes", self.largest_in as u64);
        let Counts { written: [nonces, shares], refused } = self.responses;
        row("written by the library too, nested ones included: kind 2", nonces);
        row("written by the library too: kind 4", shares);
        row("refused 26 by its writers: a byte less lent to each", nonces + shares);
        row("refused 9 by its writers: kinds 2 and 4 over a limit", refused);
        row("queries of arrivals: after each call", self.calls());
        row("queries of arrivals that named somebody", self.arrivals);
        for (name, n) in probes::NAMES.iter().zip(self.probes).skip(1) {
            row(&format!("probe: {name}"), n);
        }
    }

    /// 4 and 7 come by probes; 20 and 21 need fields that no list of calls leaves.
    fn print_refusals(&self) {
        for number in 10..=22 {
            for (place, state) in ["Idle", "NonceGather", "SigShareGather"].iter().enumerate() {
                let n = self.refused[number][place];
                if n > 0 {
                    println!("| refused {number} in {state} | {n} |");
                }
            }
        }
        for (number, n) in self.outside.iter().enumerate().filter(|(_, n)| **n > 0) {
            println!("| refused {number}, outside the domain: by the library alone | {n} |");
        }
        let jobs = self.written.get(&32).map_or(0, |w| w.0);
        println!("| refused 5, outside the domain: three times with each job | {} |", 3 * jobs);
        println!("| refused 6, outside the domain: after each call | {} |", self.calls());
    }
}
