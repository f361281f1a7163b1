//! Seeded random call sequences. Each call is chosen by looking at what the last one left, so
//! that rounds go deep. A small share of the calls is outside 01's domain: the library refuses
//! them, and they are not counted as calls.

mod choose;
mod commission;
mod mangle;
mod packets;
mod scene;

use crate::{
    both::{Both, Difference},
    calls::{Answer, Call, Step},
    faults::Fault,
    library::Surplus,
    probes,
    reached::Reached,
    rng::Rng,
    shrink::Setting,
};
use scene::Scene;

/// What stays the same over a sequence.
struct Temper {
    /// How much goes wrong, in percent of the places where something can.
    noise: usize,
    /// How often the clock goes to a timeout's limit, in percent.
    haste: usize,
    messages: Vec<Vec<u8>>,
    roots: [[u8; 32]; 2],
    /// Ten signers of sixteen keys, long messages and lists.
    large: bool,
}

pub struct Generator<'a> {
    r: Rng,
    both: Both,
    now: u64,
    temper: Temper,
    steps: Vec<Step>,
    reached: &'a mut Reached,
    /// Calls made on both sides.
    calls: u64,
    surplus: Surplus,
}

/// A difference, with all calls up to it.
pub struct Found {
    pub setting: Setting,
    pub steps: Vec<Step>,
    pub difference: Difference,
}

/// Runs the `index`th sequence under `seed`, and gives how many calls it made.
pub fn sequence(
    seed: u64,
    index: u64,
    fault: Option<Fault>,
    reached: &mut Reached,
) -> Result<u64, Box<Found>> {
    let mut g = Generator::new(Rng::of_sequence(seed, index), fault, reached);
    match g.go() {
        Ok(()) => Ok(g.calls),
        Err(difference) => Err(Box::new(Found {
            setting: Setting { surplus: g.surplus, fault },
            steps: g.steps,
            difference,
        })),
    }
}

/// The calls of that sequence, where no difference comes.
pub fn steps(seed: u64, index: u64) -> Vec<Step> {
    let mut reached = Reached::default();
    let mut g = Generator::new(Rng::of_sequence(seed, index), None, &mut reached);
    g.go().expect("no difference");
    g.steps
}

fn message(r: &mut Rng) -> Vec<u8> {
    let n = *r.pick(&[0, 1, 1, 2, 8, 32, 32, 255, 256]);
    r.bytes(n)
}

fn temper(r: &mut Rng) -> Temper {
    let mut noise = *r.pick(&[0, 2, 5, 5, 10, 25]);
    let haste = *r.pick(&[0, 2, 5, 5, 10, 25]);
    let mut messages: Vec<_> = (0..r.within(1, 6)).map(|_| message(r)).collect();
    let mut roots = [[0; 32]; 2];
    roots.iter_mut().for_each(|root| r.fill(root));
    if r.percent(50) {
        roots[1] = roots[0];
        roots[1][31] ^= 1;
    }
    let large = r.percent(2);
    if large {
        noise = *r.pick(&[0, 0, 2]);
        messages.truncate(2);
        messages.iter_mut().for_each(|m| *m = r.bytes(256));
    }
    Temper { noise, haste, messages, roots, large }
}

impl<'a> Generator<'a> {
    fn new(mut r: Rng, fault: Option<Fault>, reached: &'a mut Reached) -> Self {
        let temper = temper(&mut r);
        let now = *r.pick(&[0, 1, 999_999_990, 1 << 32, 1 << 63, u64::MAX - 5_000]);
        let mut surplus = || *r.pick(&[0, 0, 1, 64]);
        let surplus = Surplus { state: surplus(), store: surplus(), out: surplus() };
        let both = Both::new(surplus, fault);
        Generator { r, both, now, temper, steps: Vec::new(), reached, calls: 0, surplus }
    }

    fn go(&mut self) -> Result<(), Difference> {
        self.reached.sequence();
        self.commission()?;
        let length = self.r.within(10, 80);
        while self.steps.len() < length {
            self.advance();
            self.any_call()?;
        }
        self.reached.responses(self.both.responses.counts);
        self.reached.arrivals(self.both.arrivals.named);
        Ok(())
    }

    /// Makes the call on both sides.
    fn make(&mut self, call: Call) -> Result<(), Difference> {
        let probe = match self.r.percent(30) {
            true => *self.r.pick(&probes::ALL),
            false => probes::Probe::None,
        };
        // Now and then the clock goes back for one call.
        let back = if self.r.below(200) == 0 { self.r.within(1, 20) as u64 } else { 0 };
        let step = Step { now: self.now.saturating_sub(back), call, probe };
        self.steps.push(step);
        let step = self.steps.last().unwrap();
        let answer = self.both.step(step)?;
        if !matches!(answer, Answer::Outside(_)) {
            self.calls += 1;
        }
        self.reached.step(&self.both.fire, step, &answer);
        Ok(())
    }

    fn advance(&mut self) {
        let scene = Scene::new(&self.both.fire, &self.temper, self.now);
        let target = match scene.limit() {
            Some(limit) if self.r.percent(self.temper.haste) => {
                match self.r.weighted(&[40, 50, 10]) {
                    0 => limit,
                    1 => limit.saturating_add(1),
                    _ => limit.saturating_add(self.r.within(2, 50) as u64),
                }
            }
            _ if self.r.percent(30) => self.now.saturating_add(self.r.within(0, 2) as u64),
            _ => self.now,
        };
        self.now = self.now.max(target);
    }

    /// Commissions, and most of the time gives keys and key-generation results.
    fn commission(&mut self) -> Result<(), Difference> {
        let commission = commission::any(&mut self.r, &self.temper);
        let ended: Vec<u32> = commission.signers.iter().map(|s| s.0).collect();
        let key = if commission.verify_packet_sigs { 92 } else { 40 };
        self.make(Call::Commission(commission))?;
        if self.r.percent(92) {
            self.make(Call::SetGroupKey(true))?;
        }
        if self.r.percent(key) {
            self.make(Call::SetCoordinatorKey(true))?;
        }
        if self.r.percent(92) {
            let call = choose::dkg_results(&mut self.r, ended);
            self.make(call)?;
        }
        Ok(())
    }

    fn any_call(&mut self) -> Result<(), Difference> {
        if self.r.below(500) == 0 {
            return self.commission();
        }
        let call = {
            let scene = Scene::new(&self.both.fire, &self.temper, self.now);
            if self.r.percent(2) {
                mangle::outside(&mut self.r, &scene)
            } else {
                choose::call(&mut self.r, &scene)
            }
        };
        let call = self.repeat(call);
        self.make(call)
    }

    /// Now and then a packet that came before comes again in place of this one.
    fn repeat(&mut self, mut call: Call) -> Call {
        if let Call::Process(i) | Call::ProcessMessage(i) = &mut call {
            if self.r.percent(4) {
                let earlier = self.r.below(self.steps.len());
                if let Call::Process(e) | Call::ProcessMessage(e) = &self.steps[earlier].call {
                    i.packet.clone_from(&e.packet);
                }
            }
        }
        call
    }
}
