//! fire.rs and the library side by side: a call is made on both, and all that can be seen of them
//! is compared.

use crate::{
    arrivals::Arrivals,
    buffers::Buffer,
    c,
    calls::{Answer, Call, Outcome, Step},
    faults::Fault,
    fire::Fire,
    library::{Library, Surplus},
    mark, packet,
    responses::Responses,
    same,
    signature_type::SigType,
    states::IDLE,
    view::{View, CONFIG},
};

/// What the buffer of the query of arrivals holds before it.
static UNTOLD: [u8; c::ANSWER_LENGTH] = [0xC3; c::ANSWER_LENGTH];

/// What differs, in words.
#[derive(Clone, Debug, PartialEq, Eq)]
pub struct Difference(pub String);

fn differ(what: impl Into<String>) -> Result<(), Difference> {
    Err(Difference(what.into()))
}

pub struct Both {
    pub fire: Fire,
    pub library: Library,
    pub responses: Responses,
    pub arrivals: Arrivals,
    fault: Option<Fault>,
    /// The buffers as they were before the call.
    state: Vec<u8>,
    store: Vec<u8>,
    out: Vec<u8>,
    /// What the query of arrivals is lent to write to.
    told: Buffer,
    /// Responses and share lists that fire.rs held before the call.
    held: (usize, usize),
    /// The mark that the library gave beside its last job.
    pub mark: u64,
}

/// What the library has to answer: the answer and the bytes that it writes.
fn wanted(a: &Answer) -> (c::Answer, &[u8]) {
    let none = c::Answer::default();
    let (answer, bytes): (c::Answer, &[u8]) = match a {
        Answer::Nothing => (none, &[]),
        Answer::Packet(b) => (c::Answer { class: c::PACKET, ..none }, b),
        Answer::Late(b) => (c::Answer { class: c::RESULT, ..none }, b),
        Answer::Job { bytes, .. } => (c::Answer { class: c::JOB, ..none }, bytes),
        Answer::Refused { number, values, is_result } => {
            let value = |i: usize| values.get(i).copied().unwrap_or(0);
            let refused = c::Answer {
                class: if *is_result { c::RESULT } else { c::ERROR },
                number: *number as u32,
                first: value(0),
                second: value(1),
                values: values.len() as u64,
                ..none
            };
            (refused, &[])
        }
        Answer::Move(yes) => {
            (c::Answer { class: c::RESULT, first: *yes as u64, values: 1, ..none }, &[])
        }
        Answer::Outside(n) => (c::Answer { class: c::ERROR, number: *n as u32, ..none }, &[]),
    };
    (c::Answer { length: bytes.len() as u64, ..answer }, bytes)
}

/// A job's answer as fire.rs has it, and the mark; of another answer the mark stays where it is.
fn without_mark(a: c::Answer) -> (c::Answer, u64) {
    if a.class != c::JOB {
        return (a, 0);
    }
    (c::Answer { mark: 0, ..a }, a.mark)
}

fn compare_answers(what: &str, wanted: c::Answer, given: c::Answer) -> Result<(), Difference> {
    if wanted == given {
        return Ok(());
    }
    differ(format!("{what}\n  wanted {wanted:?}\n  given  {given:?}"))
}

/// The refusals that leave every byte as it was.
fn changes_nothing(a: &Answer) -> bool {
    match a {
        Answer::Refused { number, .. } => matches!(number, 12..=18),
        Answer::Move(_) => true,
        _ => false,
    }
}

impl Both {
    pub fn new(surplus: Surplus, fault: Option<Fault>) -> Self {
        let library = Library::new(surplus);
        let (state, store) = (library.state.bytes().to_vec(), library.store.bytes().to_vec());
        let out = library.out.bytes().to_vec();
        let mut told = Buffer::new(c::ANSWER_LENGTH, library.out.lent());
        told.bytes_mut().copy_from_slice(&UNTOLD);
        let (fire, responses, arrivals) = (Fire::new(), Responses::new(fault), Arrivals::default());
        let (held, mark) = ((0, 0), 0);
        Both { fire, library, responses, arrivals, fault, state, store, out, told, held, mark }
    }

    pub fn view(&self) -> View<'_> {
        View { state: self.library.state.bytes(), store: self.library.store.bytes() }
    }

    /// Makes the call on both. Gives what fire.rs answered.
    pub fn step(&mut self, step: &Step) -> Result<Answer, Difference> {
        if let Call::Process(i) | Call::ProcessMessage(i) = &step.call {
            self.responses.look(&i.packet).map_err(Difference)?;
        }
        let answer = self.fire.call(step.now, &step.call);
        if let Answer::Outside(number) = answer {
            self.outside(step, number)?;
            if self.fire.saved().is_some() {
                self.probe(step)?;
            }
            return Ok(answer);
        }
        let mut given = self.library.call(step.now, &step.call);
        if let Some(fault) = self.fault {
            fault.put(&mut given, &mut self.library);
        }
        let (wanted, bytes) = wanted(&answer);
        let (unmarked, mark) = without_mark(given);
        compare_answers("answer", wanted, unmarked)?;
        self.written(bytes)?;
        if let Answer::Job { outcome, .. } = &answer {
            self.marked(bytes, mark)?;
            self.aggregate(step, *outcome)?;
        }
        self.fields(step)?;
        self.unchanged(step, &answer)?;
        self.arrived(step)?;
        self.no_operation()?;
        self.probe(step)?;
        Ok(answer)
    }

    /// A call that 01 refuses before fire.rs is asked: its number, and nothing changed. After 1 to
    /// 3 the state is uncommissioned, so that call is made on a copy.
    fn outside(&mut self, step: &Step, number: u8) -> Result<(), Difference> {
        let wanted = wanted(&Answer::Outside(number)).0;
        if number > 3 {
            let given = self.library.call(step.now, &step.call);
            compare_answers("answer outside the domain", wanted, given)?;
            return self.nothing_changed("a call outside the domain");
        }
        let mut copy = self.library.copy();
        let given = copy.call(step.now, &step.call);
        compare_answers("answer to commissioning", wanted, given)?;
        if copy.store.bytes() != self.library.store.bytes() {
            return differ("store after a refused commissioning");
        }
        let wanted = c::Answer { class: c::ERROR, number: 4, ..c::Answer::default() };
        compare_answers("answer after a refused commissioning", wanted, copy.reset())
    }

    /// The bytes in `out` are those, and nothing past them has changed.
    fn written(&mut self, bytes: &[u8]) -> Result<(), Difference> {
        let out = self.library.out.bytes();
        if &out[..bytes.len()] != bytes {
            let at = (0..bytes.len()).find(|i| out[*i] != bytes[*i]).unwrap();
            return differ(format!("packet\n  byte {at} is {}, not {}", out[at], bytes[at]));
        }
        if out[bytes.len()..] != self.out[bytes.len()..] {
            return differ("answer buffer past what was written");
        }
        self.out[..bytes.len()].copy_from_slice(bytes);
        Ok(())
    }

    /// The mark beside a job, which fire.rs has not.
    fn marked(&mut self, job: &[u8], given: u64) -> Result<(), Difference> {
        let wanted = mark::is_whole(self.fire.saved().expect("commissioned"), job) as u64;
        self.mark = given;
        if given != wanted {
            return differ(format!("the mark of a job\n  wanted {wanted}\n  given  {given}"));
        }
        Ok(())
    }

    /// The second step of a job: everything else is refused first (5), then the aggregator's
    /// answer is given.
    fn aggregate(&mut self, step: &Step, outcome: Outcome) -> Result<(), Difference> {
        if !self.view().job() {
            return differ("a job was answered, and none is out");
        }
        let refused = c::Answer { class: c::ERROR, number: 5, ..c::Answer::default() };
        compare_answers(
            "answer while a job is out",
            refused,
            self.library.process_timeout(step.now),
        )?;
        let given = self.library.can_move_to(0, &SigType::default());
        compare_answers("answer while a job is out", refused, given)?;
        let given = self.library.tell_arrivals(&mut self.told);
        compare_answers("answer while a job is out", refused, given)?;
        self.reset_drops_the_job()?;
        let given = self.library.aggregated(matches!(outcome, Outcome::Signed(_)));
        let none = c::Answer { class: c::RESULT, ..c::Answer::default() };
        let wanted = match outcome {
            Outcome::Signed(kind) => c::Answer { first: kind as u64, values: 1, ..none },
            Outcome::Failed => c::Answer { number: 23, ..none },
        };
        compare_answers("answer to the aggregator", wanted, given)
    }

    /// Reset with a job out has no counterpart in fire.rs: on a copy.
    fn reset_drops_the_job(&self) -> Result<(), Difference> {
        let mut copy = self.library.copy();
        compare_answers("answer to reset with a job out", c::Answer::default(), copy.reset())?;
        let view = View { state: copy.state.bytes(), store: copy.store.bytes() };
        if view.job() || view.state_number() != IDLE || view.record_count() != 0 {
            return differ("fields after reset with a job out");
        }
        Ok(())
    }

    fn fields(&mut self, step: &Step) -> Result<(), Difference> {
        if let Call::Commission(commission) = &step.call {
            if !self.library.store.zeroed() {
                return differ("the lent store is not zero after commissioning");
            }
            if let Some(name) = same::configuration(&self.view(), commission) {
                return differ(name);
            }
        } else if self.library.state.bytes()[CONFIG] != self.state[CONFIG] {
            return differ("bytes of the configuration");
        }
        if !self.view().is_saved_form() {
            return differ("bytes of the state that no save leaves");
        }
        let saved = self.fire.saved().expect("commissioned");
        match same::fields(&self.view(), saved) {
            Some(name) => differ(name),
            None => Ok(()),
        }
    }

    /// What the call may not have changed; then the buffers as they now are.
    fn unchanged(&mut self, step: &Step, answer: &Answer) -> Result<(), Difference> {
        if changes_nothing(answer) && self.library.state.bytes() != self.state {
            return differ("bytes of the state after a refusal or a question");
        }
        self.state.copy_from_slice(self.library.state.bytes());
        let saved = self.fire.saved().expect("commissioned");
        let responses = saved.message_nonces.values().map(|i| i.public_nonces.len()).sum();
        let held = (responses, saved.signature_shares.len());
        if self.library.store.bytes() != self.store {
            if held == self.held && !matches!(step.call, Call::Commission(_)) {
                return differ("bytes of the store, and nothing was recorded");
            }
            self.store.copy_from_slice(self.library.store.bytes());
        }
        self.held = held;
        self.guards()
    }

    /// Who has answered the current message, and when. The query changes nothing.
    fn arrived(&mut self, step: &Step) -> Result<(), Difference> {
        let saved = self.fire.saved().expect("commissioned");
        self.arrivals.note(saved, step.now);
        if !self.arrivals.same(&self.view()) {
            return differ("the reading of a recorded response");
        }
        let came = self.arrivals.of(&saved.message);
        self.arrivals.named += u64::from(!came.is_empty());
        let bytes = packet::arrivals(&came);
        let length = bytes.len() as u64;
        let given = self.library.tell_arrivals(&mut self.told);
        let wanted = c::Answer { class: c::RESULT, length, ..c::Answer::default() };
        compare_answers("answer to the query of arrivals", wanted, given)?;
        let (written, rest) = self.told.bytes_mut().split_at_mut(bytes.len());
        if self.fault.is_some_and(Fault::is_in_arrivals) && !came.is_empty() {
            written[bytes.len() - 1] ^= 1;
        }
        if *written != bytes[..] {
            return differ(format!("arrivals\n  wanted {bytes:?}\n  given  {written:?}"));
        }
        let (untold, untold_rest) = UNTOLD.split_at(bytes.len());
        written.copy_from_slice(untold);
        if *rest != *untold_rest || !self.told.guards_stay() {
            return differ("bytes past the arrivals");
        }
        self.nothing_changed("the query of arrivals")
    }

    /// The aggregator's answer with no job out: it is refused (6), not for the state's bytes (4),
    /// and leaves them as they are. So a save has left them.
    fn no_operation(&mut self) -> Result<(), Difference> {
        let refused = c::Answer { class: c::ERROR, number: 6, ..c::Answer::default() };
        compare_answers("answer with no job out", refused, self.library.aggregated(true))?;
        if self.library.state.bytes() != self.state {
            return differ("bytes of the state after a call that does nothing");
        }
        if self.library.out.bytes() != self.out {
            return differ("answer buffer after a call that writes no packet");
        }
        Ok(())
    }

    fn guards(&self) -> Result<(), Difference> {
        let l = &self.library;
        if l.state.guards_stay() && l.store.guards_stay() && l.out.guards_stay() {
            return Ok(());
        }
        differ("bytes outside a buffer's length")
    }

    fn nothing_changed(&self, after: &str) -> Result<(), Difference> {
        let l = &self.library;
        if l.state.bytes() != self.state {
            return differ(format!("bytes of the state after {after}"));
        }
        if l.store.bytes() != self.store {
            return differ(format!("bytes of the store after {after}"));
        }
        if l.out.bytes() != self.out {
            return differ(format!("answer buffer after {after}"));
        }
        self.guards()
    }

    fn probe(&mut self, step: &Step) -> Result<(), Difference> {
        if step.probe == crate::probes::Probe::None {
            return Ok(());
        }
        step.probe.make(step, &mut self.library).map_err(Difference)?;
        self.nothing_changed(step.probe.name())
    }
}
