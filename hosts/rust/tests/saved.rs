//! A coordinator that is saved and loaded between any two calls answers as one that never was.

mod common;
use common::*;
use roundcabinet::*;
use std::collections::BTreeSet;
use std::path::Path;

type Call<'a> = (&'a str, Box<dyn Fn(&mut Coordinator) -> Result<Answer, Refusal> + 'a>);

fn packet<'a>(name: &'a str, clock: u64, bytes: Vec<u8>) -> Call<'a> {
    (name, Box::new(move |c| c.process(clock, Verdict::Good, &bytes)))
}

fn timeout<'a>(name: &'a str, clock: u64) -> Call<'a> {
    (name, Box::new(move |c| c.process_timeout(clock)))
}

fn start<'a>(name: &'a str, clock: u64) -> Call<'a> {
    (name, Box::new(move |c| c.start_signing_round(clock, b"a", SignatureType::Taproot, None).map(Answer::Packet)))
}

fn request(iteration: u64) -> NonceRequest {
    let ids = RoundIds { dkg_id: DKG, sign_id: 1, iteration };
    NonceRequest { ids, signature_type: SignatureType::Taproot, message: b"a".to_vec() }
}

fn share_request(iteration: u64) -> ShareRequest {
    let NonceRequest { ids, signature_type, message } = request(iteration);
    ShareRequest { ids, signature_type, message, responses: vec![] }
}

/// A round with everything that a state has to keep: records of two messages, a retry, somebody left out, refusals, a job.
fn round<'a>() -> Vec<Call<'a>> {
    let (first, second) = (request(1), request(2));
    vec![
        start("start", 100),
        packet("0 answers another message", 101, answers_message(&first, 0, b"b")),
        packet("0 answers", 101, answers(&first, 0)),
        timeout("nonces late", 111),
        packet("1 answers: share request", 102, answers(&first, 1)),
        packet("1 shares", 103, shares(&share_request(1), 1)),
        packet("0 is late: retry", 113, shares(&share_request(1), 0)),
        start("a start that is refused with 11", 113),
        packet("1 answers with the old sign id: 17", 114, answers(&second, 1)),
        packet("1 answers", 114, answers(&with_sign_id(&second, 2), 1)),
        packet("0 is heard no more", 114, answers(&with_sign_id(&second, 2), 0)),
        packet("2 answers: share request", 115, answers(&with_sign_id(&second, 2), 2)),
        packet("2 shares other keys: 22", 116, shares_with(&shares_of(2), 2, &[9])),
        packet("1 shares: a job that is not whole", 117, shares(&shares_of(2), 1)),
        timeout("5", 118),
        ("failed: 23", Box::new(|c| c.aggregated(false))),
        timeout("nobody waits: retry", 200),
        ("reset", Box::new(|c| c.reset().map(|()| Answer::Nothing))),
        start("start again", 300),
        ("no job: 6", Box::new(|c| c.aggregated(true))),
    ]
}

fn with_sign_id(request: &NonceRequest, sign_id: u64) -> NonceRequest {
    NonceRequest { ids: RoundIds { sign_id, ..request.ids }, ..request.clone() }
}

fn shares_of(sign_id: u64) -> ShareRequest {
    let request = share_request(2);
    ShareRequest { ids: RoundIds { sign_id, ..request.ids }, ..request }
}

fn sort_of(answer: &Result<Answer, Refusal>) -> String {
    match answer {
        Ok(Answer::Nothing) => "nothing".into(),
        Ok(Answer::Packet(packet)) => format!("kind {}", packet[0]),
        Ok(Answer::Job { .. }) => "job".into(),
        Ok(Answer::NonceTimeout { .. }) => "late".into(),
        Ok(other) => format!("refused {}", other.refusal().unwrap().number()),
        Err(refusal) => format!("refused {}", refusal.number()),
    }
}

#[test]
fn saved_and_loaded_between_all_calls() {
    let mut never_saved = ready(&worked());
    let mut saved = ready(&worked());
    let mut met = BTreeSet::new();
    for (name, call) in round() {
        let answer = call(&mut never_saved);
        saved = Coordinator::load(saved.state().to_vec(), saved.store().to_vec());
        assert_eq!(saved.check(), Ok(()), "{name}");
        assert_eq!(call(&mut saved), answer, "{name}");
        assert_eq!(saved.arrivals(), never_saved.arrivals(), "{name}");
        assert_eq!(saved.state(), never_saved.state(), "{name}");
        assert!(saved.store() == never_saved.store(), "{name}");
        met.insert(sort_of(&answer));
    }
    let refusals = [5, 6, 11, 17, 22, 23].map(|number| format!("refused {number}"));
    let others = ["nothing", "kind 1", "kind 3", "job", "late"].map(String::from);
    assert_eq!(met, refusals.into_iter().chain(others).collect(), "the round met what its lines say");
}

#[test]
fn the_middle_of_a_round_by_way_of_files() {
    let folder = Path::new(env!("CARGO_TARGET_TMPDIR"));
    let (state, store) = (folder.join("state"), folder.join("store"));
    let (mut c, request) = to_shares(&worked());
    c.process(103, Verdict::Good, &shares(&request, 1)).unwrap();
    std::fs::write(&state, c.state()).unwrap();
    std::fs::write(&store, c.store()).unwrap();
    let job = c.process(104, Verdict::Good, &shares(&request, 0)).unwrap();
    drop(c);

    let mut again = Coordinator::load(std::fs::read(state).unwrap(), std::fs::read(store).unwrap());
    assert_eq!(again.process(104, Verdict::Good, &shares(&request, 0)), Ok(job));
    assert_eq!(again.check(), Ok(()), "a job that is out is no fault");
    assert_eq!(again.aggregated(true), Ok(Answer::Signed(SignatureKind::Frost)));
}

#[test]
fn bytes_that_no_call_left_are_refused_and_stay() {
    let (c, _) = started(&worked());
    let (state, store) = (c.state().to_vec(), c.store().to_vec());
    let changed = |at: usize| {
        let mut bytes = state.clone();
        bytes[at] ^= 0xff;
        bytes
    };
    let other_states =
        [vec![], vec![0; STATE_LENGTH], vec![0xff; STATE_LENGTH], changed(0), changed(8), state[1..].to_vec()];
    for bytes in other_states {
        let mut c = Coordinator::load(bytes.clone(), store.clone());
        assert_eq!(c.check(), Err(Refusal::State));
        assert_eq!(c.process_timeout(100), Err(Refusal::State));
        assert_eq!(c.take_results(1, &[]), Err(Refusal::State));
        assert_eq!(c.arrivals(), Err(Refusal::State));
        assert_eq!((c.state(), c.store()), (&bytes[..], &store[..]));
    }
    let mut c = Coordinator::load(state, &store[1..]);
    assert_eq!(c.check(), Err(Refusal::State), "a short store");
    assert_eq!(c.arrivals(), Err(Refusal::State), "a short store");
}

#[test]
fn a_coordinator_is_commissioned_again() {
    let (mut c, request) = to_shares(&worked());
    c.process(103, Verdict::Good, &shares(&request, 1)).unwrap();
    c.process(103, Verdict::Good, &shares(&request, 0)).unwrap();
    assert_eq!(c.commission_again(&worked()), Ok(()), "with a job out too");
    let new = Coordinator::commission(&worked()).unwrap();
    assert_eq!((c.state(), c.store()), (new.state(), new.store()));

    let store = c.store().to_vec();
    assert_eq!(c.commission_again(&Config { num_keys: 3, ..worked() }), Err(Refusal::Total));
    assert_eq!(c.check(), Err(Refusal::State), "not commissioned");
    assert_eq!(c.store(), store);
    let mut loaded = Coordinator::load(vec![9; STATE_LENGTH], vec![9; STORE_LENGTH]);
    assert_eq!(loaded.commission_again(&worked()), Ok(()));
    assert_eq!((loaded.state(), loaded.store()), (new.state(), new.store()));
}
