//! A round that a person can follow: three signers, one of which falls silent. `cargo run --example round`
//!
//! Nonces and shares are made up, and so are seals: a host of its own has a curve library for the one and a verdict on the other.

use roundcabinet::{
    signer, Answer, Config, Coordinator, Job, KeyId, Nonce, NonceRequest, Refusal, Share, ShareRequest, SignatureType,
    Signer, SignerId, Timeout, Verdict,
};

/// Signers and their keys.
const SIGNERS: [(SignerId, &[KeyId]); 3] =
    [(SignerId(0), &[KeyId(1)]), (SignerId(1), &[KeyId(2), KeyId(3)]), (SignerId(2), &[KeyId(4)])];

fn main() -> Result<(), Refusal> {
    let mut coordinator = commissioned()?;

    println!("clock 100: start a round for \"payout 7\"");
    let packet = coordinator.start_signing_round(100, b"payout 7", SignatureType::Schnorr, None)?;
    let request = NonceRequest::read(&packet)?;
    tell_request(&packet, &request);
    nonces(&mut coordinator, 101, &request, 0)?;
    tell_waiting(&coordinator, &[])?;
    let shares_wanted = nonces(&mut coordinator, 102, &request, 1)?.expect("3 keys have answered");

    println!("\nsigner 0 falls silent");
    shares(&mut coordinator, 103, &shares_wanted, 1)?;
    println!("clock 112: is it late? {:?}", coordinator.process_timeout(112)?);
    let Answer::Packet(packet) = coordinator.process_timeout(113)? else { unreachable!("3 keys are left") };
    println!(
        "clock 113: more than 10 since the request. Signer 0 is left out; its key gone, 3 are left, and 3 are enough"
    );
    let request = NonceRequest::read(&packet)?;
    tell_request(&packet, &request);

    println!();
    nonces(&mut coordinator, 114, &request, 0)?;
    nonces(&mut coordinator, 115, &request, 2)?;
    tell_waiting(&coordinator, &[SignerId(0)])?;
    let shares_wanted = nonces(&mut coordinator, 116, &request, 1)?.expect("3 keys have answered");
    shares(&mut coordinator, 117, &shares_wanted, 2)?;
    shares(&mut coordinator, 118, &shares_wanted, 1)?;

    println!("\nclock 119: anything else? {}", coordinator.process_timeout(119).unwrap_err());
    println!("the aggregator has a signature: {:?}", coordinator.aggregated(true)?);
    Ok(())
}

fn commissioned() -> Result<Coordinator, Refusal> {
    let ten = Timeout::nanoseconds(10);
    let mut config = Config::new(3, 4, 3).nonce_timeout(ten).sign_timeout(ten);
    println!("4 keys; nonces of 3 are wanted; whoever takes longer than 10 is late");
    for (id, keys) in SIGNERS {
        println!("  signer {id} has {}", list(keys));
        config = config.signer(Signer::new(id, keys.iter().copied()));
    }
    let mut coordinator = Coordinator::commission(&config)?;
    coordinator.set_coordinator_key(true)?;
    coordinator.set_group_key(true)?;
    coordinator.take_results(7, &SIGNERS.map(|(id, _)| id))?;
    println!("commissioned; both keys are held; all have ended key generation 7\n");
    Ok(coordinator)
}

/// A signer sends its nonces. The share request, where one is sent.
fn nonces(c: &mut Coordinator, clock: u64, request: &NonceRequest, i: usize) -> Result<Option<ShareRequest>, Refusal> {
    let (id, keys) = SIGNERS[i];
    let nonces = vec![Nonce { d: [2; 33], e: [3; 33] }; keys.len()];
    let answer = c.process(clock, Verdict::Good, &signer::answer(request, id, keys, &nonces)?)?;
    println!("clock {clock}: signer {id} sends nonces for {}", list(keys));
    let Some(packet) = answer.packet() else {
        println!("  {answer:?}");
        return Ok(None);
    };
    let request = ShareRequest::read(packet)?;
    println!("  -> share request of {} bytes, with these nonces:", packet.len());
    for response in &request.responses {
        println!("       signer {}: {}", response.signer, list(&response.key_ids));
    }
    Ok(Some(request))
}

/// Whom an operator would call before the timeout: who has not answered, and is not left out.
fn tell_waiting(c: &Coordinator, left_out: &[SignerId]) -> Result<(), Refusal> {
    let came = c.arrivals()?;
    let answered: Vec<String> = came.iter().map(|a| format!("signer {} at {}", a.signer, a.clock)).collect();
    let missing = SIGNERS.iter().map(|(id, _)| id).filter(|id| !came.iter().any(|a| a.signer == **id));
    let missing: Vec<String> = missing.filter(|id| !left_out.contains(id)).map(SignerId::to_string).collect();
    println!("  answered: {}; an operator would call: {}", answered.join(", "), missing.join(", "));
    Ok(())
}

/// A signer sends its shares.
fn shares(c: &mut Coordinator, clock: u64, request: &ShareRequest, i: usize) -> Result<(), Refusal> {
    let (id, keys) = SIGNERS[i];
    let shares: Vec<Share> = keys.iter().map(|key| Share { id: key.0, z_i: [9; 32], key_ids: vec![*key] }).collect();
    let answer = c.process(clock, Verdict::Good, &signer::share(request, id, &shares)?)?;
    println!("clock {clock}: signer {id} sends shares for {}", list(keys));
    match answer {
        Answer::Job { packet, whole } => {
            let job = Job::read(&packet)?;
            println!(
                "  -> job for the aggregator, whole: {whole}; {} shares, {}",
                job.shares.len(),
                list(&job.key_ids)
            );
        }
        other => println!("  {other:?}"),
    }
    Ok(())
}

fn tell_request(packet: &[u8], request: &NonceRequest) {
    let ids = request.ids;
    println!("  -> nonce request of {} bytes: sign id {}, iteration {}", packet.len(), ids.sign_id, ids.iteration);
}

fn list(keys: &[KeyId]) -> String {
    let numbers: Vec<String> = keys.iter().map(KeyId::to_string).collect();
    format!("{} {}", if keys.len() == 1 { "key" } else { "keys" }, numbers.join(", "))
}
