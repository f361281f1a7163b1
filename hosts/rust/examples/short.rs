//! A whole round with two signers of a key each. Nonces, shares and aggregator are made up. `cargo run --example short`

use roundcabinet::*;

fn main() -> Result<(), Refusal> {
    let config =
        Config::new(2, 2, 2).signer(Signer::new(SignerId(0), [KeyId(1)])).signer(Signer::new(SignerId(1), [KeyId(2)]));
    let mut coordinator = Coordinator::commission(&config)?;
    coordinator.set_coordinator_key(true)?;
    coordinator.set_group_key(true)?;
    coordinator.take_results(7, &[SignerId(0), SignerId(1)])?;

    assert!(coordinator.is_idle()?);
    let packet = coordinator.start_signing_round(0, b"payout 7", SignatureType::Schnorr, None)?;
    println!("sent: {} of {} bytes", Packet::read(&packet)?.kind(), packet.len());
    let request = NonceRequest::read(&packet)?; // save state and store first, then seal and send
    let mut answer = Answer::Nothing;
    for i in 0..2 {
        let nonce = Nonce { d: [2; 33], e: [2; 33] };
        let response = signer::answer(&request, SignerId(i), &[KeyId(i + 1)], &[nonce])?;
        answer = coordinator.process(1, Verdict::Good, &response)?;
    }
    let packet = answer.packet().expect("both have answered").to_vec();
    println!("sent: {} of {} bytes", Packet::read(&packet)?.kind(), packet.len());
    let request = ShareRequest::read(&packet)?;
    for i in 0..2 {
        let share = Share { id: i, z_i: [2; 32], key_ids: vec![KeyId(i + 1)] };
        answer = coordinator.process(2, Verdict::Good, &signer::share(&request, SignerId(i), &[share])?)?;
    }
    let Answer::Job { packet, whole } = answer else { panic!("both have shared") };
    println!("aggregate {} shares", Job::read(&packet)?.shares.len());
    println!("{:?}", coordinator.aggregated(whole)?); // a host aggregates before
    Ok(())
}
