//! When each signer answered, round by round. After each call of these rounds the library's query
//! is held against fire.rs's records and the readings that the calls were given; here the lists
//! that come of it are written out.

mod common;
use common::*;
use compare::{
    calls::{Answer, Call, Inbound},
    packet,
};
use wsts::net::Message;

/// What the last query told.
fn came(r: &Round) -> Vec<(u32, u64)> {
    r.both.arrivals.of(&r.f().message)
}

/// A response at a reading, by `process_message`.
fn respond_at(r: &mut Round, now: u64, signer_id: u32, keys: &[u32], message: &[u8]) -> Answer {
    let m = Message::NonceResponse(r.response(signer_id, keys, message));
    let back = std::mem::replace(&mut r.now, now);
    let inbound = Inbound { packet: packet::encode(&m), verdict: true, agg_ok: true };
    let answer = r.call(Call::ProcessMessage(inbound));
    r.now = back;
    answer
}

#[test]
fn ascending_with_the_readings_of_their_calls() {
    let mut r = Round::new(worked());
    r.start(b"m");
    assert_eq!(came(&r), []);
    assert_eq!(respond_at(&mut r, 101, 2, &[4], b"m"), Answer::Nothing);
    assert_eq!(respond_at(&mut r, 103, 0, &[1], b"m"), Answer::Nothing);
    assert_eq!(came(&r), [(0, 103), (2, 101)]);
    let bytes = packet::arrivals(&came(&r));
    assert_eq!((bytes.len(), &bytes[48..56]), (72, &[0, 0, 0, 0, 2, 0, 0, 0][..]));
    assert_eq!(bytes[56..], [[103, 0, 0, 0, 0, 0, 0, 0], [101, 0, 0, 0, 0, 0, 0, 0]].concat());
}

#[test]
fn readings_go_back_and_are_late_and_the_first_one_stays() {
    let mut r = Round::new(worked());
    r.start(b"m");
    assert_eq!(respond_at(&mut r, 90, 2, &[4], b"m"), Answer::Nothing);
    assert_eq!(respond_at(&mut r, u64::MAX, 0, &[1], b"m"), Answer::Nothing);
    assert_eq!(respond_at(&mut r, 104, 2, &[4], b"m"), Answer::Nothing);
    assert_eq!(came(&r), [(0, u64::MAX), (2, 90)]);
}

#[test]
fn the_current_message_alone() {
    let mut r = Round::two_records();
    assert_eq!(came(&r), [(0, 100), (1, 100)]);
    assert_refused(&r.start_type(b"b", SCHNORR, None), 11, &[]);
    assert_eq!(came(&r), [(0, 100)]);
    assert_refused(&r.start_type(b"c", SCHNORR, None), 11, &[]);
    assert_eq!(came(&r), []);
}

#[test]
fn a_retry_and_a_reset_empty_the_list_and_success_does_not() {
    let mut r = Round::gathering_shares(worked());
    assert_eq!(r.share(1, &[2, 3]), Answer::Nothing);
    r.now = 111;
    assert_kind(&r.call(Call::ProcessTimeout), 1);
    assert_eq!(came(&r), []);
    assert_eq!(r.respond(2, &[4], b"m"), Answer::Nothing);
    assert_eq!(came(&r), [(2, 111)]);

    let mut r = Round::gathering_shares(worked());
    assert_eq!(r.share(0, &[1]), Answer::Nothing);
    assert_kind(&r.share(1, &[2, 3]), 32);
    assert_eq!(came(&r), [(0, 100), (1, 100)]);
    assert_eq!(r.call(Call::Reset), Answer::Nothing);
    assert_eq!(came(&r), []);
}
