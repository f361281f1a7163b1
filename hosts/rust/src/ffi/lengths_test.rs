//! Lengths that a `Coordinator` does not let a host say: 01's "Buffer 19,232, 19,231 is 7", a short state, a short store, longer buffers,
//! a root that has not 32 bytes.

use super::*;
use crate::config::Config;
use crate::limits::{ANSWER_LENGTH, STATE_LENGTH, STORE_LENGTH};

const FILLED: u8 = 0xaa;
const START: Start<'_> = Start { clock: 100, message: b"a", signature_type: 0, root: &[], sign_id: None };

fn filled(length: usize) -> Box<[u8]> {
    vec![FILLED; length].into_boxed_slice()
}

/// Commissioned, the group key held; then as much as is said of each buffer.
fn ready(state: usize, store: usize, out: usize) -> Buffers {
    let mut b = Buffers { state: filled(STATE_LENGTH), store: filled(STORE_LENGTH), out: filled(ANSWER_LENGTH) };
    taken(commission(&mut b, Config::new(0, 0, 0).verify_packet_sigs(false).plain()));
    taken(set_group_key(&mut b, true));
    let cut = |held: &[u8], length: usize| held.iter().copied().chain([FILLED; 9]).take(length).collect();
    Buffers { state: cut(&b.state, state), store: cut(&b.store, store), out: cut(&b.out, out) }
}

/// All other numbers of these refusals are 0.
fn refused(a: RcAnswer, number: u32) {
    assert_eq!(a, RcAnswer { class_: ERROR, number, ..RcAnswer::default() });
}

fn taken(a: RcAnswer) {
    assert_eq!(a, RcAnswer { class_: NOTHING, ..RcAnswer::default() });
}

fn arrivals(b: &mut Buffers) -> RcAnswer {
    tell_arrivals(&b.state, &b.store, &mut b.out)
}

/// Each call that writes to the answer buffer.
fn writing_calls(b: &mut Buffers) -> [RcAnswer; 5] {
    let idle_request = {
        let mut packet = [0; 48];
        (packet[0], packet[2], packet[16], packet[32], packet[40]) = (1, 2, 9, 48, 48);
        packet
    };
    [
        process_timeout(b, 100),
        arrivals(b),
        process(b, 100, true, &idle_request),
        process_message(b, 100, true, &idle_request),
        start_signing_round(b, &START),
    ]
}

#[test]
fn an_answer_buffer_of_19_232_and_one_byte_less() {
    let mut b = ready(STATE_LENGTH, STORE_LENGTH, 19_231);
    for a in writing_calls(&mut b) {
        refused(a, 7);
    }
    assert!(b.out.iter().all(|byte| *byte == FILLED), "a refusal writes nothing");

    let mut b = ready(STATE_LENGTH, STORE_LENGTH, 19_232);
    assert_eq!(arrivals(&mut b), RcAnswer { class_: RESULT, length: 48, ..RcAnswer::default() });
    assert!(b.out[48..].iter().all(|byte| *byte == FILLED), "nothing is written past the lists");
    let a = start_signing_round(&mut b, &START);
    assert_eq!(a, RcAnswer { class_: PACKET, length: 49, ..RcAnswer::default() });
    assert!(b.out[49..].iter().all(|byte| *byte == FILLED), "nothing is written past the packet");
}

#[test]
fn an_empty_answer_buffer_is_refused_too() {
    let mut b = ready(STATE_LENGTH, STORE_LENGTH, 0);
    for a in writing_calls(&mut b) {
        refused(a, 7);
    }
}

#[test]
fn a_store_of_52_224_and_one_byte_less() {
    let mut b = ready(STATE_LENGTH, 52_223, ANSWER_LENGTH);
    let before = b.state.clone();
    for a in writing_calls(&mut b) {
        refused(a, 4);
    }
    refused(reset(&mut b), 4);
    refused(can_move_to(&mut b, 0, 0, &[]), 4);
    assert_eq!(b.state, before);
    let mut b = ready(STATE_LENGTH, 52_224, ANSWER_LENGTH);
    taken(reset(&mut b));
}

#[test]
fn a_state_of_one_byte_less_is_refused_by_commissioning_too() {
    let mut b = ready(STATE_LENGTH - 1, STORE_LENGTH, ANSWER_LENGTH);
    let before = b.state.clone();
    refused(commission(&mut b, Config::new(0, 0, 0).plain()), 4);
    refused(set_coordinator_key(&mut b, true), 4);
    refused(take_results(&mut b, 7, &[]), 4);
    refused(arrivals(&mut b), 4);
    refused(aggregated(&mut b, true), 4);
    assert_eq!(b.state, before);
}

#[test]
fn longer_buffers_are_taken_and_left_alone_but_for_commissioning() {
    let mut b = ready(STATE_LENGTH + 1, STORE_LENGTH + 1, ANSWER_LENGTH + 1);
    assert_eq!(start_signing_round(&mut b, &START).class_, PACKET);
    assert_eq!(arrivals(&mut b), RcAnswer { class_: RESULT, length: 48, ..RcAnswer::default() });
    assert_eq!((b.state[STATE_LENGTH], b.store[STORE_LENGTH], b.out[ANSWER_LENGTH]), (FILLED, FILLED, FILLED));
    taken(commission(&mut b, Config::new(0, 0, 0).plain()));
    assert_eq!((b.state[STATE_LENGTH], b.store[STORE_LENGTH]), (FILLED, 0));
}

#[test]
fn a_type_of_4_and_a_state_of_15_are_refused_with_8() {
    let mut b = ready(STATE_LENGTH, STORE_LENGTH, ANSWER_LENGTH);
    refused(start_signing_round(&mut b, &Start { signature_type: 4, ..START }), 8);
    refused(can_move_to(&mut b, 11, 4, &[]), 8);
    refused(can_move_to(&mut b, 15, 0, &[]), 8);
    let answer = |first| RcAnswer { class_: RESULT, first, values: 1, ..RcAnswer::default() };
    assert_eq!(can_move_to(&mut b, 14, 0, &[]), answer(0));
    assert_eq!(can_move_to(&mut b, 11, 0, &[]), answer(1));
}

#[test]
fn a_root_of_32_bytes_and_of_no_other_number() {
    for length in [0, 1, 31, 33, 64] {
        let root = filled(length);
        let mut b = ready(STATE_LENGTH, STORE_LENGTH, ANSWER_LENGTH);
        let before = b.state.clone();
        for next in [0, 11, 14] {
            refused(can_move_to(&mut b, next, 3, &root), 8);
        }
        refused(start_signing_round(&mut b, &Start { signature_type: 3, root: &root, ..START }), 8);
        assert_eq!(b.state, before);
        assert!(b.out.iter().all(|byte| *byte == FILLED), "a refusal writes nothing");
        let a = start_signing_round(&mut b, &Start { signature_type: 2, root: &root, ..START });
        assert_eq!(
            a,
            RcAnswer { class_: PACKET, length: 49, ..RcAnswer::default() },
            "beside another type it isn't looked at"
        );
    }
    let mut b = ready(STATE_LENGTH, STORE_LENGTH, ANSWER_LENGTH);
    let a = start_signing_round(&mut b, &Start { signature_type: 3, root: &filled(32), ..START });
    assert_eq!(a, RcAnswer { class_: PACKET, length: 81, ..RcAnswer::default() });
}
