//! What the crate's writers do not let a host say: a short buffer, a type above 3, places outside the source, lists that do not agree, and
//! what stays past a packet.

use super::*;
use crate::limits::ANSWER_LENGTH;

const FILLED: u8 = 0xaa;
const HEAD: RcHead =
    RcHead { dkg_id: 1, sign_id: 2, sign_iter_id: 3, signature_type: 3, reserved: [FILLED; 7], root: [9; 32] };
const SOURCE: [u8; 66] = [7; 66];

/// One response whose lists are all the same one; so, too, one signer.
fn responses(list: RcPlace) -> RcResponses {
    let one = RcResponse { message: list, key_ids: list, nonces: list, ..Default::default() };
    RcResponses { places: [one; 10], count: 1 }
}

fn signers(list: RcPlace) -> RcJobPlaces {
    let one = RcJobPlace { key_ids: list, nonces: list, shares: list, ..Default::default() };
    RcJobPlaces { places: [one; 10], count: 1 }
}

const ONE: RcPlace = RcPlace { at: 0, count: 1 };
const IDS: RcSignerIds = RcSignerIds { ids: [5; 10], count: 2 };
const CAME: RcArrival = RcArrival { signer_id: 5, reserved: 0xaaaa_aaaa, clock: 0x1817_1615_1413_1211 };
const ARRIVALS: RcArrivals = RcArrivals { arrivals: [CAME; 10], count: 2 };

/// Those that have a type come first.
const WRITERS: [fn(&mut [u8], RcHead) -> RcWritten; 9] = [
    |out, head| write_nonce_request(out, head, b"pay"),
    |out, head| write_signature_share_request(out, head, b"pay", &SOURCE, responses(ONE)),
    |out, head| write_job(out, head, b"pay", &SOURCE, signers(ONE)),
    |out, _| write_dkg_begin(out, 7),
    |out, _| write_dkg_signer(out, 3, 7),
    |out, _| write_dkg_coordinator(out, 7),
    |out, _| write_nonce_timeout(out, IDS, IDS),
    |out, _| write_insufficient_signers(out, IDS),
    |out, _| write_arrivals(out, ARRIVALS),
];

fn refused(w: RcWritten, number: u32) {
    assert_eq!(w, RcWritten { refusal: number, ..Default::default() });
}

#[test]
fn a_buffer_of_19_231_and_one_of_no_bytes_are_refused_with_7() {
    for length in [ANSWER_LENGTH - 1, 0] {
        let mut out = vec![FILLED; length];
        WRITERS.iter().for_each(|write| refused(write(&mut out, HEAD), 7));
        assert_eq!(out, vec![FILLED; length], "a refusal writes nothing");
    }
}

#[test]
fn a_type_of_4_is_refused_with_8_before_all() {
    let head = RcHead { signature_type: 4, ..HEAD };
    for length in [ANSWER_LENGTH, 0] {
        let mut out = vec![FILLED; length];
        WRITERS[..3].iter().for_each(|write| refused(write(&mut out, head), 8));
        assert_eq!(out, vec![FILLED; length], "a refusal writes nothing");
    }
}

#[test]
fn nothing_past_the_packet_is_written_and_reserved_bytes_are_not_looked_at() {
    let lengths = [32 + 16 + 3 + 32, 32 + 24 + 3 + 32 + 56 + 1 + 4 + 66, 32 + 40 + 3 + 32 + 4 + 66 + 36];
    let untyped = [32, 32, 32, 32 + 16 + 16, 32 + 8 + 8, 32 + 16 + 24];
    for (write, length) in WRITERS.iter().zip(lengths.into_iter().chain(untyped)) {
        let (mut out, mut again) = (vec![FILLED; ANSWER_LENGTH + 1], vec![0; ANSWER_LENGTH]);
        assert_eq!(write(&mut out, HEAD), RcWritten { length: length as u64, ..Default::default() });
        assert!(out[length..].iter().all(|byte| *byte == FILLED));
        write(&mut again, RcHead { reserved: [0; 7], ..HEAD });
        assert_eq!(again[..length], out[..length]);
    }
}

#[test]
fn an_arrivals_reserved_number_is_not_looked_at_and_eleven_are_refused_with_9() {
    let (mut out, mut again) = (vec![FILLED; ANSWER_LENGTH], vec![FILLED; ANSWER_LENGTH]);
    refused(write_arrivals(&mut out, RcArrivals { count: 11, ..ARRIVALS }), 9);
    refused(write_arrivals(&mut out, RcArrivals { count: u64::MAX, ..ARRIVALS }), 9);
    assert_eq!(out, again, "a refusal writes nothing");
    assert_eq!(write_arrivals(&mut out, ARRIVALS).length, 72);
    let plain = RcArrivals { arrivals: [RcArrival { reserved: 0, ..CAME }; 10], ..ARRIVALS };
    assert_eq!(write_arrivals(&mut again, plain).length, 72);
    assert_eq!(again, out);
}

#[test]
fn a_place_outside_the_source_is_refused_with_9() {
    let outside = [(1, 1), (66, 1), (67, 0), (0, 2), (u64::MAX, 1), (0, u64::MAX), (0, u64::MAX / 66 + 2)];
    for (at, count) in outside {
        let mut out = vec![FILLED; ANSWER_LENGTH];
        let list = RcPlace { at, count };
        refused(write_signature_share_request(&mut out, HEAD, b"pay", &SOURCE, responses(list)), 9);
        refused(write_job(&mut out, HEAD, b"pay", &SOURCE, signers(list)), 9);
        assert_eq!(out, vec![FILLED; ANSWER_LENGTH], "a refusal writes nothing");
    }
}

#[test]
fn places_that_do_not_count_are_not_looked_at() {
    let mut given = responses(RcPlace { at: u64::MAX, count: u64::MAX });
    given.places[0] = responses(RcPlace { at: 66, count: 0 }).places[0];
    let mut out = vec![FILLED; ANSWER_LENGTH];
    assert_eq!(write_signature_share_request(&mut out, HEAD, b"pay", &SOURCE, given).refusal, 0);
}

const RESPONSE: RcResponseHead =
    RcResponseHead { dkg_id: 1, sign_id: 2, sign_iter_id: 3, signer_id: 4, reserved: 0xaaaa_aaaa };
const IDS_2: [u32; 2] = [8, 9];
const SHARES: Shares<'_> = Shares { ids: &IDS_2, z_i: &[5; 64], key_counts: &[0, 2], key_ids: &IDS_2 };

#[test]
fn a_response_leaves_what_is_past_it_and_reserved_bytes_are_not_looked_at() {
    let head = RcResponseHead { reserved: 0, ..RESPONSE };
    let writers: [fn(&mut [u8], RcResponseHead) -> RcWritten; 2] = [
        |out, head| write_nonce_response(out, head, b"pay", &IDS_2, &SOURCE),
        |out, head| write_signature_share_response(out, head, &SHARES),
    ];
    for (write, length) in writers.iter().zip([56 + 3 + 8 + 66, 32 + 2 * 44 + 8]) {
        let (mut out, mut again) = (vec![FILLED; length + 9], vec![0; length]);
        assert_eq!(write(&mut out, RESPONSE), RcWritten { length: length as u64, ..Default::default() });
        assert_eq!(out[length..], [FILLED; 9]);
        assert_eq!(write(&mut again, head).refusal, 0, "an exact fit");
        assert_eq!(again, out[..length]);
    }
}

#[test]
fn lists_that_do_not_agree_are_refused_with_9_before_26() {
    for length in [1000, 0] {
        let mut out = vec![FILLED; length];
        for nonces in [1, 65, 67, 17 * 66] {
            refused(write_nonce_response(&mut out, RESPONSE, b"pay", &IDS_2, &vec![7; nonces]), 9);
        }
        let z_i = [5; 96];
        let others = [
            Shares { z_i: &z_i[..63], ..SHARES },
            Shares { z_i: &z_i[..65], ..SHARES },
            Shares { z_i: &z_i, ..SHARES },
            Shares { ids: &[8], ..SHARES },
            Shares { key_counts: &[2], ..SHARES },
            Shares { key_counts: &[0, 2, 0], ..SHARES },
            Shares { key_counts: &[1, 2], ..SHARES },
            Shares { key_counts: &[3, u32::MAX], ..SHARES },
            Shares { key_ids: &[8], ..SHARES },
        ];
        others.iter().for_each(|shares| refused(write_signature_share_response(&mut out, RESPONSE, shares), 9));
        assert_eq!(out, vec![FILLED; length], "a refusal writes nothing");
    }
}
