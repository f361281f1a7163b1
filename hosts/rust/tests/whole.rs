//! Which jobs are whole: every responder's shares are held, and no key id occurs twice in the job's joined list.

mod common;

use common::*;
use roundcabinet::*;

const GOOD: Verdict = Verdict::Good;

/// Signers 0 and 1 with these key sets answer with these lists and share for these keys. Gives the share request, the job's key ids and
/// whether it is whole.
fn ended(sets: [&[u32]; 2], lists: [&[u32]; 2], shared: [&[u32]; 2]) -> (ShareRequest, Vec<KeyId>, bool) {
    let mut all = sets.concat();
    let count = all.len() as u32;
    all.sort();
    all.dedup();
    let config = Config::new(2, count, all.len() as u32).verify_packet_sigs(false);
    let (mut c, request) = started(&config.signer(with_keys(0, sets[0])).signer(with_keys(1, sets[1])));
    assert_eq!(c.process(101, GOOD, &answers_with(&request, 0, lists[0])), Ok(Answer::Nothing));
    let sent = c.process(101, GOOD, &answers_with(&request, 1, lists[1])).unwrap();
    let request = ShareRequest::read(sent.packet().unwrap()).unwrap();
    assert_eq!(c.process(102, GOOD, &shares_with(&request, 0, shared[0])), Ok(Answer::Nothing));
    let Ok(Answer::Job { packet, whole }) = c.process(102, GOOD, &shares_with(&request, 1, shared[1])) else {
        panic!("a job")
    };
    assert_eq!(c.aggregated(true), Ok(Answer::Signed(SignatureKind::Frost)), "whatever the mark");
    (request, Job::read(&packet).unwrap().key_ids, whole)
}

#[test]
fn a_list_that_names_a_key_twice() {
    let sets: [&[u32]; 2] = [&[1], &[2, 3]];
    let (request, joined, whole) = ended(sets, [&[1], &[3, 2, 3]], sets);
    assert_eq!((joined, whole), (keys(&[1, 3, 2, 3]), false));
    assert_eq!(request.key_named_twice(), Some((KeyId(3), SignerId(1), SignerId(1))));
    assert_eq!(request.responses.iter().map(NonceResponse::names_key_twice).collect::<Vec<_>>(), [false, true]);

    let (request, joined, whole) = ended(sets, sets, sets);
    assert_eq!((joined, whole, request.key_named_twice()), (keys(&[1, 2, 3]), true, None));
}

#[test]
fn a_key_of_two_signers() {
    let sets: [&[u32]; 2] = [&[1, 2], &[2, 3]];
    let (request, joined, whole) = ended(sets, sets, sets);
    assert_eq!((joined, whole), (keys(&[1, 2, 2, 3]), false));
    assert_eq!(request.key_named_twice(), Some((KeyId(2), SignerId(0), SignerId(1))));
    assert!(!request.responses.iter().any(NonceResponse::names_key_twice));
}

#[test]
fn keys_that_do_not_count() {
    let sets: [&[u32]; 2] = [&[1], &[2, 3]];
    assert!(ended(sets, sets, [&[1], &[3, 2, 3]]).2, "the shares' own lists");
    let sets: [&[u32]; 2] = [&[], &[2, 3]];
    assert!(ended(sets, sets, sets).2, "an empty list");
    let sets: [&[u32]; 2] = [&[1], &[257, 513]];
    assert!(ended(sets, sets, sets).2, "different keys that end in the same byte");
}
