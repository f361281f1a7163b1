//! The mark beside a job, round by round: whole is yes exactly when every responder's shares are
//! held and no key id occurs twice in the job's joined list. fire.rs has no mark; all else of these
//! rounds is compared with it.

mod common;
use common::*;
use compare::{
    calls::{Answer, Commission},
    mark::key_ids,
};

type Lists<'a> = [&'a [u32]; 2];

/// Signers 0 and 1 with these key sets answer with these lists and share for these keys. Gives the
/// job's key ids and the library's mark.
fn ended(sets: Lists, lists: Lists, shared: Lists) -> (Vec<u32>, u64) {
    let signers = [0, 1].map(|i| (i, Some(sets[i as usize].to_vec()))).to_vec();
    let mut all = sets.concat();
    all.sort();
    all.dedup();
    let sign_threshold = all.len() as u32;
    let mut r = Round::new(Commission { num_signers: 2, sign_threshold, signers, ..worked() });
    assert_kind(&r.start(b"m"), 1);
    assert_eq!(r.respond(0, lists[0], b"m"), Answer::Nothing);
    assert_kind(&r.respond(1, lists[1], b"m"), 3);
    assert_eq!(r.share(0, shared[0]), Answer::Nothing);
    let Answer::Job { bytes, .. } = r.share(1, shared[1]) else { panic!("a job") };
    (key_ids(&bytes), r.both.mark)
}

#[test]
fn a_list_that_names_a_key_twice() {
    let sets: Lists = [&[1], &[2, 3]];
    assert_eq!(ended(sets, [&[1], &[3, 2, 3]], sets), (vec![1, 3, 2, 3], 0));
    assert_eq!(ended(sets, sets, sets), (vec![1, 2, 3], 1));
}

#[test]
fn a_key_of_two_signers() {
    let sets: Lists = [&[1, 2], &[2, 3]];
    assert_eq!(ended(sets, sets, sets), (vec![1, 2, 2, 3], 0));
}

#[test]
fn the_lists_of_the_shares_do_not_count() {
    let sets: Lists = [&[1], &[2, 3]];
    assert_eq!(ended(sets, sets, [&[1], &[3, 2, 3]]), (vec![1, 2, 3], 1));
}

#[test]
fn a_signer_without_a_key() {
    let sets: Lists = [&[], &[2, 3]];
    assert_eq!(ended(sets, sets, sets), (vec![2, 3], 1));
}

#[test]
fn different_keys_that_end_in_the_same_byte() {
    let sets: Lists = [&[1], &[257, 1 << 24 | 1]];
    assert_eq!(ended(sets, sets, sets), (vec![1, 257, 1 << 24 | 1], 1));
    assert_eq!(ended(sets, [&[1], &[257, 1 << 24 | 1, 257]], sets).1, 0);
}

#[test]
fn shares_that_are_missing() {
    let mut r = Round::gathering_shares(worked());
    assert_refused(&r.share(1, &[2]), 22, &[1]);
    let Answer::Job { bytes, .. } = r.share(0, &[1]) else { panic!("a job") };
    assert_eq!((key_ids(&bytes), r.both.mark), (vec![1, 2, 3], 0));
}
