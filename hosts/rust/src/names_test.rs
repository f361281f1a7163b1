//! The header's names for numbers of refusals, kinds and signature types, with what this crate's enums say.

use crate::{ids::SignerId, Job, Kind, Outgoing, Refusal, RoundIds, SignatureType};

fn refusals() -> Vec<(&'static str, Refusal)> {
    let (got, expected) = (1, 2);
    vec![
        ("SIGNERS", Refusal::Signers),
        ("KEYS", Refusal::Keys),
        ("TOTAL", Refusal::Total),
        ("STATE", Refusal::State),
        ("JOB_OUT", Refusal::JobOut),
        ("NO_JOB", Refusal::NoJob),
        ("ROOM", Refusal::Room),
        ("LAYOUT", Refusal::Layout),
        ("LIMIT", Refusal::Limit),
        ("GROUP_KEY", Refusal::GroupKey),
        ("MOVE", Refusal::Move),
        ("NO_RECORD", Refusal::NoRecord),
        ("COORDINATOR_KEY", Refusal::CoordinatorKey),
        ("SEAL", Refusal::Seal),
        ("DKG_BEGIN", Refusal::DkgBegin),
        ("DKG_ID", Refusal::DkgId { got, expected }),
        ("SIGN_ID", Refusal::SignId { got, expected }),
        ("ITERATION", Refusal::Iteration { got, expected }),
        ("MESSAGES", Refusal::Messages),
        ("PUBLIC_KEY", Refusal::PublicKey(SignerId(1))),
        ("NO_KEYS", Refusal::NoKeys(SignerId(1))),
        ("WRONG_KEYS", Refusal::WrongKeys(SignerId(1))),
        ("AGGREGATION", Refusal::Aggregation),
        ("NOT_IDLE", Refusal::NotIdle),
        ("ENDED", Refusal::Ended),
        ("BUFFER", Refusal::Buffer),
    ]
}

const KINDS: [(&str, Kind); 7] = [
    ("RC_KIND_NONCE_REQUEST", Kind::NonceRequest),
    ("RC_KIND_NONCE_RESPONSE", Kind::NonceResponse),
    ("RC_KIND_SHARE_REQUEST", Kind::ShareRequest),
    ("RC_KIND_SHARE_RESPONSE", Kind::ShareResponse),
    ("RC_KIND_DKG_BEGIN", Kind::DkgBegin),
    ("RC_KIND_DKG_SIGNER", Kind::DkgSigner),
    ("RC_KIND_DKG_COORDINATOR", Kind::DkgCoordinator),
];

const TYPES: [(&str, SignatureType); 4] = [
    ("RC_FROST", SignatureType::Frost),
    ("RC_SCHNORR", SignatureType::Schnorr),
    ("RC_TAPROOT", SignatureType::Taproot),
    ("RC_TAPROOT_ROOT", SignatureType::TaprootRoot([0; 32])),
];

/// A C expression for each, and its number here.
pub(crate) fn numbers() -> impl Iterator<Item = (String, usize)> {
    let refusals = refusals().into_iter().map(|(name, r)| (format!("RC_REFUSED_{name}"), r.number() as usize));
    let kinds = KINDS.iter().map(|(name, kind)| (name.to_string(), kind.number().into()));
    let types = TYPES.iter().map(|(name, t)| (name.to_string(), t.byte().into()));
    refusals.chain(kinds).chain(types)
}

/// A C expression of a text, and the words here: every number, every kind.
pub(crate) fn texts() -> Vec<(String, String)> {
    let refusals =
        refusals().into_iter().map(|(name, r)| (format!("rc_text(RC_REFUSED_{name})"), r.text().to_string()));
    let kinds = KINDS.iter().map(|(name, kind)| (format!("rc_kind_text({name})"), kind.to_string()));
    let ids = RoundIds { dkg_id: 0, sign_id: 0, iteration: 0 };
    let (message, key_ids, nonces, shares) = (vec![], vec![], vec![], vec![]);
    let job = Job { ids, signature_type: SignatureType::Frost, message, key_ids, nonces, shares };
    let outgoing = [
        ("JOB", Outgoing::Job(job)),
        ("NONCE_TIMEOUT", Outgoing::NonceTimeout { waiters: vec![], malicious: vec![] }),
        ("INSUFFICIENT_SIGNERS", Outgoing::InsufficientSigners { malicious: vec![] }),
        ("ARRIVALS", Outgoing::Arrivals(vec![])),
    ];
    let outgoing = outgoing.map(|(name, o)| (format!("rc_kind_text(RC_KIND_{name})"), o.to_string()));
    refusals.chain(kinds).chain(outgoing).collect()
}

#[test]
fn a_refusal_is_read_back_from_its_number() {
    for (name, refusal) in refusals() {
        let (first, second) = (1, 2);
        let answer = crate::ffi::RcAnswer { number: refusal.number(), first, second, ..Default::default() };
        assert_eq!(Refusal::of(answer), refusal, "{name}");
    }
}

#[test]
fn each_refusal_has_words_of_its_own() {
    let mut words: Vec<String> = refusals().iter().map(|(_, r)| r.to_string()).collect();
    assert_eq!(words[15], "refused with 16: not the current dkg id (got 1, expected 2)");
    assert_eq!(words[21], "refused with 22: the signer shared for other keys than its own (signer 1)");
    words.sort();
    words.dedup();
    assert_eq!(words.len(), 26);
}
