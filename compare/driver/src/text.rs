//! Calls, answers and fields as lines of text. README.md has the form.

use std::fmt::Write;

use crate::{
    calls::{Answer, Call, Commission, Inbound, Outcome, Step},
    fields::{Fields, Record, Share},
    library::Surplus,
    probes::Probe,
    signature_type::SigType,
};

/// `x` and then two digits a byte.
pub fn hex(bytes: &[u8]) -> String {
    let mut out = String::with_capacity(1 + 2 * bytes.len());
    out.push('x');
    for b in bytes {
        write!(out, "{b:02x}").unwrap();
    }
    out
}

fn list<T: ToString>(items: &[T]) -> String {
    joined(items.iter().map(T::to_string).collect(), ",")
}

fn joined(items: Vec<String>, by: &str) -> String {
    if items.is_empty() {
        "-".into()
    } else {
        items.join(by)
    }
}

fn option(n: Option<u64>) -> String {
    n.map_or("none".into(), |n| n.to_string())
}

fn type_and_root(t: &SigType) -> String {
    format!("type={} root={}", t.code, hex(t.root_part()))
}

fn commission(c: &Commission) -> String {
    let signer = |(id, keys): &(u32, Option<Vec<u32>>)| {
        format!("{id}:{}", keys.as_ref().map_or("none".into(), |k| list(k)))
    };
    format!(
        "commission num_signers={} num_keys={} threshold={} dkg_threshold={} sign_threshold={} \
         nonce_timeout={} sign_timeout={} verify={} signers={}",
        c.num_signers,
        c.num_keys,
        c.threshold,
        c.dkg_threshold,
        c.sign_threshold,
        option(c.nonce_timeout),
        option(c.sign_timeout),
        c.verify_packet_sigs as u8,
        joined(c.signers.iter().map(signer).collect(), ";"),
    )
}

fn inbound(name: &str, i: &Inbound) -> String {
    let (packet, verdict, agg_ok) = (hex(&i.packet), i.verdict as u8, i.agg_ok as u8);
    format!("{name} packet={packet} verdict={verdict} agg_ok={agg_ok}")
}

pub fn call(c: &Call) -> String {
    match c {
        Call::Commission(c) => commission(c),
        Call::SetGroupKey(held) => format!("group_key held={}", *held as u8),
        Call::SetCoordinatorKey(held) => format!("coordinator_key held={}", *held as u8),
        Call::DkgResults { dkg_id, ended } => {
            format!("dkg_results dkg_id={dkg_id} ended={}", list(ended))
        }
        Call::Start { message, signature_type, sign_id } => {
            let (message, t) = (hex(message), type_and_root(signature_type));
            format!("start message={message} {t} sign_id={}", option(*sign_id))
        }
        Call::Process(i) => inbound("process", i),
        Call::ProcessTimeout => "process_timeout".into(),
        Call::ProcessMessage(i) => inbound("process_message", i),
        Call::Reset => "reset".into(),
        Call::CanMoveTo { state, signature_type } => {
            format!("can_move_to state={state} {}", type_and_root(signature_type))
        }
    }
}

/// How many bytes beyond the needed lengths the library is lent.
pub fn lent(s: Surplus) -> String {
    format!("lent state={} store={} out={}", s.state, s.store, s.out)
}

/// The lines of a step: the call, and the probe after it where there is one.
pub fn step(s: &Step) -> String {
    let call = format!("call {} {}\n", s.now, call(&s.call));
    match s.probe {
        Probe::None => call,
        probe => format!("{call}probe {}\n", probe.name()),
    }
}

pub fn answer(a: &Answer) -> String {
    match a {
        Answer::Nothing => "nothing".into(),
        Answer::Packet(bytes) | Answer::Late(bytes) => format!("packet {}", hex(bytes)),
        Answer::Job { bytes, outcome } => {
            let result = match outcome {
                Outcome::Signed(kind) => ["sign", "schnorr", "taproot"][*kind as usize],
                Outcome::Failed => "23",
            };
            format!("job {} result={result}", hex(bytes))
        }
        Answer::Refused { number, values, .. } => {
            let values: String = values.iter().map(|v| format!(" {v}")).collect();
            format!("refused {number}{values}")
        }
        Answer::Move(yes) => format!("move {}", *yes as u8),
        Answer::Outside(number) => format!("outside {number}"),
    }
}

fn record(message: &[u8], r: &Record) -> String {
    let responses = r.public_nonces.iter().map(|r| {
        let ids = format!("{}:{}:{}:{}", r.signer_id, r.dkg_id, r.sign_id, r.sign_iter_id);
        format!("{ids}:{}:{}", list(&r.key_ids), hex(&r.nonces.concat()))
    });
    format!(
        "{}/{}/{}/{}",
        hex(message),
        joined(responses.collect(), ";"),
        list(&r.sign_wait_signer_ids),
        list(&r.nonce_recv_key_ids)
    )
}

fn share(s: &Share) -> String {
    format!("{}.{}.{}", s.id, hex(&s.z_i), list(&s.key_ids))
}

pub fn fields(f: &Fields) -> String {
    let records = f.message_nonces.iter().map(|(m, r)| record(m, r)).collect();
    let shares = f
        .signature_shares
        .iter()
        .map(|(id, list)| format!("{id}:{}", joined(list.iter().map(share).collect(), ";")));
    format!(
        "state={} {} dkg_id={} sign_id={} iteration={} message={} records={} shares={} \
         struck={} ended={} nonce_start={} sign_start={} group_key={} coordinator_key={}",
        f.state,
        type_and_root(&f.signature_type),
        f.dkg_id,
        f.sign_id,
        f.sign_iter_id,
        hex(&f.message),
        joined(records, "|"),
        joined(shares.collect(), "|"),
        list(&f.malicious_signer_ids),
        list(&f.dkg_end_signer_ids),
        option(f.nonce_start),
        option(f.sign_start),
        f.group_key as u8,
        f.coordinator_key as u8,
    )
}
