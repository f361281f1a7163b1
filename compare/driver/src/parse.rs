//! Calls from the lines that text.rs makes of them.

use std::str::FromStr;

use crate::{
    calls::{Call, Commission, Inbound, Step},
    library::Surplus,
    probes::{self, Probe},
    signature_type::SigType,
};

fn unhex(text: &str) -> Result<Vec<u8>, String> {
    let bad = || format!("not hex: {text}");
    let digits = text.strip_prefix('x').ok_or_else(bad)?;
    if digits.len() % 2 != 0 || !digits.is_ascii() {
        return Err(bad());
    }
    (0..digits.len() / 2)
        .map(|i| u8::from_str_radix(&digits[2 * i..2 * i + 2], 16).map_err(|_| bad()))
        .collect()
}

fn number<T: FromStr>(text: &str) -> Result<T, String> {
    text.parse().map_err(|_| format!("not a number here: {text}"))
}

fn numbers(text: &str) -> Result<Vec<u32>, String> {
    match text {
        "-" => Ok(Vec::new()),
        t => t.split(',').map(number).collect(),
    }
}

struct Pairs<'a>(Vec<(&'a str, &'a str)>);

impl<'a> Pairs<'a> {
    fn get(&self, name: &str) -> Result<&'a str, String> {
        let found = self.0.iter().find(|p| p.0 == name);
        found.map(|p| p.1).ok_or_else(|| format!("no {name}"))
    }

    fn number<T: FromStr>(&self, name: &str) -> Result<T, String> {
        number(self.get(name)?)
    }

    fn option(&self, name: &str) -> Result<Option<u64>, String> {
        match self.get(name)? {
            "none" => Ok(None),
            n => number(n).map(Some),
        }
    }

    fn flag(&self, name: &str) -> Result<bool, String> {
        Ok(self.number::<u8>(name)? != 0)
    }

    fn signature_type(&self) -> Result<SigType, String> {
        let code: u8 = self.number("type")?;
        let mut root = unhex(self.get("root")?)?;
        root.resize(32, 0);
        if code > 3 {
            return Err("no such type".into());
        }
        Ok(SigType::new(code, root.try_into().unwrap()))
    }

    fn inbound(&self) -> Result<Inbound, String> {
        Ok(Inbound {
            packet: unhex(self.get("packet")?)?,
            verdict: self.flag("verdict")?,
            agg_ok: self.flag("agg_ok")?,
        })
    }
}

fn pairs<'a>(words: impl Iterator<Item = &'a str>) -> Result<Pairs<'a>, String> {
    let pair = |w: &'a str| w.split_once('=').ok_or(format!("not name=value: {w}"));
    Ok(Pairs(words.map(pair).collect::<Result<_, _>>()?))
}

fn signer(text: &str) -> Result<(u32, Option<Vec<u32>>), String> {
    let (id, keys) = text.split_once(':').ok_or("not id:keys")?;
    let keys = match keys {
        "none" => None,
        k => Some(numbers(k)?),
    };
    Ok((number(id)?, keys))
}

fn commission(p: &Pairs) -> Result<Commission, String> {
    let signers = match p.get("signers")? {
        "-" => Vec::new(),
        t => t.split(';').map(signer).collect::<Result<_, _>>()?,
    };
    Ok(Commission {
        num_signers: p.number("num_signers")?,
        num_keys: p.number("num_keys")?,
        threshold: p.number("threshold")?,
        dkg_threshold: p.number("dkg_threshold")?,
        sign_threshold: p.number("sign_threshold")?,
        nonce_timeout: p.option("nonce_timeout")?,
        sign_timeout: p.option("sign_timeout")?,
        verify_packet_sigs: p.flag("verify")?,
        signers,
    })
}

fn call(name: &str, p: &Pairs) -> Result<Call, String> {
    Ok(match name {
        "commission" => Call::Commission(commission(p)?),
        "group_key" => Call::SetGroupKey(p.flag("held")?),
        "coordinator_key" => Call::SetCoordinatorKey(p.flag("held")?),
        "dkg_results" => {
            Call::DkgResults { dkg_id: p.number("dkg_id")?, ended: numbers(p.get("ended")?)? }
        }
        "start" => Call::Start {
            message: unhex(p.get("message")?)?,
            signature_type: p.signature_type()?,
            sign_id: p.option("sign_id")?,
        },
        "process" => Call::Process(p.inbound()?),
        "process_message" => Call::ProcessMessage(p.inbound()?),
        "process_timeout" => Call::ProcessTimeout,
        "reset" => Call::Reset,
        "can_move_to" => match p.number("state")? {
            state @ 0..=14 => Call::CanMoveTo { state, signature_type: p.signature_type()? },
            _ => return Err("no such state".into()),
        },
        other => return Err(format!("unknown call {other}")),
    })
}

fn call_line(line: &str) -> Result<Step, String> {
    let mut words = line.split_whitespace().skip(1);
    let now = number(words.next().ok_or("no clock reading")?)?;
    let name = words.next().ok_or("no call name")?;
    let pairs = pairs(words)?;
    Ok(Step { now, call: call(name, &pairs)?, probe: Probe::None })
}

/// How many bytes beyond the needed lengths were lent: none where the run does not say.
pub fn lent(text: &str) -> Result<Surplus, String> {
    let Some(line) = text.lines().find(|l| l.starts_with("lent ")) else {
        return Ok(Surplus::default());
    };
    let p = pairs(line.split_whitespace().skip(1))?;
    Ok(Surplus { state: p.number("state")?, store: p.number("store")?, out: p.number("out")? })
}

/// The calls of a printed run, with their probes; its other lines are passed over.
pub fn steps(text: &str) -> Result<Vec<Step>, String> {
    let mut steps: Vec<Step> = Vec::new();
    for line in text.lines() {
        if line.starts_with("call ") {
            steps.push(call_line(line).map_err(|e| format!("{e}: {line}"))?);
        } else if let Some(name) = line.strip_prefix("probe ") {
            let found = probes::NAMES.iter().position(|n| *n == name);
            let probe = probes::ALL[found.ok_or(format!("no probe {name}"))?];
            steps.last_mut().ok_or("a probe before any call")?.probe = probe;
        }
    }
    Ok(steps)
}
