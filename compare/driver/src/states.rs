//! States by their number in the order of the Rust's enum.

use wsts::state_machine::coordinator::State;

use crate::signature_type::SigType;

pub const IDLE: u8 = 0;
pub const NONCE_GATHER: u8 = 12;
pub const SIG_SHARE_GATHER: u8 = 14;

/// The Rust's state of this number; the type counts only from 11 on.
pub fn to_rust(number: u8, t: SigType) -> State {
    let t = t.to_rust();
    match number {
        0 => State::Idle,
        1 => State::DkgPublicDistribute,
        2 => State::DkgPublicGather,
        3 => State::DkgPublicSharesDoneDistribute,
        4 => State::DkgPublicSharesDoneGather,
        5 => State::DkgPrivateDistribute,
        6 => State::DkgPrivateGather,
        7 => State::DkgPrivateSharesDoneDistribute,
        8 => State::DkgPrivateSharesDoneGather,
        9 => State::DkgEndDistribute,
        10 => State::DkgEndGather,
        11 => State::NonceRequest(t),
        12 => State::NonceGather(t),
        13 => State::SigShareRequest(t),
        14 => State::SigShareGather(t),
        _ => panic!("no state {number}"),
    }
}

/// Number and type of a state; the type is all zero where the state has none.
pub fn from_rust(s: &State) -> (u8, SigType) {
    let none = SigType::default();
    match s {
        State::Idle => (0, none),
        State::DkgPublicDistribute => (1, none),
        State::DkgPublicGather => (2, none),
        State::DkgPublicSharesDoneDistribute => (3, none),
        State::DkgPublicSharesDoneGather => (4, none),
        State::DkgPrivateDistribute => (5, none),
        State::DkgPrivateGather => (6, none),
        State::DkgPrivateSharesDoneDistribute => (7, none),
        State::DkgPrivateSharesDoneGather => (8, none),
        State::DkgEndDistribute => (9, none),
        State::DkgEndGather => (10, none),
        State::NonceRequest(t) => (11, SigType::from_rust(*t)),
        State::NonceGather(t) => (12, SigType::from_rust(*t)),
        State::SigShareRequest(t) => (13, SigType::from_rust(*t)),
        State::SigShareGather(t) => (14, SigType::from_rust(*t)),
    }
}
