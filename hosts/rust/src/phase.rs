//! The fifteen states of the coordinator. They are called phases here: the state is what a host saves.

use crate::signature::SignatureType;

/// A state that the coordinator may be in, as fire.rs names them. Rounds are signed in the last four.
#[derive(Clone, Copy, Debug, PartialEq, Eq, Hash)]
pub enum Phase {
    /// Between rounds.
    Idle,
    /// Key generation, which is the host's own.
    DkgPublicDistribute,
    /// Key generation, which is the host's own.
    DkgPublicGather,
    /// Key generation, which is the host's own.
    DkgPublicSharesDoneDistribute,
    /// Key generation, which is the host's own.
    DkgPublicSharesDoneGather,
    /// Key generation, which is the host's own.
    DkgPrivateDistribute,
    /// Key generation, which is the host's own.
    DkgPrivateGather,
    /// Key generation, which is the host's own.
    DkgPrivateSharesDoneDistribute,
    /// Key generation, which is the host's own.
    DkgPrivateSharesDoneGather,
    /// Key generation, which is the host's own.
    DkgEndDistribute,
    /// Key generation, which is the host's own.
    DkgEndGather,
    /// About to ask for nonces. Before a start ask [`is_idle`](crate::Coordinator::is_idle), not for this phase: it may be moved to from
    /// SigShareGather of the same type too, and a start there takes the place of the round in hand.
    NonceRequest(SignatureType),
    /// Nonces are gathered.
    NonceGather(SignatureType),
    /// About to ask for shares.
    SigShareRequest(SignatureType),
    /// Shares are gathered.
    SigShareGather(SignatureType),
}

impl Phase {
    /// Its number, 0 to 14.
    pub(crate) fn number(self) -> u8 {
        match self {
            Phase::Idle => 0,
            Phase::DkgPublicDistribute => 1,
            Phase::DkgPublicGather => 2,
            Phase::DkgPublicSharesDoneDistribute => 3,
            Phase::DkgPublicSharesDoneGather => 4,
            Phase::DkgPrivateDistribute => 5,
            Phase::DkgPrivateGather => 6,
            Phase::DkgPrivateSharesDoneDistribute => 7,
            Phase::DkgPrivateSharesDoneGather => 8,
            Phase::DkgEndDistribute => 9,
            Phase::DkgEndGather => 10,
            Phase::NonceRequest(_) => 11,
            Phase::NonceGather(_) => 12,
            Phase::SigShareRequest(_) => 13,
            Phase::SigShareGather(_) => 14,
        }
    }

    /// Its signature type; Frost where it has none, which the library then does not read.
    pub(crate) fn signature_type(self) -> SignatureType {
        match self {
            Phase::NonceRequest(t) | Phase::NonceGather(t) | Phase::SigShareRequest(t) | Phase::SigShareGather(t) => t,
            _ => SignatureType::Frost,
        }
    }
}

#[cfg(test)]
mod tests {
    use super::*;

    /// In the order of the Rust's enum, which is the header's.
    #[test]
    fn numbers_are_in_the_rusts_order() {
        let frost = SignatureType::Frost;
        let all = [
            Phase::Idle,
            Phase::DkgPublicDistribute,
            Phase::DkgPublicGather,
            Phase::DkgPublicSharesDoneDistribute,
            Phase::DkgPublicSharesDoneGather,
            Phase::DkgPrivateDistribute,
            Phase::DkgPrivateGather,
            Phase::DkgPrivateSharesDoneDistribute,
            Phase::DkgPrivateSharesDoneGather,
            Phase::DkgEndDistribute,
            Phase::DkgEndGather,
            Phase::NonceRequest(frost),
            Phase::NonceGather(frost),
            Phase::SigShareRequest(frost),
            Phase::SigShareGather(frost),
        ];
        assert!(all.iter().map(|phase| phase.number()).eq(0..15));
    }
}
