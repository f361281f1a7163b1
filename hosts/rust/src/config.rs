//! What a coordinator is commissioned with.

use crate::ffi::{RcConfig, RcSigner, RcTimeout, KEY_PLACES, SIGNER_PLACES};
use crate::ids::{KeyId, SignerId};
use std::time::Duration;

/// How long signers have, or no limit. It fires where *more* than that has elapsed.
///
/// ```
/// use roundcabinet::Timeout;
/// use std::time::Duration;
/// assert_eq!(Timeout::from(Duration::from_micros(5)), Timeout::nanoseconds(5000));
/// assert_eq!(Timeout::from(None), Timeout::NEVER);
/// ```
#[derive(Clone, Copy, Debug, Default, PartialEq, Eq)]
pub struct Timeout(Option<u64>);

impl Timeout {
    /// No limit.
    pub const NEVER: Timeout = Timeout(None);

    /// A limit in nanoseconds.
    pub const fn nanoseconds(nanoseconds: u64) -> Timeout {
        Timeout(Some(nanoseconds))
    }

    fn plain(self) -> RcTimeout {
        RcTimeout { given: u64::from(self.0.is_some()), nanoseconds: self.0.unwrap_or(0) }
    }
}

impl From<Duration> for Timeout {
    /// More nanoseconds than a clock reading can have never elapse, and the largest number doesn't either.
    fn from(limit: Duration) -> Timeout {
        Timeout(Some(u64::try_from(limit.as_nanos()).unwrap_or(u64::MAX)))
    }
}

impl From<Option<Duration>> for Timeout {
    fn from(limit: Option<Duration>) -> Timeout {
        limit.map_or(Timeout::NEVER, Timeout::from)
    }
}

/// A signer that the coordinator knows.
#[derive(Clone, Debug, PartialEq, Eq)]
pub struct Signer {
    /// Its number.
    pub id: SignerId,
    /// Its key set. A signer without one (which is not the same as an empty one) is never heard.
    pub keys: Option<Vec<KeyId>>,
}

impl Signer {
    /// A signer with a key set, in any order.
    pub fn new(id: SignerId, keys: impl IntoIterator<Item = KeyId>) -> Signer {
        Signer { id, keys: Some(keys.into_iter().collect()) }
    }

    /// A signer that is configured and has no key set.
    pub fn without_keys(id: SignerId) -> Signer {
        Signer { id, keys: None }
    }

    /// Keys beyond the array's places are left out, but counted: 17 and more are refused alike.
    fn plain(&self) -> RcSigner {
        let keys = self.keys.as_deref().unwrap_or_default();
        let mut places = [0; KEY_PLACES];
        for (place, key) in places.iter_mut().zip(keys) {
            *place = key.0;
        }
        RcSigner {
            id: self.id.0,
            has_keys: u32::from(self.keys.is_some()),
            key_count: keys.len() as u64,
            keys: places,
            reserved: 0,
        }
    }
}

/// A coordinator's configuration. It can say what is refused: any number of signers, any number of keys.
///
/// ```
/// use roundcabinet::{Config, Coordinator, KeyId, Refusal, Signer, SignerId, Timeout};
/// use std::time::Duration;
///
/// let config = Config::new(2, 3, 2)
///     .sign_threshold(3)
///     .nonce_timeout(Duration::from_secs(30))
///     .sign_timeout(Timeout::nanoseconds(5_000_000))
///     .signer(Signer::new(SignerId(0), [KeyId(1)]))
///     .signer(Signer::new(SignerId(1), [KeyId(2), KeyId(3)]));
/// assert!(Coordinator::commission(&config).is_ok());
///
/// let twice = config.clone().signer(Signer::without_keys(SignerId(1)));
/// assert_eq!(Coordinator::commission(&twice).unwrap_err(), Refusal::Signers);
/// let key_twice = Config::new(1, 3, 2).signer(Signer::new(SignerId(0), [KeyId(1), KeyId(1)]));
/// assert_eq!(Coordinator::commission(&key_twice).unwrap_err(), Refusal::Keys);
/// let too_many = config.signer(Signer::new(SignerId(2), [KeyId(4)]));
/// assert_eq!(Coordinator::commission(&too_many).unwrap_err(), Refusal::Total);
/// ```
#[derive(Clone, Debug, PartialEq, Eq)]
pub struct Config {
    /// How many signers there are. Read in key generation alone.
    pub num_signers: u32,
    /// How many keys there are; at least as many as the key sets have.
    pub num_keys: u32,
    /// Limits exclusion: a share timeout retries while the keys of the signers left are at least that many.
    pub threshold: u32,
    /// Read in key generation alone.
    pub dkg_threshold: u32,
    /// Ends nonce gathering: so many different keys have answered one message.
    pub sign_threshold: u32,
    /// Whether packets need a seal that the host finds good.
    pub verify_packet_sigs: bool,
    /// Read in key generation alone.
    pub dkg_public_timeout: Timeout,
    /// Read in key generation alone.
    pub dkg_private_timeout: Timeout,
    /// Read in key generation alone.
    pub dkg_end_timeout: Timeout,
    /// How long signers have for nonces.
    pub nonce_timeout: Timeout,
    /// How long signers have for shares.
    pub sign_timeout: Timeout,
    /// The signers, in any order.
    pub signers: Vec<Signer>,
}

impl Config {
    /// A configuration as fire.rs makes it: `dkg_threshold` is `num_keys`, `sign_threshold` is `threshold`, seals are verified, there
    /// are no timeouts; and no signers yet.
    pub fn new(num_signers: u32, num_keys: u32, threshold: u32) -> Config {
        Config {
            num_signers,
            num_keys,
            threshold,
            dkg_threshold: num_keys,
            sign_threshold: threshold,
            verify_packet_sigs: true,
            dkg_public_timeout: Timeout::NEVER,
            dkg_private_timeout: Timeout::NEVER,
            dkg_end_timeout: Timeout::NEVER,
            nonce_timeout: Timeout::NEVER,
            sign_timeout: Timeout::NEVER,
            signers: Vec::new(),
        }
    }

    /// The same, one signer more.
    pub fn signer(mut self, signer: Signer) -> Config {
        self.signers.push(signer);
        self
    }

    /// The same, with another key generation threshold.
    pub fn dkg_threshold(mut self, keys: u32) -> Config {
        self.dkg_threshold = keys;
        self
    }

    /// The same, with another number of keys that ends nonce gathering.
    pub fn sign_threshold(mut self, keys: u32) -> Config {
        self.sign_threshold = keys;
        self
    }

    /// The same, with seals verified or not.
    pub fn verify_packet_sigs(mut self, verify: bool) -> Config {
        self.verify_packet_sigs = verify;
        self
    }

    /// The same, with another timeout of key generation's public shares.
    pub fn dkg_public_timeout(mut self, limit: impl Into<Timeout>) -> Config {
        self.dkg_public_timeout = limit.into();
        self
    }

    /// The same, with another timeout of key generation's private shares.
    pub fn dkg_private_timeout(mut self, limit: impl Into<Timeout>) -> Config {
        self.dkg_private_timeout = limit.into();
        self
    }

    /// The same, with another timeout of key generation's end.
    pub fn dkg_end_timeout(mut self, limit: impl Into<Timeout>) -> Config {
        self.dkg_end_timeout = limit.into();
        self
    }

    /// The same, with another time for nonces.
    pub fn nonce_timeout(mut self, limit: impl Into<Timeout>) -> Config {
        self.nonce_timeout = limit.into();
        self
    }

    /// The same, with another time for shares.
    pub fn sign_timeout(mut self, limit: impl Into<Timeout>) -> Config {
        self.sign_timeout = limit.into();
        self
    }

    /// Signers beyond the array's places are left out, but counted: 11 and more are refused alike.
    pub(crate) fn plain(&self) -> RcConfig {
        let mut signers = [RcSigner::default(); SIGNER_PLACES];
        for (place, signer) in signers.iter_mut().zip(&self.signers) {
            *place = signer.plain();
        }
        RcConfig {
            num_signers: self.num_signers,
            num_keys: self.num_keys,
            threshold: self.threshold,
            dkg_threshold: self.dkg_threshold,
            sign_threshold: self.sign_threshold,
            verify_packet_sigs: u32::from(self.verify_packet_sigs),
            dkg_public_timeout: self.dkg_public_timeout.plain(),
            dkg_private_timeout: self.dkg_private_timeout.plain(),
            dkg_end_timeout: self.dkg_end_timeout.plain(),
            nonce_timeout: self.nonce_timeout.plain(),
            sign_timeout: self.sign_timeout.plain(),
            signer_count: self.signers.len() as u64,
            signers,
        }
    }
}

#[cfg(test)]
mod tests {
    use super::*;

    #[test]
    fn each_number_stands_in_its_own_place() {
        let config = Config::new(1, 2, 3)
            .dkg_threshold(4)
            .sign_threshold(5)
            .dkg_public_timeout(Timeout::nanoseconds(11))
            .dkg_private_timeout(Timeout::nanoseconds(12))
            .dkg_end_timeout(Timeout::nanoseconds(13))
            .nonce_timeout(Timeout::nanoseconds(0))
            .sign_timeout(Duration::MAX)
            .signer(Signer::new(SignerId(21), [KeyId(31), KeyId(32)]))
            .signer(Signer::without_keys(SignerId(22)));
        let c = config.plain();
        assert_eq!([c.num_signers, c.num_keys, c.threshold, c.dkg_threshold, c.sign_threshold], [1, 2, 3, 4, 5]);
        assert_eq!((c.verify_packet_sigs, config.verify_packet_sigs(false).plain().verify_packet_sigs), (1, 0));
        let given = [c.dkg_public_timeout, c.dkg_private_timeout, c.dkg_end_timeout, c.nonce_timeout, c.sign_timeout];
        assert_eq!(given.map(|t| (t.given, t.nanoseconds)), [(1, 11), (1, 12), (1, 13), (1, 0), (1, u64::MAX)]);
        assert_eq!(Timeout::NEVER.plain(), RcTimeout::default());
        let [first, second, ..] = c.signers;
        assert_eq!((c.signer_count, first.id, first.has_keys, first.key_count), (2, 21, 1, 2));
        assert_eq!((&first.keys[..3], second.id, second.has_keys, second.key_count), (&[31, 32, 0][..], 22, 0, 0));
    }

    #[test]
    fn what_has_no_place_is_counted() {
        let signer = Signer::new(SignerId(0), (0..40).map(KeyId)).plain();
        assert_eq!((signer.key_count, signer.keys[16]), (40, 16));
        let config = Config { signers: vec![Signer::without_keys(SignerId(9)); 40], ..Config::new(0, 0, 0) };
        assert_eq!(config.plain().signer_count, 40);
    }
}
