//! The library's packet reader: the kinds that signers and coordinators send one another (1 to 7).

use crate::ffi;
use crate::ids::{RoundIds, SignerId};
use crate::refusal::Refusal;
use crate::signature::SignatureType;
use std::fmt;

/// What a packet is. Whose seal it bears: [`is_signer_kind`](Kind::is_signer_kind).
#[derive(Clone, Copy, Debug, PartialEq, Eq, Hash)]
pub enum Kind {
    /// 1: a coordinator asks for nonces.
    NonceRequest,
    /// 2: a signer sends nonces.
    NonceResponse,
    /// 3: a coordinator asks for shares.
    ShareRequest,
    /// 4: a signer sends shares.
    ShareResponse,
    /// 5: key generation begins.
    DkgBegin,
    /// 6: another message of key generation, a signer's.
    DkgSigner,
    /// 7: another message of key generation, a coordinator's.
    DkgCoordinator,
}

impl Kind {
    /// The kind's number in a packet.
    pub fn number(self) -> u8 {
        match self {
            Kind::NonceRequest => 1,
            Kind::NonceResponse => 2,
            Kind::ShareRequest => 3,
            Kind::ShareResponse => 4,
            Kind::DkgBegin => 5,
            Kind::DkgSigner => 6,
            Kind::DkgCoordinator => 7,
        }
    }

    /// Whether a signer's key tests its seal, that of the signer that the packet names, or the coordinator's: net.rs, `Packet::verify`.
    pub fn is_signer_kind(self) -> bool {
        match self {
            Kind::NonceRequest => false,
            Kind::NonceResponse => true,
            Kind::ShareRequest => false,
            Kind::ShareResponse => true,
            Kind::DkgBegin => false,
            Kind::DkgSigner => true,
            Kind::DkgCoordinator => false,
        }
    }

    fn of(number: u32) -> Option<Kind> {
        match number {
            1 => Some(Kind::NonceRequest),
            2 => Some(Kind::NonceResponse),
            3 => Some(Kind::ShareRequest),
            4 => Some(Kind::ShareResponse),
            5 => Some(Kind::DkgBegin),
            6 => Some(Kind::DkgSigner),
            7 => Some(Kind::DkgCoordinator),
            _ => None,
        }
    }
}

impl fmt::Display for Kind {
    /// The header's words, `rc_kind_text`.
    fn fmt(&self, f: &mut fmt::Formatter<'_>) -> fmt::Result {
        f.pad(match self {
            Kind::NonceRequest => "nonce request",
            Kind::NonceResponse => "nonce response",
            Kind::ShareRequest => "share request",
            Kind::ShareResponse => "share response",
            Kind::DkgBegin => "key generation begins",
            Kind::DkgSigner => "key generation, a signer's",
            Kind::DkgCoordinator => "key generation, a coordinator's",
        })
    }
}

/// A packet's header. What a kind lacks is 0.
#[derive(Clone, Copy, Debug, PartialEq, Eq)]
pub struct Header {
    /// What the packet is.
    pub kind: Kind,
    /// The type that its byte and the root part say; Frost for kinds that have none.
    pub signature_type: SignatureType,
    /// The signer that sent it.
    pub signer: SignerId,
    /// The round that it belongs to.
    pub ids: RoundIds,
    /// How many parts it has.
    pub parts: u16,
}

/// A packet that the library has read: questions 8 and 9 are answered yes. Its contents, typed: [`Contents`](crate::Contents).
///
/// ```
/// use roundcabinet::{write, Kind, Packet, Refusal, RoundIds, SignatureType};
/// let ids = RoundIds { dkg_id: 7, sign_id: 1, iteration: 1 };
/// let bytes = write::nonce_request(write::Head { ids, signature_type: SignatureType::Schnorr, message: b"pay" })?;
///
/// let packet = Packet::read(&bytes)?;
/// assert_eq!((packet.kind(), packet.header().ids), (Kind::NonceRequest, ids));
/// assert_eq!(packet.parts().collect::<Vec<_>>(), [&b"pay"[..], b""]);
/// assert_eq!(packet.part(2), None);
/// assert_eq!(Packet::read(&bytes[1..]).unwrap_err(), Refusal::Layout);
/// # Ok::<(), Refusal>(())
/// ```
#[derive(Clone, Copy, Debug, PartialEq, Eq)]
pub struct Packet<'a> {
    bytes: &'a [u8],
    header: Header,
}

impl<'a> Packet<'a> {
    /// Reads a packet, from whomever. Refused with 8 or 9. Needs no coordinator.
    pub fn read(bytes: &'a [u8]) -> Result<Packet<'a>, Refusal> {
        let found = ffi::read_packet(bytes);
        if found.refusal != 0 {
            return Err(Refusal::of_number(found.refusal).unwrap_or(Refusal::Layout));
        }
        Ok(Packet { bytes, header: header(bytes, found).ok_or(Refusal::Layout)? })
    }

    /// What the packet is.
    pub fn kind(&self) -> Kind {
        self.header.kind
    }

    /// Its header.
    pub fn header(&self) -> Header {
        self.header
    }

    /// All its bytes.
    pub fn bytes(&self) -> &'a [u8] {
        self.bytes
    }

    /// Part `i`, from 0, or none where there are not so many.
    pub fn part(&self, i: u16) -> Option<&'a [u8]> {
        (i < self.header.parts).then(|| part(self.bytes, i))
    }

    /// Its parts, in order.
    pub fn parts(&self) -> impl Iterator<Item = &'a [u8]> + use<'a> {
        let bytes = self.bytes;
        (0..self.header.parts).map(move |i| part(bytes, i))
    }
}

/// A part that the library has found, always inside the packet; of no bytes where there is none.
fn part(bytes: &[u8], i: u16) -> &[u8] {
    let place = ffi::packet_part(bytes, i);
    let (at, length) = (place.at as usize, place.length as usize);
    &bytes[at..at + length]
}

/// A header of the library. None where it is of no kind and no type that this crate knows.
fn header(bytes: &[u8], found: ffi::RcPacket) -> Option<Header> {
    let kind = Kind::of(found.kind)?;
    let root = match kind {
        Kind::NonceRequest | Kind::ShareRequest => part(bytes, 1),
        _ => &[],
    };
    Some(Header {
        kind,
        signature_type: SignatureType::of(found.signature_type.try_into().ok()?, root)?,
        signer: SignerId(found.signer_id),
        ids: RoundIds { dkg_id: found.dkg_id, sign_id: found.sign_id, iteration: found.sign_iter_id },
        parts: found.pairs.try_into().ok()?,
    })
}
