//! Stand-in for the curve: opaque bytes, with just enough arithmetic for the published files to
//! compile. No sum or product here means anything.

use serde::{Deserialize, Serialize};

fn hex_of(f: &mut std::fmt::Formatter<'_>, bytes: &[u8]) -> std::fmt::Result {
    f.write_str(&hex::encode(bytes))
}

/// Serialises an array of any length as a byte string (serde has arrays only up to 32), which
/// bincode copies whole, and reads without an allocation.
mod array {
    use serde::{
        de::{Error, Visitor},
        Deserializer, Serializer,
    };

    pub fn serialize<S: Serializer, const N: usize>(a: &[u8; N], s: S) -> Result<S::Ok, S::Error> {
        s.serialize_bytes(a)
    }

    pub fn deserialize<'de, D: Deserializer<'de>, const N: usize>(
        d: D,
    ) -> Result<[u8; N], D::Error> {
        d.deserialize_bytes(Bytes::<N>)
    }

    struct Bytes<const N: usize>;

    impl<'de, const N: usize> Visitor<'de> for Bytes<N> {
        type Value = [u8; N];

        fn expecting(&self, f: &mut std::fmt::Formatter<'_>) -> std::fmt::Result {
            write!(f, "{N} bytes")
        }

        fn visit_bytes<E: Error>(self, bytes: &[u8]) -> Result<[u8; N], E> {
            bytes.try_into().map_err(|_| E::invalid_length(bytes.len(), &self))
        }
    }
}

pub mod field {
    use super::*;

    #[derive(Clone, Copy, Debug, Default, PartialEq, Eq, Serialize, Deserialize)]
    pub struct Element(#[serde(with = "array")] pub [u8; 32]);

    impl Element {
        pub fn to_bytes(&self) -> [u8; 32] {
            self.0
        }
    }

    impl From<[u8; 32]> for Element {
        fn from(bytes: [u8; 32]) -> Self {
            Element(bytes)
        }
    }

    impl std::fmt::Display for Element {
        fn fmt(&self, f: &mut std::fmt::Formatter<'_>) -> std::fmt::Result {
            super::hex_of(f, &self.0)
        }
    }
}

pub mod scalar {
    use super::*;
    use std::ops::{Add, Mul};

    #[derive(Clone, Copy, Debug, Default, PartialEq, Eq, Serialize, Deserialize)]
    pub struct Scalar(#[serde(with = "array")] pub [u8; 32]);

    #[derive(Clone, Debug)]
    pub struct Error;

    impl Scalar {
        pub fn random<R: rand_core::RngCore + rand_core::CryptoRng>(rng: &mut R) -> Self {
            let mut bytes = [0; 32];
            rng.fill_bytes(&mut bytes);
            Scalar(bytes)
        }

        pub fn to_bytes(&self) -> [u8; 32] {
            self.0
        }

        pub fn get_u32(&self) -> u32 {
            u32::from_be_bytes(self.0[28..].try_into().unwrap())
        }
    }

    impl From<u32> for Scalar {
        fn from(n: u32) -> Self {
            let mut bytes = [0; 32];
            bytes[28..].copy_from_slice(&n.to_be_bytes());
            Scalar(bytes)
        }
    }

    impl From<[u8; 32]> for Scalar {
        fn from(bytes: [u8; 32]) -> Self {
            Scalar(bytes)
        }
    }

    impl TryFrom<&[u8]> for Scalar {
        type Error = Error;
        fn try_from(bytes: &[u8]) -> Result<Self, Error> {
            bytes.try_into().map(Scalar).map_err(|_| Error)
        }
    }

    impl std::fmt::Display for Scalar {
        fn fmt(&self, f: &mut std::fmt::Formatter<'_>) -> std::fmt::Result {
            hex_of(f, &self.0)
        }
    }

    impl Add for Scalar {
        type Output = Scalar;
        fn add(self, _: Scalar) -> Scalar {
            self
        }
    }

    impl Mul<&Scalar> for Scalar {
        type Output = Scalar;
        fn mul(self, _: &Scalar) -> Scalar {
            self
        }
    }

    impl Mul<super::point::Point> for Scalar {
        type Output = super::point::Point;
        fn mul(self, p: super::point::Point) -> super::point::Point {
            p
        }
    }

    impl Mul<super::point::Point> for &Scalar {
        type Output = super::point::Point;
        fn mul(self, p: super::point::Point) -> super::point::Point {
            p
        }
    }
}

pub mod point {
    use super::*;
    use std::ops::{Add, AddAssign, Sub};

    /// 33 bytes; the identity is 33 zero bytes.
    #[derive(Clone, Copy, Debug, PartialEq, Eq, Serialize, Deserialize)]
    pub struct Point(#[serde(with = "array")] pub [u8; 33]);

    pub const IDENTITY: Point = Point([0; 33]);

    pub const G: Point = Point([
        0x02, 0x79, 0xBE, 0x66, 0x7E, 0xF9, 0xDC, 0xBB, 0xAC, 0x55, 0xA0, 0x62, 0x95, 0xCE, 0x87,
        0x0B, 0x07, 0x02, 0x9B, 0xFC, 0xDB, 0x2D, 0xCE, 0x28, 0xD9, 0x59, 0xF2, 0x81, 0x5B, 0x16,
        0xF8, 0x17, 0x98,
    ]);

    #[derive(thiserror::Error, Clone, Debug)]
    #[error("point error")]
    pub struct Error;

    pub struct Compressed([u8; 33]);

    impl Compressed {
        pub fn as_bytes(&self) -> &[u8] {
            &self.0
        }
    }

    impl Point {
        pub fn compress(&self) -> Compressed {
            Compressed(self.0)
        }

        pub fn x(&self) -> field::Element {
            field::Element(self.0[1..].try_into().unwrap())
        }

        pub fn has_even_y(&self) -> bool {
            self.0[0] == 2
        }

        pub fn lift_x(x: &field::Element) -> Result<Point, Error> {
            let mut bytes = [2; 33];
            bytes[1..].copy_from_slice(&x.0);
            Ok(Point(bytes))
        }
    }

    impl Default for Point {
        fn default() -> Self {
            IDENTITY
        }
    }

    impl std::fmt::Display for Point {
        fn fmt(&self, f: &mut std::fmt::Formatter<'_>) -> std::fmt::Result {
            hex_of(f, &self.0)
        }
    }

    impl Add for Point {
        type Output = Point;
        fn add(self, _: Point) -> Point {
            self
        }
    }

    impl Add<&Point> for Point {
        type Output = Point;
        fn add(self, _: &Point) -> Point {
            self
        }
    }

    impl AddAssign<&Point> for Point {
        fn add_assign(&mut self, _: &Point) {}
    }

    impl Sub for Point {
        type Output = Point;
        fn sub(self, _: Point) -> Point {
            self
        }
    }
}

pub mod ecdsa {
    use super::scalar::Scalar;
    use serde::{Deserialize, Serialize};

    /// A public key is a name.
    #[derive(Clone, Copy, Debug, PartialEq, Eq, Hash, Serialize, Deserialize)]
    pub struct PublicKey(pub u64);

    impl std::fmt::Display for PublicKey {
        fn fmt(&self, f: &mut std::fmt::Formatter<'_>) -> std::fmt::Result {
            write!(f, "{}", self.0)
        }
    }

    #[derive(thiserror::Error, Clone, Debug)]
    #[error("signature error")]
    pub struct Error;

    /// One byte: 1 is good under every key, 0 is bad under every key.
    pub struct Signature(u8);

    impl Signature {
        pub fn new(_hash: &[u8], _key: &Scalar) -> Result<Self, Error> {
            Ok(Signature(1))
        }

        pub fn to_bytes(&self) -> [u8; 1] {
            [self.0]
        }

        pub fn verify(&self, _hash: &[u8], _key: &PublicKey) -> bool {
            self.0 == 1
        }
    }

    impl TryFrom<&[u8]> for Signature {
        type Error = Error;
        fn try_from(bytes: &[u8]) -> Result<Self, Error> {
            match bytes {
                [b] if *b < 2 => Ok(Signature(*b)),
                _ => Err(Error),
            }
        }
    }
}
