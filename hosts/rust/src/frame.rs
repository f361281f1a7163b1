//! A packet's frame by 01's layout, read in safe Rust: for what the library's reader does not take, and no signer sends.
//!
//! 32 bytes of header (kind, type, the number of parts in 2 bytes, the signer in 4, three ids in 8 each); for each part its offset and its
//! length in 4; then the parts, one behind the other, to the packet's end.

use crate::ids::RoundIds;

const HEADER: usize = 32;
const PAIR: usize = 8;

pub(crate) struct Frame<'a> {
    pub(crate) kind: u8,
    pub(crate) type_byte: u8,
    pub(crate) ids: RoundIds,
    pub(crate) parts: Vec<&'a [u8]>,
}

fn u32_at(bytes: &[u8], at: usize) -> Option<u32> {
    Some(u32::from_le_bytes(*bytes.get(at..)?.first_chunk()?))
}

fn u64_at(bytes: &[u8], at: usize) -> Option<u64> {
    Some(u64::from_le_bytes(*bytes.get(at..)?.first_chunk()?))
}

/// The parts, which have to lie one behind the other and end the packet.
fn parts_of(bytes: &[u8], count: usize) -> Option<Vec<&[u8]>> {
    let mut parts = Vec::new();
    let mut at = HEADER + PAIR * count;
    for i in 0..count {
        let offset = u32_at(bytes, HEADER + PAIR * i)? as usize;
        let length = u32_at(bytes, HEADER + PAIR * i + 4)? as usize;
        if offset != at {
            return None;
        }
        parts.push(bytes.get(at..at.checked_add(length)?)?);
        at += length;
    }
    (at == bytes.len()).then_some(parts)
}

pub(crate) fn read(bytes: &[u8]) -> Option<Frame<'_>> {
    let count = u16::from_le_bytes(*bytes.get(2..)?.first_chunk()?);
    let ids = RoundIds { dkg_id: u64_at(bytes, 8)?, sign_id: u64_at(bytes, 16)?, iteration: u64_at(bytes, 24)? };
    let parts = parts_of(bytes, count.into())?;
    Some(Frame { kind: bytes[0], type_byte: bytes[1], ids, parts })
}

#[cfg(test)]
mod tests {
    use super::*;

    /// Kind 32, type 3, three parts: two bytes, none and one.
    fn sample() -> Vec<u8> {
        let ids = [7, 1 << 40, u64::MAX].map(u64::to_le_bytes).concat();
        let pairs = [56, 2, 58, 0, 58, 1].map(u32::to_le_bytes).concat();
        [&[32, 3, 3, 0, 0, 0, 0, 0][..], &ids, &pairs, &[1, 2, 3]].concat()
    }

    #[test]
    fn each_field_is_read() {
        let packet = sample();
        let frame = read(&packet).unwrap();
        assert_eq!((frame.kind, frame.type_byte), (32, 3));
        assert_eq!((frame.ids.dkg_id, frame.ids.sign_id, frame.ids.iteration), (7, 1 << 40, u64::MAX));
        assert_eq!(frame.parts, [&[1, 2][..], &[], &[3]]);
    }

    #[test]
    fn no_shorter_and_no_longer_packet_is_read() {
        let packet = sample();
        for length in 0..packet.len() {
            assert!(read(&packet[..length]).is_none(), "{length} bytes");
        }
        assert!(read(&[&packet[..], &[0]].concat()).is_none());
    }

    #[test]
    fn any_other_number_in_the_pairs_is_noticed() {
        for at in HEADER..HEADER + 3 * PAIR {
            let mut packet = sample();
            packet[at] ^= 0x81;
            assert!(read(&packet).is_none(), "byte {at}");
        }
    }
}
