//! Configurations.

use super::Temper;
use crate::{calls::Commission, rng::Rng};

type Signers = Vec<(u32, Option<Vec<u32>>)>;

fn signers(r: &mut Rng) -> Signers {
    let count = *r.pick(&[0, 1, 2, 3, 3, 3, 4, 4, 5, 6, 10]);
    let mut ids: Vec<u32> = (0..12).collect();
    if r.percent(10) {
        ids.extend([u32::MAX, u32::MAX - 1, 1 << 31, r.draw() as u32 | 1 << 30]);
    }
    r.shuffle(&mut ids);
    let spread = r.within(2, 20) as u32;
    let first: u32 = *r.pick(&[0, 1, 1, 1, u32::MAX - 40]);
    // 256: different keys whose numbers end in the same byte
    let apart = *r.pick(&[1, 1, 1, 1, 256]);
    let mut signers = Vec::new();
    for id in ids.into_iter().take(count) {
        let size = *r.pick(&[0, 1, 1, 1, 2, 2, 2, 3, 3, 4, 16]);
        let mut keys: Vec<u32> =
            (0..spread.max(size as u32)).map(|k| first.wrapping_add(apart * k)).collect();
        r.shuffle(&mut keys);
        keys.truncate(size);
        signers.push((id, if r.percent(8) { None } else { Some(keys) }));
    }
    signers
}

fn large_signers() -> Signers {
    (0..10).map(|i| (i, Some((16 * i + 1..=16 * i + 16).collect()))).collect()
}

fn timeout(r: &mut Rng) -> Option<u64> {
    match r.weighted(&[15, 5, 5, 35, 35, 5]) {
        0 => None,
        1 => Some(0),
        2 => Some(1),
        3 => Some(10),
        4 => Some(r.within(2, 1_000) as u64),
        _ => Some(*r.pick(&[u64::MAX, 1_000_000_007, 1 << 40])),
    }
}

/// Thresholds around what the key sets allow: distinct keys end gathering, the sum of set sizes
/// limits exclusion.
pub fn any(r: &mut Rng, temper: &Temper) -> Commission {
    let signers = if temper.large { large_signers() } else { signers(r) };
    let mut keys: Vec<u32> =
        signers.iter().filter_map(|s| s.1.as_ref()).flatten().copied().collect();
    let total = keys.len();
    keys.sort();
    keys.dedup();
    let distinct = keys.len();
    let num_keys = match r.weighted(&[70, 27, 3]) {
        0 => total as u32,
        1 => (total + r.within(1, 4)) as u32,
        _ => u32::MAX,
    };
    let sign_threshold = match r.weighted(&[80, 8, 8, 4]) {
        _ if temper.large => distinct as u32,
        0 => r.within(distinct.min(1), distinct) as u32,
        1 => distinct as u32,
        2 => 0,
        _ => *r.pick(&[distinct as u32 + 1, u32::MAX]),
    };
    let threshold = match r.weighted(&[60, 20, 10, 5, 5]) {
        0 => num_keys - r.within(0, total.min(8)) as u32,
        1 => sign_threshold,
        2 => 0,
        3 => num_keys.saturating_add(1),
        _ => r.draw() as u32,
    };
    Commission {
        num_signers: signers.len() as u32,
        num_keys,
        threshold,
        dkg_threshold: num_keys,
        sign_threshold,
        nonce_timeout: timeout(r),
        sign_timeout: timeout(r),
        verify_packet_sigs: r.percent(50),
        signers,
    }
}
