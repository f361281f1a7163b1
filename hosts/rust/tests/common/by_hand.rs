//! Packets by 01's layout, written by hand: what the library's writers are held against. No limit is asked, so that what is refused can
//! be written too.

use roundcabinet::*;

/// Header, pairs, then the parts, each where the last ended.
fn packet(kind: u8, type_byte: u8, signer: SignerId, ids: RoundIds, parts: &[Vec<u8>]) -> Vec<u8> {
    let mut packet = vec![kind, type_byte];
    packet.extend(u16::try_from(parts.len()).unwrap().to_le_bytes());
    packet.extend(signer.0.to_le_bytes());
    for id in [ids.dkg_id, ids.sign_id, ids.iteration] {
        packet.extend(id.to_le_bytes());
    }
    let mut at = 32 + 8 * parts.len();
    for part in parts {
        for number in [at, part.len()] {
            packet.extend(u32::try_from(number).unwrap().to_le_bytes());
        }
        at += part.len();
    }
    parts.iter().for_each(|part| packet.extend(part));
    packet
}

fn type_and_root(signature_type: SignatureType) -> (u8, Vec<u8>) {
    match signature_type {
        SignatureType::Frost => (0, vec![]),
        SignatureType::Schnorr => (1, vec![]),
        SignatureType::Taproot => (2, vec![]),
        SignatureType::TaprootRoot(root) => (3, root.to_vec()),
    }
}

fn key_bytes(keys: &[KeyId]) -> Vec<u8> {
    keys.iter().flat_map(|key| key.0.to_le_bytes()).collect()
}

fn share_bytes(share: &Share) -> Vec<u8> {
    [&share.id.to_le_bytes()[..], &share.z_i, &key_bytes(&share.key_ids)].concat()
}

/// Kind 1.
pub fn nonce_request(request: &NonceRequest) -> Vec<u8> {
    let (byte, root) = type_and_root(request.signature_type);
    packet(1, byte, SignerId(0), request.ids, &[request.message.clone(), root])
}

/// Kind 2.
pub fn nonce_response(response: &NonceResponse) -> Vec<u8> {
    let nonces = response.nonces.iter().flat_map(|nonce| [nonce.d, nonce.e].concat()).collect();
    let parts = [response.message.clone(), key_bytes(&response.key_ids), nonces];
    packet(2, 0, response.signer, response.ids, &parts)
}

/// Kind 3.
pub fn share_request(request: &ShareRequest) -> Vec<u8> {
    let (byte, root) = type_and_root(request.signature_type);
    let mut parts = vec![request.message.clone(), root];
    parts.extend(request.responses.iter().map(nonce_response));
    packet(3, byte, SignerId(0), request.ids, &parts)
}

/// Kind 4.
pub fn share_response(response: &ShareResponse) -> Vec<u8> {
    let parts: Vec<Vec<u8>> = response.shares.iter().map(share_bytes).collect();
    packet(4, 0, response.signer, response.ids, &parts)
}
