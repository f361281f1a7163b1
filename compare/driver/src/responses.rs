//! What a signer sends, written by the library too: the fields that fire.rs is given of a packet of
//! kind 2 or 4, and of each kind 2 packet that is nested in kind 3, are handed to the library's
//! writer. It has to write the bytes that came.

use wsts::net::Message;

use crate::{c, faults::Fault, library, packet};

/// How often that was done.
#[derive(Clone, Copy, Debug, Default)]
pub struct Counts {
    /// Of kind 2, and of kind 4.
    pub written: [u64; 2],
    /// Over a limit: 9.
    pub refused: u64,
}

const GUARD: [u8; 8] = [0xA5; 8];

pub struct Responses {
    pub counts: Counts,
    fault: Option<Fault>,
}

impl Responses {
    pub fn new(fault: Option<Fault>) -> Self {
        Responses { counts: Counts::default(), fault }
    }

    /// Looks at a packet that came in. What is not laid out as 01 says has no fields.
    pub fn look(&mut self, b: &[u8]) -> Result<(), String> {
        let Some(message) = packet::laid_out(b) else {
            return Ok(());
        };
        let fits = packet::fits(&message);
        match &message {
            Message::NonceResponse(m) => {
                self.written(b, fits, |out| library::write_nonce_response(out, m))
            }
            Message::SignatureShareResponse(m) => {
                self.written(b, fits, |out| library::write_share_response(out, m))
            }
            Message::SignatureShareRequest(m) => {
                let nested = packet::parts(b).expect("it is laid out");
                for (b, m) in nested[2..].iter().zip(&m.nonce_responses) {
                    let fits = packet::response_fits(m);
                    self.written(b, fits, |out| library::write_nonce_response(out, m))?;
                }
                Ok(())
            }
            _ => Ok(()),
        }
    }

    /// Lends exactly as many bytes as the packet has, and one byte less.
    fn written(
        &mut self,
        wanted: &[u8],
        fits: bool,
        write: impl Fn(&mut [u8]) -> c::Written,
    ) -> Result<(), String> {
        let mut out = vec![GUARD[0]; wanted.len() + GUARD.len()];
        let untouched = out.clone();
        let short = write(&mut out[..wanted.len() - 1]);
        let number = if fits { 26 } else { 9 };
        if short != (c::Written { refusal: number, ..c::Written::default() }) || out != untouched {
            return Err(format!("a signer's packet, a byte too little lent: {short:?}"));
        }
        let given = write(&mut out[..wanted.len()]);
        if !fits {
            self.counts.refused += 1;
            return match (given == short, out == untouched) {
                (true, true) => Ok(()),
                _ => Err(format!("a signer's packet over a limit: {given:?}")),
            };
        }
        self.spoil(&mut out[..wanted.len()]);
        self.counts.written[usize::from(wanted[0] == 4)] += 1;
        let length = wanted.len() as u64;
        if given != (c::Written { length, ..c::Written::default() }) {
            return Err(format!("a signer's packet of {length} bytes: {given:?}"));
        }
        let wanted = [wanted, &GUARD].concat();
        match (0..out.len()).find(|i| out[*i] != wanted[*i]) {
            Some(at) => {
                Err(format!("a signer's packet\n  byte {at} is {}, not {}", out[at], wanted[at]))
            }
            None => Ok(()),
        }
    }

    fn spoil(&self, packet: &mut [u8]) {
        if self.fault.is_some_and(Fault::is_in_responses) {
            packet[packet.len() - 1] ^= 1;
        }
    }
}
