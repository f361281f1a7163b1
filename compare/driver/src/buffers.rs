//! A buffer that is lent to the library, between guards that must stay as they are.

const GUARD: usize = 64;
const GUARD_BYTE: u8 = 0xA5;

pub struct Buffer {
    bytes: Vec<u8>,
    length: usize,
    lent: usize,
}

impl Buffer {
    /// `length` bytes, of which `lent` are lent: more, where the guard after them is lent too.
    pub fn new(length: usize, lent: usize) -> Self {
        assert!(lent >= length && lent <= length + GUARD);
        let mut bytes = vec![GUARD_BYTE; length + 2 * GUARD];
        bytes[GUARD..GUARD + length].fill(0);
        Buffer { bytes, length, lent }
    }

    pub fn pointer(&mut self) -> *mut u8 {
        self.bytes[GUARD..].as_mut_ptr()
    }

    /// For a call that only reads.
    pub fn start(&self) -> *const u8 {
        self.bytes[GUARD..].as_ptr()
    }

    pub fn lent(&self) -> usize {
        self.lent
    }

    pub fn bytes(&self) -> &[u8] {
        &self.bytes[GUARD..GUARD + self.length]
    }

    pub fn bytes_mut(&mut self) -> &mut [u8] {
        &mut self.bytes[GUARD..GUARD + self.length]
    }

    pub fn guards_stay(&self) -> bool {
        let (before, after) = (&self.bytes[..GUARD], &self.bytes[GUARD + self.length..]);
        *before == [GUARD_BYTE; GUARD] && *after == [GUARD_BYTE; GUARD]
    }

    /// Whether all that is lent is zero; the lent part of the guard is then mended.
    pub fn zeroed(&mut self) -> bool {
        let lent = &mut self.bytes[GUARD..GUARD + self.lent];
        let zero = lent.iter().all(|b| *b == 0);
        lent[self.length..].fill(GUARD_BYTE);
        zero
    }
}
