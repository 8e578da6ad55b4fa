//! A record as the bytes that its `Hash` gives, which name every field of it.

use std::hash::{Hash, Hasher};

/// Collects what is hashed.
#[derive(Default)]
struct Bytes(Vec<u8>);

impl Hasher for Bytes {
    fn write(&mut self, bytes: &[u8]) {
        self.0.extend_from_slice(bytes);
    }

    fn finish(&self) -> u64 {
        self.0.len() as u64
    }
}

/// The bytes of a record, into `out`.
pub fn collect(record: &impl Hash, out: &mut Vec<u8>) {
    let mut bytes = Bytes(std::mem::take(out));
    bytes.0.clear();
    record.hash(&mut bytes);
    *out = bytes.0;
}

/// Reads a stream back, a value at a time.
pub struct Cursor<'a>(&'a [u8]);

impl<'a> Cursor<'a> {
    /// A cursor at the start of a stream.
    pub fn new(stream: &'a [u8]) -> Self {
        Self(stream)
    }

    /// The next byte.
    pub fn byte(&mut self) -> u8 {
        let (first, rest) = self.0.split_first().expect("a byte is left");
        self.0 = rest;
        *first
    }

    /// The next number of machine size, which is a case of an enum or a length.
    pub fn word(&mut self) -> u8 {
        let (first, rest) = self.0.split_at(size_of::<usize>());
        self.0 = rest;
        usize::from_ne_bytes(first.try_into().expect("a whole word")) as u8
    }

    /// True when nothing is left.
    pub fn is_empty(&self) -> bool {
        self.0.is_empty()
    }
}
