//! In place of the crate `bytes`: a body is handed on without a copy. The count is a plain number, where
//! the real one's is atomic.

use std::ops::{Deref, Range};
use std::rc::Rc;

#[derive(Clone, Debug)]
pub enum Bytes {
    /// A part of a buffer that others hold too.
    Part(Rc<[u8]>, Range<usize>),
    /// Just written, with one owner. No measured step clones it.
    Own(Vec<u8>),
}

impl Bytes {
    /// `part` has to lie in `whole`.
    pub fn part(whole: &Rc<[u8]>, part: &[u8]) -> Bytes {
        let from = part.as_ptr() as usize - whole.as_ptr() as usize;
        Bytes::Part(whole.clone(), from..from + part.len())
    }
}

impl From<Vec<u8>> for Bytes {
    fn from(bytes: Vec<u8>) -> Bytes {
        Bytes::Own(bytes)
    }
}

impl Deref for Bytes {
    type Target = [u8];

    fn deref(&self) -> &[u8] {
        match self {
            Bytes::Part(whole, range) => &whole[range.clone()],
            Bytes::Own(bytes) => bytes,
        }
    }
}

impl PartialEq for Bytes {
    fn eq(&self, other: &Bytes) -> bool {
        self[..] == other[..]
    }
}
