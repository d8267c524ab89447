//! What is to go to the peer.

use crate::message::{MessagePayload, StreamId};

/// One outbound message, with what a chunk layer has to know of it.
#[derive(Clone, Copy, Debug, PartialEq, Eq)]
pub struct Record<'o> {
    pub message: MessagePayload<'o>,
    /// An uncompressed chunk header is wanted. Only the records of a start say so.
    pub force_uncompressed: bool,
    /// It may be left out if the peer is slow. Only audio and video sends say so.
    pub can_be_dropped: bool,
}

/// Records end to end, in the order in which they have to be sent: an iterator over the bytes of the lent buffer that
/// a call wrote.
///
/// A record is thirteen bytes, big-endian, then the body: type 1, length 3, timestamp 4, stream 4, flags 1 (bit 0
/// uncompressed header wanted, bit 1 droppable).
#[derive(Clone, Copy, Debug, PartialEq, Eq)]
pub struct Records<'o>(&'o [u8]);

const HEADER: usize = 13;

impl<'o> Records<'o> {
    /// Splits bytes that were written before. A record that is cut ends the iteration, and its bytes are left.
    pub fn new(bytes: &'o [u8]) -> Records<'o> {
        Records(bytes)
    }

    /// The bytes of all records that are still to come; at first, all that the call wrote.
    pub fn as_bytes(&self) -> &'o [u8] {
        self.0
    }

    pub fn is_empty(&self) -> bool {
        self.0.is_empty()
    }
}

fn be32(bytes: [u8; 4]) -> u32 {
    u32::from_be_bytes(bytes)
}

impl<'o> Iterator for Records<'o> {
    type Item = Record<'o>;

    fn next(&mut self) -> Option<Record<'o>> {
        let (&[kind, l2, l1, l0, t3, t2, t1, t0, s3, s2, s1, s0, flags], rest) = self.0.split_first_chunk::<HEADER>()?;
        let (data, rest) = rest.split_at_checked(be32([0, l2, l1, l0]) as usize)?;
        self.0 = rest;
        let message = MessagePayload {
            timestamp: be32([t3, t2, t1, t0]),
            type_id: kind,
            message_stream_id: StreamId(be32([s3, s2, s1, s0])),
            data,
        };
        Some(Record { message, force_uncompressed: flags & 1 != 0, can_be_dropped: flags & 2 != 0 })
    }
}
