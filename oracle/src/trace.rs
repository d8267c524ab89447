//! Reads a trace, entry by entry.

pub struct Start<'a> {
    pub chunk_size: u32,
    pub window_ack_size: u32,
    pub peer_bandwidth: u32,
    pub on_bw_done: bool,
    pub clock: u64,
    pub room: usize,
    pub fms_version: &'a [u8],
}

pub struct Metadata<'a> {
    set: u16,
    numbers: [u32; 9],
    stereo: bool,
    encoder: &'a [u8],
}

impl<'a> Metadata<'a> {
    fn is_set(&self, field: usize) -> bool {
        self.set >> field & 1 == 1
    }

    /// Fields 0 to 8 in document 01's order; the fifth is the frame rate's bits.
    pub fn number(&self, field: usize) -> Option<u32> {
        self.is_set(field).then_some(self.numbers[field])
    }

    pub fn stereo(&self) -> Option<bool> {
        self.is_set(9).then_some(self.stereo)
    }

    pub fn encoder(&self) -> Option<&'a [u8]> {
        self.is_set(10).then_some(self.encoder)
    }
}

pub enum Call<'a> {
    Message { type_id: u8, stream: u32, timestamp: u32, body: &'a [u8] },
    Accept { request: u32 },
    Reject { request: u32, code: &'a [u8], description: &'a [u8] },
    Finish { stream: u32 },
    Metadata { stream: u32, metadata: Metadata<'a> },
    Media { type_id: u8, stream: u32, timestamp: u32, droppable: bool, body: &'a [u8] },
    Ping,
}

pub enum Entry<'a> {
    Start(Start<'a>),
    Call { call: Call<'a>, clock: u64, room: usize },
    State,
    Damage { what: u8, value: u32 },
}

pub struct Trace<'a> {
    pub rest: &'a [u8],
}

impl<'a> Trace<'a> {
    fn take(&mut self, n: usize) -> Option<&'a [u8]> {
        let (head, tail) = self.rest.split_at_checked(n)?;
        self.rest = tail;
        Some(head)
    }

    fn number(&mut self, bytes: usize) -> Option<u64> {
        Some(self.take(bytes)?.iter().fold(0, |sum, b| sum << 8 | *b as u64))
    }

    fn u8(&mut self) -> Option<u8> {
        self.number(1).map(|x| x as u8)
    }

    fn u16(&mut self) -> Option<u16> {
        self.number(2).map(|x| x as u16)
    }

    fn u32(&mut self) -> Option<u32> {
        self.number(4).map(|x| x as u32)
    }

    fn flag(&mut self) -> Option<bool> {
        match self.u8()? {
            0 => Some(false),
            1 => Some(true),
            _ => None,
        }
    }

    fn room(&mut self) -> Option<usize> {
        self.u32().map(|x| x as usize).filter(|x| *x <= 66_560)
    }

    fn text(&mut self) -> Option<&'a [u8]> {
        let n = self.u16()? as usize;
        self.take(n)
    }

    fn body(&mut self) -> Option<&'a [u8]> {
        let n = self.u32()? as usize;
        if n > 65_536 { None } else { self.take(n) }
    }

    /// The next entry, or nothing where it is bad.
    pub fn entry(&mut self) -> Option<Entry<'a>> {
        match self.u8()? {
            0x01 => Some(Entry::Start(Start {
                chunk_size: self.u32()?,
                window_ack_size: self.u32()?,
                peer_bandwidth: self.u32()?,
                on_bw_done: self.flag()?,
                clock: self.number(8)?,
                room: self.room()?,
                fms_version: self.text()?,
            })),
            0x02 => {
                let (type_id, stream, timestamp) = (self.u8()?, self.u32()?, self.u32()?);
                let (clock, room, body) = (self.number(8)?, self.room()?, self.body()?);
                Some(Entry::Call { call: Call::Message { type_id, stream, timestamp, body }, clock, room })
            }
            0x03 => {
                let (request, clock, room) = (self.u32()?, self.number(8)?, self.room()?);
                Some(Entry::Call { call: Call::Accept { request }, clock, room })
            }
            0x04 => {
                let (request, clock, room) = (self.u32()?, self.number(8)?, self.room()?);
                let (code, description) = (self.text()?, self.text()?);
                Some(Entry::Call { call: Call::Reject { request, code, description }, clock, room })
            }
            0x05 => {
                let (stream, clock, room) = (self.u32()?, self.number(8)?, self.room()?);
                Some(Entry::Call { call: Call::Finish { stream }, clock, room })
            }
            0x06 => {
                let (stream, clock, room, set) = (self.u32()?, self.number(8)?, self.room()?, self.u16()?);
                let mut numbers = [0; 9];
                for number in &mut numbers {
                    *number = self.u32()?;
                }
                let (stereo, encoder) = (self.flag()?, self.text()?);
                if set >> 11 != 0 {
                    return None;
                }
                let metadata = Metadata { set, numbers, stereo, encoder };
                Some(Entry::Call { call: Call::Metadata { stream, metadata }, clock, room })
            }
            0x07 => {
                let (type_id, stream, timestamp) = (self.u8()?, self.u32()?, self.u32()?);
                let (droppable, room, body) = (self.flag()?, self.room()?, self.body()?);
                if type_id != 8 && type_id != 9 {
                    return None;
                }
                // A media send has no clock, and the Rust asks for none.
                Some(Entry::Call { call: Call::Media { type_id, stream, timestamp, droppable, body }, clock: 0, room })
            }
            0x08 => {
                let (clock, room) = (self.number(8)?, self.room()?);
                Some(Entry::Call { call: Call::Ping, clock, room })
            }
            0x09 => Some(Entry::State),
            0x0A => {
                let (what, _place, value) = (self.u8()?, self.u8()?, self.u32()?);
                (what <= 9).then_some(Entry::Damage { what, value })
            }
            _ => None,
        }
    }
}
