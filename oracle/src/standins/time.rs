//! A timestamp without sums.

#[derive(Clone, Debug, PartialEq)]
pub struct RtmpTimestamp {
    pub value: u32,
}

impl RtmpTimestamp {
    pub fn new(value: u32) -> RtmpTimestamp {
        RtmpTimestamp { value }
    }
}
