//! Bodies to messages and back. The type numbers are document 01's, and RTMP 1.0's for types 1 to 6.

use super::bytes::Bytes;
use super::rml_amf0::{self, Amf0Value};
use super::time::RtmpTimestamp;

#[derive(Debug)]
pub struct MessageSerializationError;

/// Holds the refusal number that document 01 gives to such a body.
#[derive(Debug)]
pub struct MessageDeserializationError(pub u8);

pub enum PeerBandwidthLimitType {
    Hard,
    Soft,
    Dynamic,
}

pub enum UserControlEventType {
    StreamBegin,
    PingRequest,
    PingResponse,
    Other,
}

pub enum RtmpMessage {
    Abort { stream_id: u32 },
    Acknowledgement { sequence_number: u32 },
    Amf0Command { command_name: String, transaction_id: f64, command_object: Amf0Value, additional_arguments: Vec<Amf0Value> },
    Amf0Data { values: Vec<Amf0Value> },
    AudioData { data: Bytes },
    SetChunkSize { size: u32 },
    SetPeerBandwidth { size: u32, limit_type: PeerBandwidthLimitType },
    UserControl { event_type: UserControlEventType, stream_id: Option<u32>, buffer_length: Option<u32>, timestamp: Option<RtmpTimestamp> },
    VideoData { data: Bytes },
    WindowAcknowledgement { size: u32 },
    Unknown,
}

#[derive(Debug, PartialEq)]
pub struct MessagePayload {
    pub timestamp: RtmpTimestamp,
    pub type_id: u8,
    pub message_stream_id: u32,
    pub data: Bytes,
}

fn first_u32(body: &[u8]) -> Option<u32> {
    body.first_chunk().map(|four| u32::from_be_bytes(*four))
}

impl MessagePayload {
    pub fn to_rtmp_message(&self) -> Result<RtmpMessage, MessageDeserializationError> {
        let body = &self.data[..];
        match self.type_id {
            4 => user_control(body),
            8 => Ok(RtmpMessage::AudioData { data: self.data.clone() }),
            9 => Ok(RtmpMessage::VideoData { data: self.data.clone() }),
            18 => Ok(RtmpMessage::Amf0Data { values: values(body)? }),
            20 => command(body),
            _ => Ok(control(self.type_id, body).unwrap_or(RtmpMessage::Unknown)),
        }
    }
}

/// Types that document 01 leaves aside. A body that is too short for one counts as unknown.
fn control(type_id: u8, body: &[u8]) -> Option<RtmpMessage> {
    let number = first_u32(body)?;
    match type_id {
        1 => Some(RtmpMessage::SetChunkSize { size: number }),
        2 => Some(RtmpMessage::Abort { stream_id: number }),
        3 => Some(RtmpMessage::Acknowledgement { sequence_number: number }),
        5 => Some(RtmpMessage::WindowAcknowledgement { size: number }),
        6 => {
            let limit_type = match *body.get(4)? {
                0 => PeerBandwidthLimitType::Hard,
                1 => PeerBandwidthLimitType::Soft,
                2 => PeerBandwidthLimitType::Dynamic,
                _ => return None,
            };
            Some(RtmpMessage::SetPeerBandwidth { size: number, limit_type })
        }
        _ => None,
    }
}

fn values(body: &[u8]) -> Result<Vec<Amf0Value>, MessageDeserializationError> {
    rml_amf0::read_all(body).map_err(MessageDeserializationError)
}

fn user_control(body: &[u8]) -> Result<RtmpMessage, MessageDeserializationError> {
    let short = MessageDeserializationError(2);
    let Some(event) = body.first_chunk().map(|two| u16::from_be_bytes(*two)) else {
        return Err(short);
    };
    let event_type = match event {
        0 => UserControlEventType::StreamBegin,
        6 => UserControlEventType::PingRequest,
        7 => UserControlEventType::PingResponse,
        _ => UserControlEventType::Other,
    };
    let number = first_u32(&body[2..]);
    let (stream_id, timestamp) = match event {
        6 | 7 if number.is_none() => return Err(short),
        6 | 7 => (None, number.map(RtmpTimestamp::new)),
        _ => (number, None),
    };
    Ok(RtmpMessage::UserControl { event_type, stream_id, buffer_length: None, timestamp })
}

fn command(body: &[u8]) -> Result<RtmpMessage, MessageDeserializationError> {
    let mut values = values(body)?.into_iter();
    match (values.next(), values.next(), values.next()) {
        (Some(Amf0Value::Utf8String(command_name)), Some(Amf0Value::Number(transaction_id)), Some(command_object)) => {
            Ok(RtmpMessage::Amf0Command { command_name, transaction_id, command_object, additional_arguments: values.collect() })
        }
        _ => Err(MessageDeserializationError(4)),
    }
}

impl RtmpMessage {
    pub fn into_message_payload(self, timestamp: RtmpTimestamp, stream: u32) -> Result<MessagePayload, MessageSerializationError> {
        let (type_id, data) = match self {
            RtmpMessage::Acknowledgement { sequence_number } => (3, sequence_number.to_be_bytes().to_vec().into()),
            RtmpMessage::UserControl { event_type, stream_id, timestamp, .. } => {
                let (event, number) = match event_type {
                    UserControlEventType::StreamBegin => (0u16, stream_id),
                    UserControlEventType::PingRequest => (6, timestamp.map(|t| t.value)),
                    UserControlEventType::PingResponse => (7, timestamp.map(|t| t.value)),
                    UserControlEventType::Other => return Err(MessageSerializationError),
                };
                let mut data = event.to_be_bytes().to_vec();
                data.extend(number.ok_or(MessageSerializationError)?.to_be_bytes());
                (4, data.into())
            }
            RtmpMessage::WindowAcknowledgement { size } => (5, size.to_be_bytes().to_vec().into()),
            RtmpMessage::SetPeerBandwidth { size, limit_type } => {
                let mut data = size.to_be_bytes().to_vec();
                data.push(limit_type as u8);
                (6, data.into())
            }
            RtmpMessage::AudioData { data } => (8, data),
            RtmpMessage::VideoData { data } => (9, data),
            RtmpMessage::Amf0Data { values } => (18, rml_amf0::write_all(&values).into()),
            RtmpMessage::Amf0Command { command_name, transaction_id, command_object, additional_arguments } => {
                let mut values = vec![Amf0Value::Utf8String(command_name), Amf0Value::Number(transaction_id), command_object];
                values.extend(additional_arguments);
                (20, rml_amf0::write_all(&values).into())
            }
            // The server session sends none of these.
            RtmpMessage::Abort { .. } | RtmpMessage::SetChunkSize { .. } | RtmpMessage::Unknown => return Err(MessageSerializationError),
        };
        Ok(MessagePayload { timestamp, type_id, message_stream_id: stream, data })
    }
}
