//! The refusals.

use crate::message::StreamId;
use std::error::Error;
use std::fmt;

/// What could not be done on a stream.
#[derive(Clone, Copy, Debug, PartialEq, Eq)]
pub enum Action {
    Publish,
    Play,
    Complete,
}

/// A refusal, in the order of its [number](ServerSessionError::number).
///
/// It leaves the session and the lent buffer as they were, and raises nothing. There is one exception:
/// `ActionAttemptedOnInactiveStream` from an accept removes the request.
#[derive(Clone, Copy, Debug, PartialEq, Eq)]
pub enum ServerSessionError {
    /// 1: the body is over 4,096 bytes in types 4, 18, 20; or over 16,777,215 in an audio or video send.
    BodyTooLong,
    /// 2: the body is not whole AMF0 values end to end; or user control under 2 bytes, or a ping under 6.
    NotAmf0,
    /// 3: a container (03, 08, 0A) lies inside eight others.
    TooDeep,
    /// 4: a command does not begin with string, number, any value.
    NoCommand,
    /// 5: connect, and the third value is no object, or `app` is absent or no string.
    NoAppNameForConnectionRequest,
    /// 6: an app name, key or metadata encoder that the step would file, raise or send is over 128 bytes.
    NameTooLong,
    /// 7: a request is to be filed and 16 wait already.
    RequestsFull,
    /// 8: the number to be given to a new request or stream would be 4,294,967,295.
    NumbersUsedUp,
    /// 9: a stream is to be made and 16 exist already.
    StreamsFull,
    /// 10: no waiting request has this number.
    InvalidRequestId,
    /// 11: the accepted request's stream is missing, or the finished stream is not playing.
    ActionAttemptedOnInactiveStream { action: Action, stream_id: StreamId },
    /// 12: the lent buffer is shorter than all records of the answer.
    NoRoom,
    /// 13: a reject's code or description is over 256 bytes.
    TextTooLong,
    /// 14: the chunk size is 0 or over 2,147,483,647; or `fms_version` is over 128 bytes.
    BadConfig,
    /// 15: the session's arrays hold no session. Only a host that writes into them meets it.
    BadSession,
}

use ServerSessionError::*;

impl ServerSessionError {
    /// Document 01's number, 1 to 15.
    pub fn number(&self) -> u32 {
        match self {
            BodyTooLong => 1,
            NotAmf0 => 2,
            TooDeep => 3,
            NoCommand => 4,
            NoAppNameForConnectionRequest => 5,
            NameTooLong => 6,
            RequestsFull => 7,
            NumbersUsedUp => 8,
            StreamsFull => 9,
            InvalidRequestId => 10,
            ActionAttemptedOnInactiveStream { .. } => 11,
            NoRoom => 12,
            TextTooLong => 13,
            BadConfig => 14,
            BadSession => 15,
        }
    }

    /// From a call's number and what 11 names. 0 is no refusal.
    pub(crate) fn check(number: u32, action: u64, stream: u64) -> Result<(), ServerSessionError> {
        Err(match number {
            0 => return Ok(()),
            1 => BodyTooLong,
            2 => NotAmf0,
            3 => TooDeep,
            4 => NoCommand,
            5 => NoAppNameForConnectionRequest,
            6 => NameTooLong,
            7 => RequestsFull,
            8 => NumbersUsedUp,
            9 => StreamsFull,
            10 => InvalidRequestId,
            11 => ActionAttemptedOnInactiveStream { action: Action::of(action), stream_id: StreamId(stream as u32) },
            12 => NoRoom,
            13 => TextTooLong,
            14 => BadConfig,
            15 => BadSession,
            _ => unreachable!("the library's contract has no number {number}"),
        })
    }
}

impl Action {
    fn of(number: u64) -> Action {
        match number {
            1 => Action::Publish,
            2 => Action::Play,
            3 => Action::Complete,
            _ => unreachable!("the library's contract has no action {number}"),
        }
    }
}

impl fmt::Display for Action {
    fn fmt(&self, f: &mut fmt::Formatter<'_>) -> fmt::Result {
        f.write_str(match self {
            Action::Publish => "publish",
            Action::Play => "play",
            Action::Complete => "complete",
        })
    }
}

impl fmt::Display for ServerSessionError {
    fn fmt(&self, f: &mut fmt::Formatter<'_>) -> fmt::Result {
        f.write_str(match self {
            BodyTooLong => "the body is over 4,096 bytes, or over 16,777,215 in an audio or video send",
            NotAmf0 => "the body is not whole AMF0 values end to end, or the user control message is too short",
            TooDeep => "a container lies inside eight others",
            NoCommand => "the command does not begin with string, number, any value",
            NoAppNameForConnectionRequest => "the connect has no object, or no `app` that is a string",
            NameTooLong => "the app name, key or encoder is over 128 bytes",
            RequestsFull => "16 requests wait already",
            NumbersUsedUp => "the numbers for requests or streams are used up",
            StreamsFull => "16 streams exist already",
            InvalidRequestId => "no waiting request has this number",
            ActionAttemptedOnInactiveStream { action: Action::Complete, stream_id } => {
                return write!(f, "complete: stream {} is not playing", stream_id.0)
            }
            ActionAttemptedOnInactiveStream { action, stream_id } => {
                return write!(f, "{action}: there is no stream {}", stream_id.0)
            }
            NoRoom => "the lent buffer is shorter than all records of the answer",
            TextTooLong => "the code or the description is over 256 bytes",
            BadConfig => "the chunk size is 0 or over 2,147,483,647, or the server version is over 128 bytes",
            BadSession => "the session handed in is damaged",
        })
    }
}

impl Error for ServerSessionError {}
