//! What stands where in the arrays of [`crate::ffi`], under the names of include/chungvator.h.

/// `Session::facts`.
pub mod fact {
    pub const START: usize = 0;
    pub const VERSION_LEN: usize = 1;
    pub const STATE: usize = 2;
    pub const HAS_APP: usize = 3;
    pub const APP_LEN: usize = 4;
    pub const ENCODING: usize = 5;
    pub const NEXT_STREAM: usize = 6;
    pub const NEXT_REQUEST: usize = 7;
    pub const STREAM_COUNT: usize = 8;
    pub const REQUEST_COUNT: usize = 9;
}

/// A row of `Session::streams`.
pub mod stream {
    pub const NUMBER: usize = 0;
    pub const STATE: usize = 1;
    pub const MODE: usize = 2;
    pub const KEY_LEN: usize = 3;
}

/// A row of `Session::requests`.
pub mod request {
    pub const NUMBER: usize = 0;
    pub const KIND: usize = 1;
    pub const STREAM: usize = 2;
    pub const MODE: usize = 3;
    pub const TRANSACTION: usize = 4;
    pub const NAME_LEN: usize = 5;
}

/// `Session::names`. A stream's key is at `KEYS` and its row, a request's name at `REQUESTS` and its row.
pub mod name {
    pub const VERSION: usize = 0;
    pub const APP: usize = 1;
    pub const KEYS: usize = 2;
    pub const REQUESTS: usize = 18;
}

/// `Answer::numbers`.
pub mod number {
    pub const REFUSAL: usize = 0;
    pub const ACTION: usize = 1;
    pub const ACTION_STREAM: usize = 2;
    pub const WRITTEN: usize = 3;
    pub const EVENT: usize = 4;
    pub const REQUEST: usize = 5;
    pub const MODE: usize = 6;
    pub const START_KIND: usize = 7;
    pub const START_TIME: usize = 8;
    pub const HAS_DURATION: usize = 9;
    pub const DURATION: usize = 10;
    pub const RESET: usize = 11;
    pub const STREAM: usize = 12;
    pub const TIMESTAMP: usize = 13;
    pub const APP_LEN: usize = 14;
    pub const KEY_LEN: usize = 15;
}

/// The two rows of metadata, and the columns of both.
pub mod property {
    pub const SET: usize = 0;
    pub const VALUES: usize = 1;

    pub const WIDTH: usize = 0;
    pub const HEIGHT: usize = 1;
    pub const VIDEO_CODEC_ID: usize = 2;
    pub const VIDEO_DATA_RATE: usize = 3;
    pub const FRAME_RATE: usize = 4;
    pub const AUDIO_CODEC_ID: usize = 5;
    pub const AUDIO_DATA_RATE: usize = 6;
    pub const AUDIO_SAMPLE_RATE: usize = 7;
    pub const AUDIO_CHANNELS: usize = 8;
    pub const STEREO: usize = 9;
    pub const ENCODER: usize = 10;
}

/// `Answer::words`; the first two are `Media::words` as well.
pub mod word {
    pub const APP: usize = 0;
    pub const KEY: usize = 1;
    pub const ENCODER: usize = 2;
}

/// `Media::numbers`.
pub mod media {
    pub const EVENT: usize = 0;
    pub const TIMESTAMP: usize = 1;
    pub const APP_LEN: usize = 2;
    pub const KEY_LEN: usize = 3;
}
