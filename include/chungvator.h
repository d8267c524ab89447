/* An RTMP server session for a C host, over the proved library libhost.a (`scripts/build library` makes it).
 *
 * A message comes in, an answer goes out: a number, at most one event, and records in a buffer that the host lends.
 * The library keeps nothing, allocates nothing, and does no input or output. A session is plain numbers and bytes in
 * the host's memory. It may be copied, stored and put back. Nothing in it is trusted: a damaged one is refused with 15.
 *
 * "Document 01" below is the scope that the library is proved against. The README says where to read on.
 *
 * What the caller must keep, for every function here:
 *   - Every array has the size that stands in its type, and the alignment of that type.
 *   - What is lent to one call does not overlap: session, answer, body, buffer, and each number that is pointed to.
 *     What is only read may overlap with what is only read.
 *   - A slice is two words: a pointer, and a count of bytes. The pointer is not NULL, also where the count is 0.
 *   - Nobody else writes what is lent while the call runs. Calls on different sessions may run at the same time.
 *   - There is stack enough. When last counted, a call took up to 14 KB, a start 4 KB.
 * All else is the library's business: no number and no byte that is handed in is wrong, it is answered or refused.
 *
 * The chungvator_session_.. functions at the end are those that a host calls. The others are what the library exports.
 */
#ifndef CHUNGVATOR_H
#define CHUNGVATOR_H

#include <stddef.h>
#include <stdint.h>

#ifdef __cplusplus
#define CHUNGVATOR_HOLDS(what) static_assert(what, #what)
extern "C" {
#else
#define CHUNGVATOR_HOLDS(what) _Static_assert(what, #what)
#endif

/* ---- What a call returns: document 01's number. ----
 * Every refusal leaves the session and the buffer as they were, and raises nothing. There is one exception: 11 from an
 * accept removes the request. A start that is refused hands back a fresh session (see chungvator_start). */
enum chungvator_refusal {
    /* done; perhaps an event, perhaps records */
    CHUNGVATOR_DONE = 0,
    /* body over 4,096 bytes in types 4, 18, 20; or over 16,777,215 in an audio or video send */
    CHUNGVATOR_BODY_TOO_LONG = 1,
    /* body is not whole AMF0 values end to end; or user control under 2 bytes, or a ping under 6 */
    CHUNGVATOR_NOT_AMF0 = 2,
    /* a container (03, 08, 0A) lies inside eight others */
    CHUNGVATOR_TOO_DEEP = 3,
    /* a command does not begin with string, number, any value */
    CHUNGVATOR_NO_COMMAND = 4,
    /* connect: third value no object, or `app` absent or no string */
    CHUNGVATOR_NO_APP = 5,
    /* app name (after its slash is taken), key or metadata encoder that the step would file, raise or send is over 128
       bytes */
    CHUNGVATOR_NAME_TOO_LONG = 6,
    /* a request is to be filed and 16 wait already */
    CHUNGVATOR_REQUESTS_FULL = 7,
    /* the number to be given to a new request or stream would be 4,294,967,295 */
    CHUNGVATOR_NUMBERS_USED_UP = 8,
    /* a stream is to be made and 16 exist already */
    CHUNGVATOR_STREAMS_FULL = 9,
    /* no waiting request has this number */
    CHUNGVATOR_NO_SUCH_REQUEST = 10,
    /* accepted request's stream is missing, or finished stream is not Playing; the answer names the action and the
       stream */
    CHUNGVATOR_WRONG_STREAM = 11,
    /* lent out buffer is shorter than all records of the answer */
    CHUNGVATOR_NO_ROOM = 12,
    /* reject code or description over 256 bytes */
    CHUNGVATOR_TEXT_TOO_LONG = 13,
    /* chunk size 0 or over 2,147,483,647; or `fms_version` over 128 */
    CHUNGVATOR_BAD_CONFIG = 14,
    /* the session handed in has a name length over 128, a table count over its 16 places, a number twice in one table,
       or a number not below the next one; or a number in it names nothing, or is 2^32 or more where it must not */
    CHUNGVATOR_BAD_SESSION = 15
};

/* What refusal 11 names beside the stream. */
enum chungvator_action { CHUNGVATOR_NO_ACTION, CHUNGVATOR_PUBLISH, CHUNGVATOR_PLAY, CHUNGVATOR_COMPLETE };

/* ---- The cases of a session. ---- */
enum chungvator_session_state { CHUNGVATOR_STARTED, CHUNGVATOR_CONNECTED };
enum chungvator_stream_state { CHUNGVATOR_CREATED, CHUNGVATOR_PUBLISHING, CHUNGVATOR_PLAYING, CHUNGVATOR_COMPLETED };
enum chungvator_publish_mode { CHUNGVATOR_LIVE, CHUNGVATOR_APPEND, CHUNGVATOR_RECORD };
enum chungvator_request_kind { CHUNGVATOR_CONNECT_REQUEST, CHUNGVATOR_PUBLISH_REQUEST, CHUNGVATOR_PLAY_REQUEST };

/* ---- Events, with what they use of an answer. What an event does not use is 0, or an empty name. ---- */
enum chungvator_event {
    CHUNGVATOR_NO_EVENT,
    CHUNGVATOR_CONNECTION_REQUESTED,     /* request, app */
    CHUNGVATOR_PUBLISH_STREAM_REQUESTED, /* request, app, key, mode */
    CHUNGVATOR_PLAY_STREAM_REQUESTED,    /* request, app, key, start, duration, reset, stream */
    CHUNGVATOR_PUBLISH_STREAM_FINISHED,  /* app, key */
    CHUNGVATOR_PLAY_STREAM_FINISHED,     /* app, key */
    CHUNGVATOR_STREAM_METADATA_CHANGED,  /* app, key, described, encoder */
    CHUNGVATOR_AUDIO_DATA_RECEIVED,      /* app, key, timestamp; the data is the message's body */
    CHUNGVATOR_VIDEO_DATA_RECEIVED,      /* the same */
    CHUNGVATOR_PING_RESPONSE_RECEIVED    /* timestamp */
};

/* Where a play is to begin. */
enum chungvator_start_kind { CHUNGVATOR_LIVE_OR_RECORDED, CHUNGVATOR_LIVE_ONLY, CHUNGVATOR_START_TIME_IN_SECONDS };

/* Types of a message. Any other type is done and does nothing. */
enum chungvator_type {
    CHUNGVATOR_TYPE_USER_CONTROL = 4,
    CHUNGVATOR_TYPE_AUDIO = 8,
    CHUNGVATOR_TYPE_VIDEO = 9,
    CHUNGVATOR_TYPE_DATA = 18,
    CHUNGVATOR_TYPE_COMMAND = 20
};

/* ---- A session: four arrays, 5,712 bytes. ----
 * A start writes all of it. Rows past a count, and their names, are blank: zeros. A removal moves the later rows up,
 * and blanks the last one. Nothing reads a row past its count: what a host writes there stays until a new stream or a
 * new request takes the row. */
enum { CHUNGVATOR_PLACES = 16, CHUNGVATOR_NAME_BYTES = 128 };

/* facts[..] */
enum chungvator_fact {
    CHUNGVATOR_FACT_START,         /* the clock at the start, in milliseconds */
    CHUNGVATOR_FACT_VERSION_LEN,   /* length of the server version */
    CHUNGVATOR_FACT_STATE,         /* chungvator_session_state */
    CHUNGVATOR_FACT_HAS_APP,       /* 0 or 1 */
    CHUNGVATOR_FACT_APP_LEN,
    CHUNGVATOR_FACT_ENCODING,      /* objectEncoding of the last connect read: the bits of a double */
    CHUNGVATOR_FACT_NEXT_STREAM,   /* the number that the next stream gets; below 2^32 */
    CHUNGVATOR_FACT_NEXT_REQUEST,  /* the number that the next request gets; below 2^32 */
    CHUNGVATOR_FACT_STREAM_COUNT,  /* how many rows of streams are in use, from the first on; at most 16 */
    CHUNGVATOR_FACT_REQUEST_COUNT, /* how many requests wait; at most 16 */
    CHUNGVATOR_FACTS
};

/* streams[place][..] */
enum chungvator_stream_place {
    CHUNGVATOR_STREAM_NUMBER,  /* below 2^32 */
    CHUNGVATOR_STREAM_STATE,   /* chungvator_stream_state */
    CHUNGVATOR_STREAM_MODE,    /* chungvator_publish_mode; of use where it is publishing */
    CHUNGVATOR_STREAM_KEY_LEN, /* the key itself is names[CHUNGVATOR_NAME_KEYS + place] */
    CHUNGVATOR_STREAM_NUMBERS
};

/* requests[place][..] */
enum chungvator_request_place {
    CHUNGVATOR_REQUEST_NUMBER,      /* below 2^32 */
    CHUNGVATOR_REQUEST_KIND,        /* chungvator_request_kind */
    CHUNGVATOR_REQUEST_STREAM,      /* of a publish or a play; below 2^32 */
    CHUNGVATOR_REQUEST_MODE,        /* chungvator_publish_mode, of a publish */
    CHUNGVATOR_REQUEST_TRANSACTION, /* of a connect: the bits of a double */
    CHUNGVATOR_REQUEST_NAME_LEN,    /* the app of a connect, else the key: names[CHUNGVATOR_NAME_REQUESTS + place] */
    CHUNGVATOR_REQUEST_NUMBERS
};

/* names[..]. A name is its first so many bytes. It need not be UTF-8, and no 0 ends it. */
enum chungvator_name {
    CHUNGVATOR_NAME_VERSION,
    CHUNGVATOR_NAME_APP,
    CHUNGVATOR_NAME_KEYS,                                                  /* sixteen, one a stream */
    CHUNGVATOR_NAME_REQUESTS = CHUNGVATOR_NAME_KEYS + CHUNGVATOR_PLACES,   /* sixteen, one a request */
    CHUNGVATOR_NAMES = CHUNGVATOR_NAME_REQUESTS + CHUNGVATOR_PLACES
};

typedef struct chungvator_session {
    uint64_t facts[CHUNGVATOR_FACTS];
    uint64_t streams[CHUNGVATOR_PLACES][CHUNGVATOR_STREAM_NUMBERS];
    uint64_t requests[CHUNGVATOR_PLACES][CHUNGVATOR_REQUEST_NUMBERS];
    uint8_t names[CHUNGVATOR_NAMES][CHUNGVATOR_NAME_BYTES];
} chungvator_session;

/* ---- An answer: three arrays, 688 bytes. All of it is written by every call that takes it. ---- */

/* numbers[..] */
enum chungvator_number {
    CHUNGVATOR_NUMBER_REFUSAL,       /* the number that the call returns */
    CHUNGVATOR_NUMBER_ACTION,        /* chungvator_action, with 11 alone */
    CHUNGVATOR_NUMBER_ACTION_STREAM, /* the stream that 11 names */
    CHUNGVATOR_NUMBER_WRITTEN,       /* bytes written to the front of the buffer; those past it stay as they were */
    CHUNGVATOR_NUMBER_EVENT,         /* chungvator_event */
    CHUNGVATOR_NUMBER_REQUEST,       /* the number to accept or reject */
    CHUNGVATOR_NUMBER_MODE,          /* chungvator_publish_mode */
    CHUNGVATOR_NUMBER_START_KIND,    /* chungvator_start_kind */
    CHUNGVATOR_NUMBER_START_TIME,    /* in seconds, with the last kind */
    CHUNGVATOR_NUMBER_HAS_DURATION,  /* 0 or 1 */
    CHUNGVATOR_NUMBER_DURATION,      /* in seconds */
    CHUNGVATOR_NUMBER_RESET,         /* 0 or 1 */
    CHUNGVATOR_NUMBER_STREAM,
    CHUNGVATOR_NUMBER_TIMESTAMP,     /* in milliseconds */
    CHUNGVATOR_NUMBER_APP_LEN,
    CHUNGVATOR_NUMBER_KEY_LEN,
    CHUNGVATOR_NUMBERS
};

/* described[CHUNGVATOR_SET][..] is 1 where the property is set. described[CHUNGVATOR_VALUES][..] is its value.
 * Handed in, any number but 1 means not set, and a value counts modulo 2^32. */
enum chungvator_row { CHUNGVATOR_SET, CHUNGVATOR_VALUES, CHUNGVATOR_ROWS };
enum chungvator_property {
    CHUNGVATOR_WIDTH,
    CHUNGVATOR_HEIGHT,
    CHUNGVATOR_VIDEO_CODEC_ID,
    CHUNGVATOR_VIDEO_DATA_RATE,
    CHUNGVATOR_FRAME_RATE, /* the bits of a float */
    CHUNGVATOR_AUDIO_CODEC_ID,
    CHUNGVATOR_AUDIO_DATA_RATE,
    CHUNGVATOR_AUDIO_SAMPLE_RATE,
    CHUNGVATOR_AUDIO_CHANNELS,
    CHUNGVATOR_STEREO,     /* 0 or 1 */
    CHUNGVATOR_ENCODER,    /* its length; the bytes stand beside */
    CHUNGVATOR_PROPERTIES
};

/* words[..] */
enum chungvator_word { CHUNGVATOR_WORD_APP, CHUNGVATOR_WORD_KEY, CHUNGVATOR_WORD_ENCODER, CHUNGVATOR_WORDS };

typedef struct chungvator_answer {
    uint64_t numbers[CHUNGVATOR_NUMBERS];
    uint64_t described[CHUNGVATOR_ROWS][CHUNGVATOR_PROPERTIES];
    uint8_t words[CHUNGVATOR_WORDS][CHUNGVATOR_NAME_BYTES];
} chungvator_answer;

/* ---- What a frame's own call answers: 288 bytes. words[..] are app and key, as above. ---- */
enum chungvator_media_number {
    CHUNGVATOR_MEDIA_EVENT, /* CHUNGVATOR_AUDIO_DATA_RECEIVED, CHUNGVATOR_VIDEO_DATA_RECEIVED, or none */
    CHUNGVATOR_MEDIA_TIMESTAMP,
    CHUNGVATOR_MEDIA_APP_LEN,
    CHUNGVATOR_MEDIA_KEY_LEN,
    CHUNGVATOR_MEDIA_NUMBERS
};

enum { CHUNGVATOR_MEDIA_WORDS = 2 };

typedef struct chungvator_media {
    uint64_t numbers[CHUNGVATOR_MEDIA_NUMBERS];
    uint8_t words[CHUNGVATOR_MEDIA_WORDS][CHUNGVATOR_NAME_BYTES];
} chungvator_media;

/* ---- Metadata that is handed in: 304 bytes. ---- */
typedef struct chungvator_metadata {
    uint64_t described[CHUNGVATOR_ROWS][CHUNGVATOR_PROPERTIES];
    uint8_t encoder[CHUNGVATOR_NAME_BYTES];
} chungvator_metadata;

/* ---- A record, as it stands in the buffer: thirteen bytes, big-endian, then the body. ---- */
enum chungvator_record {
    CHUNGVATOR_RECORD_TYPE = 0,      /* 1 byte */
    CHUNGVATOR_RECORD_LENGTH = 1,    /* 3 bytes: of the body */
    CHUNGVATOR_RECORD_TIMESTAMP = 4, /* 4 bytes */
    CHUNGVATOR_RECORD_STREAM = 8,    /* 4 bytes */
    CHUNGVATOR_RECORD_FLAGS = 12,    /* 1 byte: the two bits below */
    CHUNGVATOR_RECORD_HEADER = 13
};
enum chungvator_flag {
    CHUNGVATOR_UNCOMPRESSED = 1, /* an uncompressed chunk header is wanted */
    CHUNGVATOR_DROPPABLE = 2     /* the record may be dropped */
};

CHUNGVATOR_HOLDS(sizeof(uint64_t) == 8 && sizeof(size_t) == 8 && sizeof(void *) == 8);
CHUNGVATOR_HOLDS(sizeof(chungvator_session) == 5712);
CHUNGVATOR_HOLDS(offsetof(chungvator_session, facts) == 0);
CHUNGVATOR_HOLDS(offsetof(chungvator_session, streams) == 80);
CHUNGVATOR_HOLDS(offsetof(chungvator_session, requests) == 592);
CHUNGVATOR_HOLDS(offsetof(chungvator_session, names) == 1360);
CHUNGVATOR_HOLDS(sizeof(chungvator_answer) == 688);
CHUNGVATOR_HOLDS(offsetof(chungvator_answer, numbers) == 0);
CHUNGVATOR_HOLDS(offsetof(chungvator_answer, described) == 128);
CHUNGVATOR_HOLDS(offsetof(chungvator_answer, words) == 304);
CHUNGVATOR_HOLDS(sizeof(chungvator_media) == 288);
CHUNGVATOR_HOLDS(offsetof(chungvator_media, words) == 32);
CHUNGVATOR_HOLDS(sizeof(chungvator_metadata) == 304);
CHUNGVATOR_HOLDS(offsetof(chungvator_metadata, encoder) == 176);
#ifdef __cplusplus
CHUNGVATOR_HOLDS(alignof(chungvator_session) == 8 && alignof(chungvator_answer) == 8);
CHUNGVATOR_HOLDS(alignof(chungvator_media) == 8 && alignof(chungvator_metadata) == 8);
#else
CHUNGVATOR_HOLDS(_Alignof(chungvator_session) == 8 && _Alignof(chungvator_answer) == 8);
CHUNGVATOR_HOLDS(_Alignof(chungvator_media) == 8 && _Alignof(chungvator_metadata) == 8);
#endif

/* ---- What the library exports. Each returns document 01's number. ----
 * The four arrays of a session and the three of an answer are handed over one by one. A flag is no where it is 0. The
 * clock is in milliseconds; records are stamped with the time since the start, modulo 2^32, and 0 if that is below 0. */
#define CHUNGVATOR_SESSION_ARRAYS                                                                          \
    uint64_t facts[CHUNGVATOR_FACTS], uint64_t streams[CHUNGVATOR_PLACES][CHUNGVATOR_STREAM_NUMBERS],      \
        uint64_t requests[CHUNGVATOR_PLACES][CHUNGVATOR_REQUEST_NUMBERS],                                  \
        uint8_t names[CHUNGVATOR_NAMES][CHUNGVATOR_NAME_BYTES]
#define CHUNGVATOR_READ_ARRAYS                                                                             \
    const uint64_t facts[CHUNGVATOR_FACTS],                                                                \
        const uint64_t streams[CHUNGVATOR_PLACES][CHUNGVATOR_STREAM_NUMBERS],                              \
        const uint64_t requests[CHUNGVATOR_PLACES][CHUNGVATOR_REQUEST_NUMBERS],                            \
        const uint8_t names[CHUNGVATOR_NAMES][CHUNGVATOR_NAME_BYTES]
#define CHUNGVATOR_ANSWER_ARRAYS                                                                           \
    uint64_t numbers[CHUNGVATOR_NUMBERS], uint64_t described[CHUNGVATOR_ROWS][CHUNGVATOR_PROPERTIES],      \
        uint8_t words[CHUNGVATOR_WORDS][CHUNGVATOR_NAME_BYTES]

/* Writes a fresh session over whatever stood in its arrays, and the start's records into the buffer. If it is refused
 * (14, 12), the session is that of a start at clock 0 with an empty version. */
uint32_t chungvator_start(CHUNGVATOR_SESSION_ARRAYS, uint32_t chunk_size, uint32_t window_ack_size,
                          uint32_t peer_bandwidth, uint32_t on_bw_done, const uint8_t *fms_version,
                          size_t fms_version_len, uint64_t clock, uint8_t *out, size_t out_len,
                          CHUNGVATOR_ANSWER_ARRAYS);

/* Does what a message asks, and answers with at most one event and the records that go back. */
uint32_t chungvator_handle_message(CHUNGVATOR_SESSION_ARRAYS, uint8_t type, uint32_t stream, uint32_t timestamp,
                                   uint64_t clock, const uint8_t *body, size_t body_len, uint8_t *out, size_t out_len,
                                   CHUNGVATOR_ANSWER_ARRAYS);

/* Answers an audio or a video message as chungvator_handle_message does, without copying the session; the body is not
 * asked for, and a message of another type raises nothing here. */
uint32_t chungvator_handle_media(CHUNGVATOR_READ_ARRAYS, uint8_t type, uint32_t stream, uint32_t timestamp,
                                 uint64_t media[CHUNGVATOR_MEDIA_NUMBERS],
                                 uint8_t words[CHUNGVATOR_MEDIA_WORDS][CHUNGVATOR_NAME_BYTES]);

/* Accepts a waiting request: sets the app or the stream's state, and writes the records that say so. */
uint32_t chungvator_accept_request(CHUNGVATOR_SESSION_ARRAYS, uint32_t request, uint64_t clock, uint8_t *out,
                                   size_t out_len, CHUNGVATOR_ANSWER_ARRAYS);

/* Rejects a waiting request: removes it, and writes an error record with the code and the description. */
uint32_t chungvator_reject_request(CHUNGVATOR_SESSION_ARRAYS, uint32_t request, const uint8_t *code, size_t code_len,
                                   const uint8_t *description, size_t description_len, uint64_t clock, uint8_t *out,
                                   size_t out_len, CHUNGVATOR_ANSWER_ARRAYS);

/* Turns a stream from Playing to Completed, and writes the record that says so. */
uint32_t chungvator_finish_playing(CHUNGVATOR_SESSION_ARRAYS, uint32_t stream, uint64_t clock, uint8_t *out,
                                   size_t out_len, CHUNGVATOR_ANSWER_ARRAYS);

/* Writes one audio record; the stream need not exist. `written` is 0 with a refusal, here and below. */
uint32_t chungvator_send_audio_data(CHUNGVATOR_READ_ARRAYS, uint32_t stream, uint32_t timestamp, uint32_t droppable,
                                    const uint8_t *body, size_t body_len, uint8_t *out, size_t out_len,
                                    uint64_t *written);

/* Writes one video record, likewise. */
uint32_t chungvator_send_video_data(CHUNGVATOR_READ_ARRAYS, uint32_t stream, uint32_t timestamp, uint32_t droppable,
                                    const uint8_t *body, size_t body_len, uint8_t *out, size_t out_len,
                                    uint64_t *written);

/* Writes one onMetaData record with the properties that are set. */
uint32_t chungvator_send_metadata(CHUNGVATOR_READ_ARRAYS, uint32_t stream,
                                  const uint64_t described[CHUNGVATOR_ROWS][CHUNGVATOR_PROPERTIES],
                                  const uint8_t encoder[CHUNGVATOR_NAME_BYTES], uint64_t clock, uint8_t *out,
                                  size_t out_len, uint64_t *written);

/* Writes one ping request, and hands back the timestamp that it carries (0 with a refusal). */
uint32_t chungvator_send_ping_request(CHUNGVATOR_READ_ARRAYS, uint64_t clock, uint8_t *out, size_t out_len,
                                      uint64_t *written, uint32_t *timestamp);

/* ---- The same over the structs. The promises are those above. ---- */
#define CHUNGVATOR_OF(s) (s)->facts, (s)->streams, (s)->requests, (s)->names
#define CHUNGVATOR_TO(a) (a)->numbers, (a)->described, (a)->words

static inline uint32_t chungvator_session_start(chungvator_session *session, uint32_t chunk_size,
                                                uint32_t window_ack_size, uint32_t peer_bandwidth,
                                                uint32_t on_bw_done, const uint8_t *fms_version,
                                                size_t fms_version_len, uint64_t clock, uint8_t *out, size_t out_len,
                                                chungvator_answer *answer) {
    return chungvator_start(CHUNGVATOR_OF(session), chunk_size, window_ack_size, peer_bandwidth, on_bw_done,
                            fms_version, fms_version_len, clock, out, out_len, CHUNGVATOR_TO(answer));
}

static inline uint32_t chungvator_session_handle_message(chungvator_session *session, uint8_t type, uint32_t stream,
                                                         uint32_t timestamp, uint64_t clock, const uint8_t *body,
                                                         size_t body_len, uint8_t *out, size_t out_len,
                                                         chungvator_answer *answer) {
    return chungvator_handle_message(CHUNGVATOR_OF(session), type, stream, timestamp, clock, body, body_len, out,
                                     out_len, CHUNGVATOR_TO(answer));
}

static inline uint32_t chungvator_session_handle_media(const chungvator_session *session, uint8_t type,
                                                       uint32_t stream, uint32_t timestamp, chungvator_media *media) {
    return chungvator_handle_media(CHUNGVATOR_OF(session), type, stream, timestamp, media->numbers, media->words);
}

static inline uint32_t chungvator_session_accept_request(chungvator_session *session, uint32_t request,
                                                         uint64_t clock, uint8_t *out, size_t out_len,
                                                         chungvator_answer *answer) {
    return chungvator_accept_request(CHUNGVATOR_OF(session), request, clock, out, out_len, CHUNGVATOR_TO(answer));
}

static inline uint32_t chungvator_session_reject_request(chungvator_session *session, uint32_t request,
                                                         const uint8_t *code, size_t code_len,
                                                         const uint8_t *description, size_t description_len,
                                                         uint64_t clock, uint8_t *out, size_t out_len,
                                                         chungvator_answer *answer) {
    return chungvator_reject_request(CHUNGVATOR_OF(session), request, code, code_len, description, description_len,
                                     clock, out, out_len, CHUNGVATOR_TO(answer));
}

static inline uint32_t chungvator_session_finish_playing(chungvator_session *session, uint32_t stream, uint64_t clock,
                                                         uint8_t *out, size_t out_len, chungvator_answer *answer) {
    return chungvator_finish_playing(CHUNGVATOR_OF(session), stream, clock, out, out_len, CHUNGVATOR_TO(answer));
}

static inline uint32_t chungvator_session_send_audio_data(const chungvator_session *session, uint32_t stream,
                                                          uint32_t timestamp, uint32_t droppable, const uint8_t *body,
                                                          size_t body_len, uint8_t *out, size_t out_len,
                                                          uint64_t *written) {
    return chungvator_send_audio_data(CHUNGVATOR_OF(session), stream, timestamp, droppable, body, body_len, out,
                                      out_len, written);
}

static inline uint32_t chungvator_session_send_video_data(const chungvator_session *session, uint32_t stream,
                                                          uint32_t timestamp, uint32_t droppable, const uint8_t *body,
                                                          size_t body_len, uint8_t *out, size_t out_len,
                                                          uint64_t *written) {
    return chungvator_send_video_data(CHUNGVATOR_OF(session), stream, timestamp, droppable, body, body_len, out,
                                      out_len, written);
}

static inline uint32_t chungvator_session_send_metadata(const chungvator_session *session, uint32_t stream,
                                                        const chungvator_metadata *metadata, uint64_t clock,
                                                        uint8_t *out, size_t out_len, uint64_t *written) {
    return chungvator_send_metadata(CHUNGVATOR_OF(session), stream, metadata->described, metadata->encoder, clock, out,
                                    out_len, written);
}

static inline uint32_t chungvator_session_send_ping_request(const chungvator_session *session, uint64_t clock,
                                                            uint8_t *out, size_t out_len, uint64_t *written,
                                                            uint32_t *timestamp) {
    return chungvator_send_ping_request(CHUNGVATOR_OF(session), clock, out, out_len, written, timestamp);
}

#undef CHUNGVATOR_HOLDS
#undef CHUNGVATOR_SESSION_ARRAYS
#undef CHUNGVATOR_READ_ARRAYS
#undef CHUNGVATOR_ANSWER_ARRAYS
#undef CHUNGVATOR_OF
#undef CHUNGVATOR_TO

#ifdef __cplusplus
}
#endif

#endif
