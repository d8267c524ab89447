/* Makes every call of the header's inline functions once, and prints what each left, for tests/c_calls.rs to compare. */
#include "chungvator.h"
#include <stdio.h>
#include <string.h>

static chungvator_session session;
static chungvator_answer answer;
static uint8_t out[1024];

static void show(const char *what, const void *bytes, size_t n) {
    const uint8_t *p = bytes;
    printf(" %s=", what);
    for (size_t i = 0; i < n; i++) printf("%02x", p[i]);
}

/* The session's bytes and the buffer's too, so that an argument in a wrong place shows. */
static void done(const char *name, uint32_t number) {
    printf("%s %u", name, number);
    show("session", &session, sizeof session);
    show("out", out, sizeof out);
}

static void answered(const char *name, uint32_t number) {
    done(name, number);
    show("answer", &answer, sizeof answer);
    printf("\n");
}

static void sent(const char *name, uint32_t number, uint64_t written) {
    done(name, number);
    printf(" written=%llu\n", (unsigned long long)written);
}

static void command(const char *name, uint32_t stream, const char *body, size_t n) {
    answered(name, chungvator_session_handle_message(&session, CHUNGVATOR_TYPE_COMMAND, stream, 11, 1012,
                                                     (const uint8_t *)body, n, out, sizeof out, &answer));
}
#define COMMAND(name, stream, body) command(name, stream, body, sizeof body - 1)

/* A command's beginning: the string and the number 1. */
#define NAMED(length, name) "\x02\x00" length name "\x00\x3f\xf0\x00\x00\x00\x00\x00\x00"

int main(void) {
    const uint8_t *version = (const uint8_t *)"V/1", *body = (const uint8_t *)"frame";
    uint64_t written;
    answered("start", chungvator_session_start(&session, 4096, 1, 2, 1, version, 3, 1000, out, sizeof out, &answer));
    COMMAND("connect", 0, NAMED("\x07", "connect") "\x03\x00\x03" "app\x02\x00\x05" "bench\x00\x00\x09");
    answered("accept", chungvator_session_accept_request(&session, 0, 1013, out, sizeof out, &answer));
    COMMAND("create", 0, NAMED("\x0c", "createStream") "\x05");
    COMMAND("publish", 1, NAMED("\x07", "publish") "\x05\x02\x00\x04" "pin7\x02\x00\x04" "live");
    answered("reject", chungvator_session_reject_request(&session, 1, (const uint8_t *)"code", 4,
                                                         (const uint8_t *)"words", 5, 1014, out, sizeof out, &answer));
    COMMAND("play", 1, NAMED("\x04", "play") "\x05\x02\x00\x04" "pin8");
    answered("accept", chungvator_session_accept_request(&session, 2, 1015, out, sizeof out, &answer));

    chungvator_metadata metadata;
    memset(&metadata, 0, sizeof metadata);
    for (int i = 0; i < CHUNGVATOR_PROPERTIES; i++) {
        metadata.described[CHUNGVATOR_SET][i] = 1;
        metadata.described[CHUNGVATOR_VALUES][i] = (uint64_t)i + 1;
    }
    memcpy(metadata.encoder, "bench camera", 12);
    uint32_t number = chungvator_session_send_metadata(&session, 5, &metadata, 1016, out, sizeof out, &written);
    sent("metadata", number, written);
    number = chungvator_session_send_audio_data(&session, 6, 21, 1, body, 5, out, sizeof out, &written);
    sent("audio", number, written);
    number = chungvator_session_send_video_data(&session, 7, 22, 0, body, 4, out, sizeof out, &written);
    sent("video", number, written);
    uint32_t timestamp;
    number = chungvator_session_send_ping_request(&session, 1017, out, sizeof out, &written, &timestamp);
    printf("%u ", timestamp);
    sent("ping", number, written);
    answered("finish", chungvator_session_finish_playing(&session, 1, 1018, out, sizeof out, &answer));

    COMMAND("publish", 1, NAMED("\x07", "publish") "\x05\x02\x00\x04" "pin9\x02\x00\x04" "live");
    answered("accept", chungvator_session_accept_request(&session, 3, 1019, out, sizeof out, &answer));
    chungvator_media media;
    number = chungvator_session_handle_media(&session, CHUNGVATOR_TYPE_VIDEO, 1, 33, &media);
    done("media", number);
    show("media", &media, sizeof media);
    printf("\n");
    return 0;
}
