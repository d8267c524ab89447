#include "chungvator.h"
#include <stdio.h>

int main(void) {
    /* A connect, as the chunk layer hands it on: the name, transaction 1, and an object with the app. */
    static const uint8_t body[] = "\x02\0\7connect\0\x3f\xf0\0\0\0\0\0\0\3\0\3app\2\0\5bench\0\0\x09";
    static const uint8_t version[] = "FMS/3,0,1,1233";
    chungvator_session session;
    chungvator_answer answer;
    uint8_t out[1024];
    uint32_t refusal = chungvator_session_start(&session, 4096, 2500000, 2500000, 0, version, sizeof version - 1,
                                                0, out, sizeof out, &answer);
    printf("start %u: %u bytes to send\n", refusal, (unsigned)answer.numbers[CHUNGVATOR_NUMBER_WRITTEN]);

    refusal = chungvator_session_handle_message(&session, CHUNGVATOR_TYPE_COMMAND, 0, 0, 20, body, sizeof body - 1,
                                                out, sizeof out, &answer);
    if (refusal || answer.numbers[CHUNGVATOR_NUMBER_EVENT] != CHUNGVATOR_CONNECTION_REQUESTED) return 1;
    uint32_t request = (uint32_t)answer.numbers[CHUNGVATOR_NUMBER_REQUEST];
    int length = (int)answer.numbers[CHUNGVATOR_NUMBER_APP_LEN];
    printf("request %u: connect to %.*s\n", request, length, (const char *)answer.words[CHUNGVATOR_WORD_APP]);

    refusal = chungvator_session_accept_request(&session, request, 25, out, sizeof out, &answer);
    printf("accept %u: %u bytes to send\n", refusal, (unsigned)answer.numbers[CHUNGVATOR_NUMBER_WRITTEN]);
    return refusal != 0;
}
