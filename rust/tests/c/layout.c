/* Prints every place that the header names, for tests/layout.rs to compare. */
#include "chungvator.h"
#include <stdio.h>

#define SHOW(what) printf("%s %zu\n", #what, (size_t)(what))
#define SHOW_FIELD(type, field) printf("%s.%s %zu\n", #type, #field, offsetof(type, field))

int main(void) {
    SHOW(sizeof(chungvator_session));
    SHOW(_Alignof(chungvator_session));
    SHOW_FIELD(chungvator_session, facts);
    SHOW_FIELD(chungvator_session, streams);
    SHOW_FIELD(chungvator_session, requests);
    SHOW_FIELD(chungvator_session, names);
    SHOW(sizeof(chungvator_answer));
    SHOW(_Alignof(chungvator_answer));
    SHOW_FIELD(chungvator_answer, numbers);
    SHOW_FIELD(chungvator_answer, described);
    SHOW_FIELD(chungvator_answer, words);
    SHOW(sizeof(chungvator_media));
    SHOW(_Alignof(chungvator_media));
    SHOW_FIELD(chungvator_media, numbers);
    SHOW_FIELD(chungvator_media, words);
    SHOW(sizeof(chungvator_metadata));
    SHOW(_Alignof(chungvator_metadata));
    SHOW_FIELD(chungvator_metadata, described);
    SHOW_FIELD(chungvator_metadata, encoder);


    SHOW(CHUNGVATOR_FACT_START);
    SHOW(CHUNGVATOR_FACT_VERSION_LEN);
    SHOW(CHUNGVATOR_FACT_STATE);
    SHOW(CHUNGVATOR_FACT_HAS_APP);
    SHOW(CHUNGVATOR_FACT_APP_LEN);
    SHOW(CHUNGVATOR_FACT_ENCODING);
    SHOW(CHUNGVATOR_FACT_NEXT_STREAM);
    SHOW(CHUNGVATOR_FACT_NEXT_REQUEST);
    SHOW(CHUNGVATOR_FACT_STREAM_COUNT);
    SHOW(CHUNGVATOR_FACT_REQUEST_COUNT);

    SHOW(CHUNGVATOR_STREAM_NUMBER);
    SHOW(CHUNGVATOR_STREAM_STATE);
    SHOW(CHUNGVATOR_STREAM_MODE);
    SHOW(CHUNGVATOR_STREAM_KEY_LEN);

    SHOW(CHUNGVATOR_REQUEST_NUMBER);
    SHOW(CHUNGVATOR_REQUEST_KIND);
    SHOW(CHUNGVATOR_REQUEST_STREAM);
    SHOW(CHUNGVATOR_REQUEST_MODE);
    SHOW(CHUNGVATOR_REQUEST_TRANSACTION);
    SHOW(CHUNGVATOR_REQUEST_NAME_LEN);

    SHOW(CHUNGVATOR_NAME_VERSION);
    SHOW(CHUNGVATOR_NAME_APP);
    SHOW(CHUNGVATOR_NAME_KEYS);
    SHOW(CHUNGVATOR_NAME_REQUESTS);

    SHOW(CHUNGVATOR_NUMBER_REFUSAL);
    SHOW(CHUNGVATOR_NUMBER_ACTION);
    SHOW(CHUNGVATOR_NUMBER_ACTION_STREAM);
    SHOW(CHUNGVATOR_NUMBER_WRITTEN);
    SHOW(CHUNGVATOR_NUMBER_EVENT);
    SHOW(CHUNGVATOR_NUMBER_REQUEST);
    SHOW(CHUNGVATOR_NUMBER_MODE);
    SHOW(CHUNGVATOR_NUMBER_START_KIND);
    SHOW(CHUNGVATOR_NUMBER_START_TIME);
    SHOW(CHUNGVATOR_NUMBER_HAS_DURATION);
    SHOW(CHUNGVATOR_NUMBER_DURATION);
    SHOW(CHUNGVATOR_NUMBER_RESET);
    SHOW(CHUNGVATOR_NUMBER_STREAM);
    SHOW(CHUNGVATOR_NUMBER_TIMESTAMP);
    SHOW(CHUNGVATOR_NUMBER_APP_LEN);
    SHOW(CHUNGVATOR_NUMBER_KEY_LEN);

    SHOW(CHUNGVATOR_SET);
    SHOW(CHUNGVATOR_VALUES);
    SHOW(CHUNGVATOR_WIDTH);
    SHOW(CHUNGVATOR_HEIGHT);
    SHOW(CHUNGVATOR_VIDEO_CODEC_ID);
    SHOW(CHUNGVATOR_VIDEO_DATA_RATE);
    SHOW(CHUNGVATOR_FRAME_RATE);
    SHOW(CHUNGVATOR_AUDIO_CODEC_ID);
    SHOW(CHUNGVATOR_AUDIO_DATA_RATE);
    SHOW(CHUNGVATOR_AUDIO_SAMPLE_RATE);
    SHOW(CHUNGVATOR_AUDIO_CHANNELS);
    SHOW(CHUNGVATOR_STEREO);
    SHOW(CHUNGVATOR_ENCODER);

    SHOW(CHUNGVATOR_WORD_APP);
    SHOW(CHUNGVATOR_WORD_KEY);
    SHOW(CHUNGVATOR_WORD_ENCODER);

    SHOW(CHUNGVATOR_MEDIA_EVENT);
    SHOW(CHUNGVATOR_MEDIA_TIMESTAMP);
    SHOW(CHUNGVATOR_MEDIA_APP_LEN);
    SHOW(CHUNGVATOR_MEDIA_KEY_LEN);

    /* Row and column of a table, by the offset of its last cell. */
    SHOW(offsetof(chungvator_session, streams[15][CHUNGVATOR_STREAM_KEY_LEN]));
    SHOW(offsetof(chungvator_session, requests[15][CHUNGVATOR_REQUEST_NAME_LEN]));
    SHOW(offsetof(chungvator_session, names[CHUNGVATOR_NAME_REQUESTS + 15]));
    SHOW(offsetof(chungvator_answer, described[CHUNGVATOR_VALUES][CHUNGVATOR_ENCODER]));
    return 0;
}
