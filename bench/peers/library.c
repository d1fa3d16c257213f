/* The library: in rows, a call for 65,536 bytes; in two calls, feeding such slices and taking; or byte by byte, with a taking after each. */
#include "passes.h"
#include "rtcm2.h"

enum { SLICE = 65536, ROWS = 6000 };

static unsigned char state[RTCM2_STATE_SIZE], rows[ROWS * RTCM2_READ_ROW], frame[RTCM2_FRAME_MAX];

static size_t least(size_t a, size_t b) { return a < b ? a : b; }

static unsigned long taken(void) {
    unsigned long frames = 0;
    size_t length;
    uint32_t at;
    uint8_t d29, d30;
    while (rtcm2_take(state, sizeof state, frame, sizeof frame, &length, &at, &d29, &d30) == RTCM2_OK) frames++;
    return frames;
}

static unsigned long in_rows(const unsigned char *bytes, size_t size) {
    unsigned long frames = 0;
    size_t used, passed, count;
    for (size_t at = 0; at < size; at += used) {
        if (rtcm2_read(state, sizeof state, bytes + at, least(size - at, SLICE), rows, sizeof rows, &used, &passed, &count) != RTCM2_OK) exit(1);
        frames += count;
    }
    return frames;
}

static unsigned long in_two_calls(const unsigned char *bytes, size_t size) {
    unsigned long frames = 0;
    size_t used, passed;
    for (size_t at = 0; at < size; at += used) {
        if (rtcm2_feed_all(state, sizeof state, bytes + at, least(size - at, SLICE), &used, &passed) != RTCM2_OK) exit(1);
        frames += taken();
    }
    return frames;
}

static unsigned long byte_by_byte(const unsigned char *bytes, size_t size) {
    unsigned long frames = 0;
    for (size_t at = 0; at < size; at++) {
        rtcm2_feed(state, sizeof state, bytes[at]);
        frames += taken();
    }
    return frames;
}

static unsigned long pass(const unsigned char *bytes, size_t size, const char *how) {
    rtcm2_start(state, sizeof state);
    unsigned long frames = *how == 'r' ? in_rows(bytes, size) : *how == 'c' ? in_two_calls(bytes, size) : byte_by_byte(bytes, size);
    rtcm2_end(state, sizeof state);
    return frames + taken();
}
