/* Prints the corrections of a line from standard input, one a line and each as soon as its frame has come: position of the frame, the two line bits before it,
 * station, Z count, system (GPS or GLO), satellite, PRC in mm, RRC in mm/s, UDRE limit in mm, and the IOD of GPS or change
 * bit/tb of GLONASS; then how many positions a word ruled out, with an odd and with an even remainder, and how many frames,
 * corrections and refused entries there were. A satellite that is not to be used has "stop" for PRC and RRC. An entry that
 * can't be read, a GLONASS one with a tb past the hour, gives a line with its number and the refusal's, and the program goes
 * on.
 *
 *   cc -std=c11 -O2 -Wall -Wextra examples/c/corrections.c $(pkg-config --cflags --libs rtcm2) -o corrections
 *   ./corrections < examples/stream.bin
 */
#include <errno.h>
#include <inttypes.h>
#include <stdio.h>
#include <stdlib.h>
#include <string.h>
#include <unistd.h>

#include <rtcm2.h>

/* How many frames are read in one call at most. */
enum { ROWS = 64 };

/* What was printed so far. */
struct totals {
    unsigned long long frames;
    unsigned long long corrections;
    unsigned long long refused;
};

/* A frame that was taken: its journal record, the position of its first bit, and the two line bits before it. */
struct frame {
    uint8_t record[RTCM2_FRAME_MAX];
    size_t length;
    uint32_t at;
    uint8_t d29, d30;
};

/* Stops the program where a call that can't be refused here was refused. */
static void check(uint8_t answer, const char *call)
{
    if (answer != RTCM2_OK) {
        fprintf(stderr, "corrections: %s answered %u: %s\n", call, (unsigned)answer, rtcm2_refusal_text(answer));
        exit(1);
    }
}

/* PRC in mm and RRC in mm/s, or "stop" for both: either number stops the satellite. */
static void print_values(uint8_t scale, int16_t prc, int8_t rrc)
{
    uint8_t stop;
    int32_t mm, mm_s;

    check(rtcm2_stops(prc, rrc, &stop), "rtcm2_stops");
    if (stop) {
        printf(" stop stop");
        return;
    }
    check(rtcm2_prc_mm(scale, prc, &stop, &mm), "rtcm2_prc_mm");
    check(rtcm2_rrc_mm_s(scale, rrc, &stop, &mm_s), "rtcm2_rrc_mm_s");
    printf(" %" PRId32 " %" PRId32, mm, mm_s);
}

/* Whether corrections of this type are for GLONASS satellites. */
static int is_glonass(uint8_t kind)
{
    return kind == 31 || kind == 34;
}

/* The last eight bits: the IOD, or the change bit and the seven bits of tb. */
static void print_issue(uint8_t kind, uint8_t issue)
{
    if (is_glonass(kind))
        printf(" %u/%u\n", (unsigned)issue / 128, (unsigned)issue % 128);
    else
        printf(" %u\n", (unsigned)issue);
}

/* The values of a correction of RTCM2_CORRECTION_SIZE bytes. */
static void print_correction(const uint8_t *correction, uint8_t kind, uint8_t health)
{
    uint8_t scale = correction[0], udre = correction[1], satellite = correction[2], issue = correction[6];
    int16_t prc = (int16_t)(correction[3] | correction[4] << 8);
    int8_t rrc = (int8_t)correction[5];
    uint8_t limited;
    uint32_t limit;

    printf(" %u", (unsigned)satellite);
    print_values(scale, prc, rrc);
    check(rtcm2_udre_limit_mm(health, udre, &limited, &limit), "rtcm2_udre_limit_mm");
    if (limited)
        printf(" %" PRIu32, limit);
    else
        printf(" none");
    print_issue(kind, issue);
}

/* How many corrections a frame holds: none for another type, a Z count past the hour, or an N that doesn't fit, which a null
 * frame of type 34 has too. */
static size_t count_corrections(const struct frame *frame)
{
    size_t count;
    uint8_t answer = rtcm2_count_corrections(frame->record, frame->length, &count);

    if (answer == RTCM2_OTHER_TYPE || answer == RTCM2_Z_COUNT || answer == RTCM2_WRONG_N)
        return 0;
    check(answer, "rtcm2_count_corrections");
    return count;
}

/* A line for each correction of a frame, and for each entry with a number out of its range. */
static void print_frame(const struct frame *frame, struct totals *totals)
{
    struct rtcm2_header header;
    uint8_t n;
    size_t length, count = count_corrections(frame);

    check(rtcm2_recall_to(frame->record, frame->length, &header, &n, &length), "rtcm2_recall");
    for (size_t i = 0; i < count; i++) {
        uint8_t correction[RTCM2_CORRECTION_SIZE];
        uint8_t answer = rtcm2_correction_at(frame->record, frame->length, i, correction, sizeof correction);

        printf("%" PRIu32 " %u%u", frame->at, (unsigned)frame->d29, (unsigned)frame->d30);
        printf(" %u %u %s", (unsigned)header.station, (unsigned)header.z, is_glonass(header.kind) ? "GLO" : "GPS");
        if (answer == RTCM2_FIELD) {
            printf(" entry %zu refused %u\n", i, (unsigned)answer);
            totals->refused++;
            continue;
        }
        check(answer, "rtcm2_correction_at");
        print_correction(correction, header.kind, header.health);
        totals->corrections++;
    }
    totals->frames++;
}

/* Prints the frame of a row of rtcm2_read. */
static void print_row(const uint8_t *row, struct totals *totals)
{
    struct frame frame;

    frame.at = (uint32_t)row[0] | (uint32_t)row[1] << 8 | (uint32_t)row[2] << 16 | (uint32_t)row[3] << 24;
    frame.d29 = row[4];
    frame.d30 = row[5];
    /* N, the record's third byte, says how long it is */
    frame.length = 9 + 3 * (size_t)row[8];
    memcpy(frame.record, row + 6, frame.length);
    print_frame(&frame, totals);
}

/* Takes every frame that waits. */
static void take_all(uint8_t *state, struct totals *totals)
{
    for (;;) {
        struct frame frame;
        uint8_t answer = rtcm2_take(state, RTCM2_STATE_SIZE, frame.record, sizeof frame.record, &frame.length, &frame.at,
                                    &frame.d29, &frame.d30);

        if (answer == RTCM2_NO_FRAME)
            return;
        check(answer, "rtcm2_take");
        print_frame(&frame, totals);
    }
}

/* Feeds bytes of the line and takes their frames: one call, and another where every row has a frame. What was printed can be read
 * before more of the line is. */
static void feed(uint8_t *state, const uint8_t *bytes, size_t size, struct totals *totals)
{
    uint8_t rows[ROWS * RTCM2_READ_ROW];
    size_t used, passed, count;

    do {
        check(rtcm2_read(state, RTCM2_STATE_SIZE, bytes, size, rows, sizeof rows, &used, &passed, &count), "rtcm2_read");
        for (size_t i = 0; i < count; i++)
            print_row(rows + i * RTCM2_READ_ROW, totals);
        bytes += used;
        size -= used;
    } while (count == ROWS);
    fflush(stdout);
}

/* Some bytes of standard input, as many as have come: a slow line is not waited for. None at its end, -1 where it can't be read. */
static ssize_t read_some(uint8_t *bytes, size_t room)
{
    ssize_t size;

    do
        size = read(STDIN_FILENO, bytes, room);
    while (size < 0 && errno == EINTR);
    return size;
}

int main(void)
{
    uint8_t state[RTCM2_STATE_SIZE], bytes[4096];
    struct totals totals = {0, 0, 0};
    uint32_t odd, even;
    ssize_t size;

    check(rtcm2_start(state, sizeof state), "rtcm2_start");
    while ((size = read_some(bytes, sizeof bytes)) > 0)
        feed(state, bytes, (size_t)size, &totals);
    if (size < 0)
        perror("corrections: standard input");
    check(rtcm2_end(state, sizeof state), "rtcm2_end");
    take_all(state, &totals);
    check(rtcm2_counts(state, sizeof state, &odd, &even), "rtcm2_counts");
    printf("odd %" PRIu32 " even %" PRIu32 "\n", odd, even);
    printf("frames %llu corrections %llu refused %llu\n", totals.frames, totals.corrections, totals.refused);
    if (fflush(stdout) != 0 || ferror(stdout)) {
        perror("corrections: standard output");
        return 1;
    }
    return size < 0;
}
