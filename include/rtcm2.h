/* The line package for RTCM version 2, for C and Rust: line bytes to frames, frames to records, both ways back.
 *
 * Every function here is proved to meet a contract that settles its answer, the next state and every byte that it is lent,
 * for every input. Nothing is trusted of the caller but what C itself can't say: a pointer comes with the number of bytes
 * that lie behind it, is never null (not even for no bytes), and no two places that are lent to one call overlap.
 *
 * Answers. A call answers 0, or the number of its refusal (RTCM2_.. below). Each comment gives the refusals in the order in
 * which they are looked at; a call refuses exactly when one applies, and with the first that does. A refusal changes
 * nothing: every place lent to the call holds what it held before. A call that answers 0 sets every number it is lent, and of
 * lent bytes exactly those that its comment names.
 *
 * Frames. A frame passes as its journal record: the mark 0x52 0x32, one byte N, then the header's two words and the N data
 * words, three bytes each with the highest bits first; 3N + 9 bytes, at most RTCM2_FRAME_MAX. Where a frame is read, bytes
 * that follow the record are ignored. A record has no place for the two bits before word 1, and no call on a frame depends on
 * them; rtcm2_take and rtcm2_read give them beside it. "14, 15, 16, 15, 16" below is the order in which such a record is looked at:
 * no mark; the N byte missing; N over 31; cut short; N unequal to N of word 2, or a wrong preamble.
 *
 * Headers. Where a frame is made, its header comes as five numbers: type 1 to 64 (`kind`), station 0 to 1023, Z count 0 to 8191
 * (`z`, 0.6 s each), sequence 0 to 7, health 0 to 7. One outside its range is 5. The calls at the end of this file take them in
 * a struct instead.
 *
 * Types. 1, 3, 5, 6, 9 and 16 are of GPS, 31, 32, 33, 34 and 36 of GLONASS. A call on a record takes the types of both:
 * corrections 1, 9, 31 and 34; position 3 and 32; health 5 and 33; null frame 6 and 34; text 16 and 36. A frame of type 34
 * holds no corrections where N is 0 or 1, and is then a null frame; else it is no null frame. Any other type is 6. Types 18 and 19,
 * raw observations, are of both systems. Types 41 and 42, general corrections, name their system in the frame: 1 GPS, 2 GLONASS, 5 QZSS,
 * 6 BDS; any other number is 23. A frame of type 42 with N 1 is the null frame of its system, which calls of its own read and make.
 *
 * Editions. The papers disagree on the first bit of a satellite in types 18 and 19. A call that says or takes its meaning is given
 * the edition: 0 for GOST R 53612-2009, 1 for BD 410002-2015; any other number is 5.
 */
#ifndef RTCM2_H
#define RTCM2_H

#include <stddef.h>
#include <stdint.h>

#ifdef __cplusplus
extern "C" {
#endif

/* The version of this file and of the library that it is for: a text, and a number that grows, 10000 times the first part, 100
 * times the second and the third. */
#define RTCM2_VERSION "1.0.0"
#define RTCM2_VERSION_NUMBER 10000

/* The refusals. */
enum {
    RTCM2_OK = 0,
    RTCM2_NO_DATA_BYTE = 1,   /* byte without top bits 01 */
    RTCM2_FRAME_WAITS = 2,    /* fed or ended while a frame waits */
    RTCM2_ENDED = 3,          /* fed or ended after the end */
    RTCM2_NO_FRAME = 4,       /* taking when no frame waits */
    RTCM2_OUTSIDE = 5,        /* a value outside its width; bytes that are no reader state or no report; a carried bit not 0 or 1 */
    RTCM2_OTHER_TYPE = 6,     /* the frame is of another type */
    RTCM2_Z_COUNT = 7,        /* Z count 6000 to 8191 */
    RTCM2_WRONG_N = 8,        /* N doesn't fit the type */
    RTCM2_NO_ENTRY = 9,       /* entry number not below the count */
    RTCM2_FIELD = 10,         /* record field outside its range */
    RTCM2_CHARACTER = 11,     /* forbidden character */
    RTCM2_ENTRIES = 12,       /* no entry, too many, or bytes that are no whole number of entries; a null frame's N */
    RTCM2_TOO_SHORT = 13,     /* lent buffer too short */
    RTCM2_NO_MARK = 14,       /* the bytes do not begin with the journal mark */
    RTCM2_CUT_SHORT = 15,     /* journal record cut short */
    RTCM2_BAD_RECORD = 16,    /* N of a journal record over 31 or not that of word 2, or its preamble wrong */
    RTCM2_BROKEN = 17,        /* a kept word fails parity, or its carried bits are not the last two of the word before */
    RTCM2_NO_ROOM = 18,       /* a new key of a season's report with all its rows in use */
    RTCM2_COUNT = 19,         /* a count of a season's report that would pass 4,294,967,295 */
    RTCM2_OTHER_PROFILE = 20, /* the type is not of the small-beacon profile */
    RTCM2_SATELLITES = 21,    /* more than three satellites in a frame of the profile */
    RTCM2_TWICE = 22,         /* one satellite twice */
    RTCM2_OTHER_SYSTEM = 23   /* the system of types 41 and 42 is not GPS, GLONASS, QZSS or BDS */
};

/* Sizes in bytes. */
enum {
    RTCM2_STATE_SIZE = 196,     /* a reader's state; rtcm2_state_size answers the same */
    RTCM2_FRAME_MAX = 102,      /* the longest frame, 31 data words */
    RTCM2_READ_ROW = 108,       /* one row of rtcm2_read: position, D29*, D30* and a frame */
    RTCM2_LINE_MAX = 165,       /* the longest frame on the line */
    RTCM2_WORDS_MAX = 135,      /* the longest record that keeps the words */
    RTCM2_CORRECTION_SIZE = 7,  /* one correction */
    RTCM2_OBSERVATION_SIZE = 12, /* one observation */
    RTCM2_GENERAL_SIZE = 7,     /* one general correction */
    RTCM2_HEALTH_SIZE = 10,     /* one satellite's health */
    RTCM2_TEXT_MAX = 90,        /* the longest text */
    RTCM2_SEASON_SIZE = 14852,  /* a season's report, 512 rows */
    RTCM2_SEASON_ROW_SIZE = 29, /* one row of it */
    RTCM2_REPORT_MAX = 986,     /* room for the report of any step of the mender */
    RTCM2_CUT_MAX = 144         /* the longest list that is cut, six frames of three corrections */
};

/* ---- Reading the line. The reader's state lies in RTCM2_STATE_SIZE bytes that the caller lends; bytes past them are not
 * looked at. Bytes that hold no state (too few, never started, or with counts past what a reader can hold, which rtcm2_counts
 * alone does not ask) are refused with 5 and left alone; so is a state of the size that it had before the counters. */

/* How many bytes a state takes: RTCM2_STATE_SIZE. */
size_t rtcm2_state_size(void);

/* Starts a reader: the first RTCM2_STATE_SIZE bytes become a fresh state. Refusal: 13. */
uint8_t rtcm2_start(uint8_t *state, size_t state_size);

/* Feeds one byte of the line. Refusals: 5, 3, 2, 1. A byte without bits (1) changes nothing and may be passed over. */
uint8_t rtcm2_feed(uint8_t *state, size_t state_size, uint8_t byte);

/* Feeds bytes until a frame waits or none is left; bytes without bits are passed over. `used` bytes were consumed, `passed`
 * of them carry no bit. Take the frame, then feed the rest. Refusals: 5, 3, 2. */
uint8_t rtcm2_feed_all(uint8_t *state, size_t state_size, const uint8_t *bytes, size_t bytes_size, size_t *used, size_t *passed);

/* The input has ended. This may release frames: take until none waits. Refusals: 5, 3, 2. */
uint8_t rtcm2_end(uint8_t *state, size_t state_size);

/* Takes the frame that waits: its record of `length` bytes at the start of `frame`, the position `at` of its first bit in the
 * line bits taken, modulo 2^32, and the two line bits before it, D29* and D30*, each 0 or 1. Either value of the two occurs on a
 * sound line: they do not tell whether a line is turned. Another frame may wait at once. Only a frame that stands in the bits
 * held is handed out: where a state says that one waits and none stands, the refusal is 4. Refusals: 5, 4, 13. */
uint8_t rtcm2_take(uint8_t *state, size_t state_size, uint8_t *frame, size_t frame_size, size_t *length, uint32_t *at,
                   uint8_t *d29, uint8_t *d30);

/* Feeds and takes in turns: one call for what a read of the line brought. Where no frame waits, the bytes left are fed as
 * rtcm2_feed_all feeds them; the frame that then waits is taken as rtcm2_take takes it and put into the next row. One that waits
 * before the call goes out first. It ends when no frame is left to take, or after the last row that there is room for, and then
 * no more is fed: rows_size / RTCM2_READ_ROW rows. `used` bytes were consumed, `passed` of them carry no bit, `count` rows were
 * put. Row i stands at RTCM2_READ_ROW * i: the position of the frame's first bit, modulo 2^32, in four bytes, low byte first;
 * D29* and D30*, a byte each, 0 or 1; the frame's record. What stands behind a record in its row, and all behind the last row
 * put, is left as it was. Where every row was put, bytes may be left and a frame may wait: call again. Frames that the end
 * releases are for rtcm2_take. 5 also where a damaged state says that a frame waits and none stands in the bits held; a call
 * that comes to such a state ends there. Refusals: 5, 3, 13. */
uint8_t rtcm2_read(uint8_t *state, size_t state_size, const uint8_t *bytes, size_t bytes_size, uint8_t *rows, size_t rows_size,
                   size_t *used, size_t *passed, size_t *count);

/* How many positions of the line a word has ruled out so far: the first word of a position to fail its parity has a remainder,
 * received parity xor computed parity, with an odd number of ones, `odd`, or an even one, `even`; each modulo 2^32. A position
 * without its preamble, or one that the end rules out, counts in neither. An odd number of ones is an odd number of turned bits.
 * The state is not changed. Refusal: 5 for too few bytes, or for bytes that were never started. */
uint8_t rtcm2_counts(const uint8_t *state, size_t state_size, uint32_t *odd, uint32_t *even);

/* ---- Writing the line. Two bits are carried from frame to frame, D29* and D30*; after opening both are 0. */

/* Opens a stream: one byte, six zero bits. Refusal: 13. */
uint8_t rtcm2_open(uint8_t *line, size_t line_size);

/* Writes a frame after the two carried bits and sets them to its last two: 5(N + 2) bytes, `length`, at the start of `line`.
 * Refusals: 14, 15, 16, 15, 16, then 5 (a carried bit not 0 or 1), 7, 13. */
uint8_t rtcm2_write(const uint8_t *frame, size_t frame_size, uint8_t *d29, uint8_t *d30, uint8_t *line, size_t line_size,
                    size_t *length);

/* ---- Frames and their journal records. */

/* Keeps a frame of any type: its header and its N data words, three bytes each with the highest bits first, 3N bytes in
 * `bytes`. The record is written at the start of `frame`. Refusals: 5 (also when `bytes` are no whole number of words or over
 * 31), 13. */
uint8_t rtcm2_keep(uint8_t kind, uint16_t station, uint16_t z, uint8_t sequence, uint8_t health, const uint8_t *bytes,
                   size_t bytes_size, uint8_t *frame, size_t frame_size, size_t *length);

/* Recalls the record at the start of `frame`: its header, N and its length, 3N + 9. The data words are the 3N bytes from the
 * tenth on. Refusals: 14, 15, 16, 15, 16. */
uint8_t rtcm2_recall(const uint8_t *frame, size_t frame_size, uint8_t *kind, uint16_t *station, uint16_t *z, uint8_t *sequence,
                     uint8_t *health, uint8_t *n, size_t *length);

/* ---- The journal that keeps the words. A record is the mark 0x52 0x34, one byte N, then each of the N + 2 words in four bytes:
 * the two carried bits before it and its thirty bits, the first sent highest; 4N + 11 bytes, at most RTCM2_WORDS_MAX. */

/* Keeps the words of a frame, which start from the two carried bits (as rtcm2_take gives them; 0 and 0 for a frame that was
 * kept without): `length` bytes at the start of `words`. Refusals: 14, 15, 16, 15, 16 of `frame`, then 5 (a carried bit not 0
 * or 1), 13. */
uint8_t rtcm2_keep_words(const uint8_t *frame, size_t frame_size, uint8_t d29, uint8_t d30, uint8_t *words, size_t words_size,
                         size_t *length);

/* Recalls the record at the start of `words`, of which `read` bytes are used; what follows is ignored. Its frame goes to the
 * start of `frame`, `length` bytes, its two carried bits to `d29` and `d30`. Refusals: 14, 15, 16, 15, 16, 17 of `words`, then
 * 13. */
uint8_t rtcm2_recall_words(const uint8_t *words, size_t words_size, uint8_t *frame, size_t frame_size, uint8_t *d29, uint8_t *d30,
                           size_t *read, size_t *length);

/* ---- Corrections, types 1, 9, 31 and 34. A correction is RTCM2_CORRECTION_SIZE bytes: scale 0 to 1, UDRE 0 to 3, satellite 1 to
 * 32, PRC in two bytes (two's complement, low byte first), RRC (two's complement), and a last byte. This is IOD in types 1 and 9;
 * in types 31 and 34 its highest bit is the change bit and the other seven are tb, 0 to 119. PRC -32768 or RRC -128 says to stop
 * using the satellite. */

/* How many corrections the frame holds. Refusals: 14, 15, 16, 15, 16, then 6, 7, 8. */
uint8_t rtcm2_count_corrections(const uint8_t *frame, size_t frame_size, size_t *count);

/* The correction at `index`, from 0, to the start of `correction`. Refusals: 14, 15, 16, 15, 16, then 6, 7, 8, 9, 10 (tb over
 * 119), 13. */
uint8_t rtcm2_correction_at(const uint8_t *frame, size_t frame_size, size_t index, uint8_t *correction, size_t correction_size);

/* Makes a frame of 1 to 18 corrections, one after the other in `corrections`; the type says how the last byte of each is meant.
 * Refusals: 5, 6, 7, 12, 10, 13. */
uint8_t rtcm2_make_corrections(uint8_t kind, uint16_t station, uint16_t z, uint8_t sequence, uint8_t health,
                               const uint8_t *corrections, size_t corrections_size, uint8_t *frame, size_t frame_size,
                               size_t *length);

/* ---- Constellation health, types 5 and 33. A satellite's health is RTCM2_HEALTH_SIZE bytes: reserved 0 to 1, satellite 1 to 32,
 * link to IOD or tb 0 to 1, health 0 to 7, C/N0 0 to 31, enable, new data and loss warning 0 to 1 each, time 0 to 15, reserved 0
 * to 3. Health is one code of three bits in type 5; in type 33 the highest of the three is the data health, and the other two are
 * reserved. */

/* How many satellites the frame holds. Refusals: 14, 15, 16, 15, 16, then 6, 7, 8. */
uint8_t rtcm2_count_healths(const uint8_t *frame, size_t frame_size, size_t *count);

/* The health at `index`, from 0, to the start of `bytes`. Refusals: 14, 15, 16, 15, 16, then 6, 7, 8, 9, 13. */
uint8_t rtcm2_health_at(const uint8_t *frame, size_t frame_size, size_t index, uint8_t *bytes, size_t bytes_size);

/* Makes a frame of 1 to 31 satellites' health, one after the other in `healths`. Refusals: 5, 6, 7, 12, 10, 13. */
uint8_t rtcm2_make_healths(uint8_t kind, uint16_t station, uint16_t z, uint8_t sequence, uint8_t health, const uint8_t *healths,
                           size_t healths_size, uint8_t *frame, size_t frame_size, size_t *length);

/* ---- Raw observations, types 18 (phases of the carrier) and 19 (ranges). A head of frequency 0 to 3, smoothing 0 to 3 (in type 18
 * two reserved bits) and a time of 0 to 599999 microseconds; then 1 to 15 satellites. A satellite is RTCM2_OBSERVATION_SIZE bytes:
 * which mark its first bit is (0 half a wavelength, 1 reserved, 2 more frames of the set follow), that bit, code 0 to 1 (C/A, P),
 * system 0 to 1 (GPS, GLONASS), satellite 1 to 32, quality (0 to 7 in type 18, 0 to 15 in type 19), losses of continuity 0 to 31 or
 * multipath error 0 to 15, which number follows (0 phase, 1 range), and that number in four bytes, low byte first: a phase in two's
 * complement, a range in steps of 0.02 m. Edition 0 has mark 0 in type 18 and mark 1 in type 19, edition 1 has mark 2 in both; type 18
 * has a phase, type 19 a range. Another mark or another number is 10 where a frame is made. */

/* How many satellites the frame holds. Refusals: 14, 15, 16, 15, 16, then 6, 7, 8. */
uint8_t rtcm2_count_observations(const uint8_t *frame, size_t frame_size, size_t *count);

/* The head. Refusals: 14, 15, 16, 15, 16, then 6, 7, 8, 10 (time over 599999). */
uint8_t rtcm2_read_epoch(const uint8_t *frame, size_t frame_size, uint8_t *frequency, uint8_t *smoothing, uint32_t *time);

/* The satellite at `index`, from 0, to the start of `observation`. Refusals: 14, 15, 16, 15, 16, then 5 (the edition), 6, 7, 8, 9, 10
 * (time over 599999), 13. */
uint8_t rtcm2_observation_at(uint8_t edition, const uint8_t *frame, size_t frame_size, size_t index, uint8_t *observation,
                             size_t observation_size);

/* Makes a frame of 1 to 15 satellites, one after the other in `observations`. Refusals: 5 (the edition first), 6, 7, 12, 10, 13. */
uint8_t rtcm2_make_observations(uint8_t edition, uint8_t kind, uint16_t station, uint16_t z, uint8_t sequence, uint8_t health,
                                uint8_t frequency, uint8_t smoothing, uint32_t time, const uint8_t *observations,
                                size_t observations_size, uint8_t *frame, size_t frame_size, size_t *length);

/* ---- General corrections, types 41 and 42. A head of system (1 GPS, 2 GLONASS, 5 QZSS, 6 BDS), signal 0 to 15, ephemeris type 0 to 3,
 * period of use 0 to 3 and ionosphere 0 to 1; then 1 to 22 satellites, or 1 to 16 where ionosphere is 1 and each has its delay. A
 * satellite is RTCM2_GENERAL_SIZE bytes: satellite 1 to 63, UDRE 0 to 15, IOD 0 to 255, PRC in two bytes (two's complement, -8192 to
 * 8191) and the delay in two bytes (0 to 4095, 0 where ionosphere is 0), each with the low byte first. PRC -8192 says to stop using the
 * satellite, delay 4095 not to use the delay; the calls on values below tell both. */

/* How many satellites the frame holds. Refusals: 14, 15, 16, 15, 16, then 6, 7, 8 (N 0, and type 41 with N 1), 23, 8 (an N that no
 * number of satellites gives). */
uint8_t rtcm2_count_generals(const uint8_t *frame, size_t frame_size, size_t *count);

/* The head. Refusals: 14, 15, 16, 15, 16, then 6, 7, 8, 23, 8. */
uint8_t rtcm2_read_head(const uint8_t *frame, size_t frame_size, uint8_t *system, uint8_t *signal, uint8_t *ephemeris, uint8_t *period,
                        uint8_t *ionosphere);

/* The satellite at `index`, from 0, to the start of `general`. Refusals: 14, 15, 16, 15, 16, then 6, 7, 8, 23, 8, 9, 10 (satellite 0),
 * 13. */
uint8_t rtcm2_general_at(const uint8_t *frame, size_t frame_size, size_t index, uint8_t *general, size_t general_size);

/* Makes a frame of a head and its satellites, one after the other in `generals`. Refusals: 5, 6, 7, 23, 12, 10, 13. */
uint8_t rtcm2_make_generals(uint8_t kind, uint16_t station, uint16_t z, uint8_t sequence, uint8_t health, uint8_t system, uint8_t signal,
                            uint8_t ephemeris, uint8_t period, uint8_t ionosphere, const uint8_t *generals, size_t generals_size,
                            uint8_t *frame, size_t frame_size, size_t *length);

/* Whether the frame is a null frame of type 42: its N, which is 1, and its system. The other 20 bits may be any. Refusals: 14, 15, 16,
 * 15, 16, then 6 (also type 41), 7, 8 (N not 1), 23. */
uint8_t rtcm2_read_general_null(const uint8_t *frame, size_t frame_size, uint8_t *n, uint8_t *system);

/* Makes a null frame of type 42: one data word of the system and 20 bits of fill, 1 and 0 in turn. Refusals: 5, 6 (also type 41), 7,
 * 23, 12 (`n` not 1), 13. */
uint8_t rtcm2_make_general_null(uint8_t kind, uint16_t station, uint16_t z, uint8_t sequence, uint8_t health, uint8_t n, uint8_t system,
                                uint8_t *frame, size_t frame_size, size_t *length);

/* ---- The station's position, types 3 and 32: X, Y and Z in centimetres. */

/* Refusals: 14, 15, 16, 15, 16, then 6, 7, 8, 10. */
uint8_t rtcm2_read_position(const uint8_t *frame, size_t frame_size, int32_t *x_cm, int32_t *y_cm, int32_t *z_cm);

/* Refusals: 5, 6, 7, 10, 13. */
uint8_t rtcm2_make_position(uint8_t kind, uint16_t station, uint16_t z, uint8_t sequence, uint8_t health, int32_t x_cm,
                            int32_t y_cm, int32_t z_cm, uint8_t *frame, size_t frame_size, size_t *length);

/* ---- The null frame, types 6 and 34, with N 0 or 1: no data word or one. */

/* Whether the frame is a null frame, and its N. A data word may hold any bits. Refusals: 14, 15, 16, 15, 16, then 6, 7, 8. */
uint8_t rtcm2_read_null(const uint8_t *frame, size_t frame_size, uint8_t *n);

/* Makes a null frame of `n` data words; a data word is filled with 10101010 three times. Refusals: 5, 6, 7, 12 (`n` over 1),
 * 13. */
uint8_t rtcm2_make_null(uint8_t kind, uint16_t station, uint16_t z, uint8_t sequence, uint8_t health, uint8_t n, uint8_t *frame,
                        size_t frame_size, size_t *length);

/* ---- Text, types 16 and 36: 1 to 90 characters, 1 to 127 in type 16, 1 to 191 in type 36. */

/* The characters, `length` of them, at the start of `text`. Refusals: 14, 15, 16, 15, 16, then 6, 7, 8, 11, 13. */
uint8_t rtcm2_read_text(const uint8_t *frame, size_t frame_size, uint8_t *text, size_t text_size, size_t *length);

/* Refusals: 5, 6, 7, 12, 11, 13. */
uint8_t rtcm2_make_text(uint8_t kind, uint16_t station, uint16_t z, uint8_t sequence, uint8_t health, const uint8_t *text,
                        size_t text_size, uint8_t *frame, size_t frame_size, size_t *length);

/* ---- The small-beacon profile of one harbour group: types 3, 5, 6, 9 and 16 alone, type 9 with at most three satellites, none of
 * them twice. */

/* Whether the frame is in the profile. Refusals: 14, 15, 16, 15, 16, then 7, 20, 8, 10 (type 3) or 11 (type 16), 21, 22. */
uint8_t rtcm2_check_profile(const uint8_t *frame, size_t frame_size);

/* Cuts 1 to 18 corrections for different satellites, one after the other in `corrections`, into frames of type 9, three in each
 * but the last, in their order. The first has the given sequence, each other one more than that before it, modulo 8. The frames
 * stand one after the other at the start of `frames`, `length` bytes in all. Refusals: 5, 6 (any type but 9), 7, 12, 10, 22 (one
 * satellite twice in all of them), 13. */
uint8_t rtcm2_cut_corrections(uint8_t kind, uint16_t station, uint16_t z, uint8_t sequence, uint8_t health,
                              const uint8_t *corrections, size_t corrections_size, uint8_t *frames, size_t frames_size,
                              size_t *length);

/* ---- What a record's numbers stand for. */

/* PRC in mm: `stop` is 1 for -32768 (`mm` is then 0), else 0. This looks at PRC alone, and RRC -128 stops the satellite too:
 * ask rtcm2_stops before `mm` is used. Refusal: 10 for a scale over 1. */
uint8_t rtcm2_prc_mm(uint8_t scale, int16_t prc, uint8_t *stop, int32_t *mm);

/* RRC in mm/s: `stop` is 1 for -128 (`rate` is then 0), else 0. This looks at RRC alone, and PRC -32768 stops the satellite
 * too: ask rtcm2_stops before `rate` is used. Refusal: 10 for a scale over 1. */
uint8_t rtcm2_rrc_mm_s(uint8_t scale, int8_t rrc, uint8_t *stop, int32_t *rate);

/* Whether a correction says to stop using its satellite: `stop` is 1 for PRC -32768 or RRC -128, either by itself and in
 * either scale; else 0, and PRC and RRC both have values. No refusal. */
uint8_t rtcm2_stops(int16_t prc, int8_t rrc, uint8_t *stop);

/* The upper limit of a UDRE code under the station's health, in mm: `limited` is 0 for code 3, which has none (`mm` is then 0),
 * else 1. Refusals: 5 for a health over 7, 10 for a code over 3. */
uint8_t rtcm2_udre_limit_mm(uint8_t health, uint8_t udre, uint8_t *limited, uint32_t *mm);

/* C/N0 in dBHz: `tracked` is 0 for code 0 (`dbhz` is then 0), else 1. Refusal: 10 for a code over 31. */
uint8_t rtcm2_cn0_dbhz(uint8_t code, uint8_t *tracked, uint8_t *dbhz);

/* A character of a text as its number in Unicode: 1 to 127 are ASCII; 128 to 191 are the Russian letters of type 36, U+0410 to
 * U+044F in their order. Refusal: 11 for 0 and for a code over 191. */
uint8_t rtcm2_letter_of(uint8_t code, uint32_t *letter);

/* PRC of types 41 and 42 in mm: `stop` is 1 for -8192 (`mm` is then 0), else 0. Refusal: 10 below -8192 and over 8191. */
uint8_t rtcm2_general_prc_mm(int16_t prc, uint8_t *stop, int32_t *mm);

/* The ionosphere's delay of types 41 and 42 in mm: `usable` is 0 for 4095 (`mm` is then 0), else 1. Refusal: 10 over 4095. */
uint8_t rtcm2_delay_mm(uint16_t delay, uint8_t *usable, uint32_t *mm);

/* The upper limit of a UDRE code of types 41 and 42 under the station's health, in hundredths of a mm: `limited` is 0 for code 15,
 * which has none (`hundredths` is then 0), else 1. Refusals: 5 for a health over 7, 10 for a code over 15. */
uint8_t rtcm2_general_udre(uint8_t health, uint8_t udre, uint8_t *limited, uint32_t *hundredths);

/* How long corrections of types 41 and 42 may be used, in seconds, by the period of their head: 15, 30, 60, 120. Refusal: 10 for a
 * code over 3. */
uint8_t rtcm2_use_seconds(uint8_t code, uint8_t *seconds);

/* ---- The word test, for a program that holds the words of two receivers against each other. */

/* The remainder of a window: 32 line bits, D29*, D30* and then D1 to D30, the first sent highest. `remainder` is the received
 * parity xor the computed one, D25 the highest of six bits: 0 where the word passes, else 1 to 63. The remainder of an xor of
 * two windows is the xor of their remainders. No refusal. */
uint8_t rtcm2_remainder(uint32_t window, uint8_t *remainder);

/* ---- Mending a journal that keeps the words (mark 0x52 0x34), a step a call. */

/* What a step finds. */
enum {
    RTCM2_STEP_END = 0,         /* no byte is left: the run ends */
    RTCM2_STEP_WHOLE = 1,       /* a record that reads, after mending where it had to be mended */
    RTCM2_STEP_LOST = 2,        /* a record that can't be mended; its bytes stay */
    RTCM2_STEP_CUT = 3,         /* a record that the bytes end in: lost, and the run ends */
    RTCM2_STEP_NUMBERLESS = 4,  /* a record without an N that counts: lost */
    RTCM2_STEP_PASSED = 5       /* a byte that begins no record, or while searching none that is whole */
};

/* One step at the start of the bytes, which stand at the offset `at` of the journal; `searching` is 0 or not 0. No step looks
 * at more than 135 bytes: lend so many, or all that are left where the journal ends before. A whole record is put back in
 * `bytes`; `report` has a line for each byte that changed, `OFFSET OLD NEW`, or `lost OFFSET`, `written` bytes in all, offsets
 * modulo 2^64. The next step is `read` bytes on, searching after RTCM2_STEP_NUMBERLESS and RTCM2_STEP_PASSED and not
 * searching else. Refusal: 13 for a report of fewer than RTCM2_REPORT_MAX bytes. */
uint8_t rtcm2_mend(uint8_t *bytes, size_t bytes_size, uint64_t at, uint8_t searching, uint8_t *report, size_t report_size,
                   uint8_t *step, size_t *read, size_t *written);

/* ---- Statistics over a season: of each system, station and satellite how many corrections of types 1, 9, 31 and 34 could be used and
 * how many said stop (PRC -32768 or RRC -128), the least and the largest PRC in mm, and their exact sum. Types 41 and 42 are not counted.
 * A report lies in RTCM2_SEASON_SIZE bytes that the caller lends; bytes past them are not looked at. It is how many rows are in use, in
 * four bytes, and 512 rows of RTCM2_SEASON_ROW_SIZE bytes in the order first seen: system in one (0 GPS, 1 GLONASS), station in two,
 * satellite in one, usable entries in four, stop entries in four, in one whether least and largest are present (0 or 1), least and largest
 * in four each (0 where they are not present), and the sum in eight; each with the low byte first, signed numbers in two's complement. Rows
 * past those in use are not looked at, and are zeros in what a call puts.
 * Bytes are 5 that are too few, have more than 512 rows in use, or have a row in use with another system, with another number than 0 or 1
 * for present, or with least or largest not 0 where they are not present; and a report with one key in two rows, or with a sum that is not
 * from count times least to count times largest (where no entry is usable: a sum not 0, or least and largest present). A report that these
 * calls put is never refused with 5. */

/* Starts a report: the first RTCM2_SEASON_SIZE bytes become one without rows. Refusal: 13. */
uint8_t rtcm2_season_start(uint8_t *report, size_t report_size);

/* Adds the entries of a journal's bytes to a report: records of either form from the start while they recall. `used` is how many bytes
 * these have; what follows them is refused by rtcm2_recall_words where its second byte is 0x34, else by rtcm2_recall, with its number. An
 * entry that can't be read adds nothing, nor does a frame whose entries can't be counted. Refusals: 5, 18 (more keys than 512 in all), 19. */
uint8_t rtcm2_season_journal(uint8_t *report, size_t report_size, const uint8_t *bytes, size_t bytes_size, size_t *used);

/* Adds the second report to the first. Refusals: 5 for either, 18, 19. */
uint8_t rtcm2_season_add(uint8_t *first, size_t first_size, const uint8_t *second, size_t second_size);

/* The row at `index`, from 0, to the start of `row`. Refusals: 5, 9, 13. */
uint8_t rtcm2_season_row(const uint8_t *report, size_t report_size, size_t index, uint8_t *row, size_t row_size);

/* ---- Beside the library: nothing below is a function of librtcm2.a. Each of these is made of the calls above. */

/* What an answer says, in a few words; a text also for a number that is no answer. */
static inline const char *rtcm2_refusal_text(uint8_t answer)
{
    switch (answer) {
    case 0: return "done";
    case 1: return "a byte without top bits 01";
    case 2: return "fed or ended while a frame waits";
    case 3: return "fed or ended after the end";
    case 4: return "no frame waits to be taken";
    case 5: return "a value is outside its width, or the bytes are no state or report";
    case 6: return "the frame is of another type";
    case 7: return "the Z count is past the hour, 6000 to 8191";
    case 8: return "N doesn't fit the type";
    case 9: return "there is no entry of this number";
    case 10: return "a field of the record is outside its range";
    case 11: return "a forbidden character";
    case 12: return "no entry, or too many";
    case 13: return "the room lent is too short";
    case 14: return "no journal mark";
    case 15: return "the record is cut short";
    case 16: return "N of the record is over 31 or not that of word 2, or the preamble is wrong";
    case 17: return "a word was altered";
    case 18: return "a new key, and all rows are in use";
    case 19: return "a count would pass 4294967295";
    case 20: return "the type is not of the profile";
    case 21: return "more than three satellites in a frame of the profile";
    case 22: return "one satellite twice";
    case 23: return "the system is not GPS, GLONASS, QZSS or BeiDou";
    default: return "no answer of the library";
    }
}

/* A header by its five numbers. */
struct rtcm2_header {
    uint8_t kind;     /* the type, 1 to 64 */
    uint16_t station; /* 0 to 1023 */
    uint16_t z;       /* the Z count, 0 to 8191, 0.6 s each */
    uint8_t sequence; /* 0 to 7 */
    uint8_t health;   /* 0 to 7 */
};

/* rtcm2_keep of a header in a struct. */
static inline uint8_t rtcm2_keep_from(struct rtcm2_header header, const uint8_t *bytes, size_t bytes_size, uint8_t *frame,
                                      size_t frame_size, size_t *length)
{
    return rtcm2_keep(header.kind, header.station, header.z, header.sequence, header.health, bytes, bytes_size, frame,
                      frame_size, length);
}

/* rtcm2_make_corrections of a header in a struct. */
static inline uint8_t rtcm2_make_corrections_from(struct rtcm2_header header, const uint8_t *corrections,
                                                  size_t corrections_size, uint8_t *frame, size_t frame_size, size_t *length)
{
    return rtcm2_make_corrections(header.kind, header.station, header.z, header.sequence, header.health, corrections,
                                  corrections_size, frame, frame_size, length);
}

/* rtcm2_make_healths of a header in a struct. */
static inline uint8_t rtcm2_make_healths_from(struct rtcm2_header header, const uint8_t *healths, size_t healths_size,
                                              uint8_t *frame, size_t frame_size, size_t *length)
{
    return rtcm2_make_healths(header.kind, header.station, header.z, header.sequence, header.health, healths, healths_size,
                              frame, frame_size, length);
}

/* rtcm2_make_observations of a header in a struct. */
static inline uint8_t rtcm2_make_observations_from(uint8_t edition, struct rtcm2_header header, uint8_t frequency,
                                                   uint8_t smoothing, uint32_t time, const uint8_t *observations,
                                                   size_t observations_size, uint8_t *frame, size_t frame_size,
                                                   size_t *length)
{
    return rtcm2_make_observations(edition, header.kind, header.station, header.z, header.sequence, header.health, frequency,
                                   smoothing, time, observations, observations_size, frame, frame_size, length);
}

/* rtcm2_make_generals of a header in a struct. */
static inline uint8_t rtcm2_make_generals_from(struct rtcm2_header header, uint8_t system, uint8_t signal, uint8_t ephemeris,
                                               uint8_t period, uint8_t ionosphere, const uint8_t *generals,
                                               size_t generals_size, uint8_t *frame, size_t frame_size, size_t *length)
{
    return rtcm2_make_generals(header.kind, header.station, header.z, header.sequence, header.health, system, signal,
                               ephemeris, period, ionosphere, generals, generals_size, frame, frame_size, length);
}

/* rtcm2_make_general_null of a header in a struct. */
static inline uint8_t rtcm2_make_general_null_from(struct rtcm2_header header, uint8_t n, uint8_t system, uint8_t *frame,
                                                   size_t frame_size, size_t *length)
{
    return rtcm2_make_general_null(header.kind, header.station, header.z, header.sequence, header.health, n, system, frame,
                                   frame_size, length);
}

/* rtcm2_make_position of a header in a struct. */
static inline uint8_t rtcm2_make_position_from(struct rtcm2_header header, int32_t x_cm, int32_t y_cm, int32_t z_cm,
                                               uint8_t *frame, size_t frame_size, size_t *length)
{
    return rtcm2_make_position(header.kind, header.station, header.z, header.sequence, header.health, x_cm, y_cm, z_cm, frame,
                               frame_size, length);
}

/* rtcm2_make_null of a header in a struct. */
static inline uint8_t rtcm2_make_null_from(struct rtcm2_header header, uint8_t n, uint8_t *frame, size_t frame_size,
                                           size_t *length)
{
    return rtcm2_make_null(header.kind, header.station, header.z, header.sequence, header.health, n, frame, frame_size,
                           length);
}

/* rtcm2_make_text of a header in a struct. */
static inline uint8_t rtcm2_make_text_from(struct rtcm2_header header, const uint8_t *text, size_t text_size, uint8_t *frame,
                                           size_t frame_size, size_t *length)
{
    return rtcm2_make_text(header.kind, header.station, header.z, header.sequence, header.health, text, text_size, frame,
                           frame_size, length);
}

/* rtcm2_cut_corrections of a header in a struct. */
static inline uint8_t rtcm2_cut_corrections_from(struct rtcm2_header header, const uint8_t *corrections,
                                                 size_t corrections_size, uint8_t *frames, size_t frames_size, size_t *length)
{
    return rtcm2_cut_corrections(header.kind, header.station, header.z, header.sequence, header.health, corrections,
                                 corrections_size, frames, frames_size, length);
}

/* rtcm2_recall to a header in a struct. */
static inline uint8_t rtcm2_recall_to(const uint8_t *frame, size_t frame_size, struct rtcm2_header *header, uint8_t *n,
                                      size_t *length)
{
    return rtcm2_recall(frame, frame_size, &header->kind, &header->station, &header->z, &header->sequence, &header->health, n,
                        length);
}

#ifdef __cplusplus
}
#endif

#endif
