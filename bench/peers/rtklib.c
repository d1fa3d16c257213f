/* RTKLIB's decoder, byte by byte. Its file that frames is compiled with its call of the one that unpacks named `counted`, so that every
 * frame is counted, also one of which nothing is unpacked. */
#include "rtklib.h"
#include "passes.h"

static unsigned long frames;

int counted(rtcm_t *rtcm) {
    frames++;
    return decode_rtcm2(rtcm);
}

/* What RTKLIB asks a program for. */
int showmsg(const char *format, ...) { return 0; }

void settspan(gtime_t from, gtime_t to) {}

void settime(gtime_t time) {}

static unsigned long pass(const unsigned char *bytes, size_t size, const char *how) {
    static rtcm_t rtcm;
    static dgps_t corrections[MAXSAT];
    gtime_t time = {1234567890, 0};
    if (!init_rtcm(&rtcm)) exit(1);
    rtcm.time = time;
    rtcm.dgps = corrections;
    frames = 0;
    for (size_t at = 0; at < size; at++) input_rtcm2(&rtcm, bytes[at]);
    free_rtcm(&rtcm);
    return frames;
}
