/* gpsd's decoder: its two files that frame and unpack RTCM 2, byte by byte as gpsd calls them, and its log that says nothing. */
#include "include/gpsd_config.h"
#include "include/gpsd.h"
#include "passes.h"

void gpsd_log(const int level, const struct gpsd_errout_t *out, const char *format, ...) {}

const char *gpsd_hexdump(char *out, size_t room, char *bytes, size_t size) { return ""; }

static struct gps_device_t device;
static struct gps_context_t context;
static struct rtcm2_t message;

static unsigned long pass(const unsigned char *bytes, size_t size, const char *how) {
    unsigned long frames = 0;
    device.context = &context;
    isgps_init(&device.lexer);
    for (size_t at = 0; at < size; at++) {
        if (rtcm2_decode(&device.lexer, bytes[at]) != ISGPS_MESSAGE) continue;
        rtcm2_unpack(&device, &message, (char *)device.lexer.isgps.buf);
        frames++;
    }
    return frames;
}
