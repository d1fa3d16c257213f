/* What the programs here share: a stream is read into memory and passed over three times. Printed are the frames of a pass, and the
 * best processor time of the three in seconds. Arguments: the stream, and what else the program takes. */
#include <stdio.h>
#include <stdlib.h>
#include <time.h>

/* One pass over a stream: how many frames were handed out. */
static unsigned long pass(const unsigned char *bytes, size_t size, const char *how);

static double processor(void) {
    struct timespec t;
    clock_gettime(CLOCK_PROCESS_CPUTIME_ID, &t);
    return (double)t.tv_sec + 1e-9 * (double)t.tv_nsec;
}

int main(int argc, char **argv) {
    static unsigned char bytes[1 << 23];
    if (argc < 2) return 2;
    FILE *file = fopen(argv[1], "rb");
    if (!file) return 3;
    size_t size = fread(bytes, 1, sizeof bytes, file);
    unsigned long frames = 0;
    double best = 0;
    for (int turn = 0; turn < 3; turn++) {
        double start = processor();
        frames = pass(bytes, size, argc > 2 ? argv[2] : "");
        double took = processor() - start;
        if (turn == 0 || took < best) best = took;
    }
    printf("%lu %.6f\n", frames, best);
    return 0;
}
