/* What the device gives two syncs a commit: the writes and syncs of a commit of one small key, over and over, with nothing else.
 *
 *   device FILE SECONDS
 *
 * FILE is made on the first run.
 */
#define _GNU_SOURCE
#include "common.h"
#include "two_syncs.h"

int main(int count, char **words) {
    static struct histogram times;
    if (count != 3) return fprintf(stderr, "usage: device FILE SECONDS\n"), 1;
    struct log log = open_log(words[1]);
    uint64_t start = now_ns(), end = start + (uint64_t)(atof(words[2]) * 1e9), before = start;
    while (before < end) {
        append_commit(&log);
        uint64_t after = now_ns();
        histogram_add(&times, after - before);
        before = after;
    }
    printf("rate=%.1f p50_us=%.1f p99_us=%.1f\n", (double)times.count / ((double)(before - start) / 1e9), histogram_us(&times, 0.5),
           histogram_us(&times, 0.99));
    return 0;
}
