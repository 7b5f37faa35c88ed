/* Speed of the library and of C with the same tables, over one buffer in cache: GB/s, best of several. */
#include "smac.h"
#include <stdio.h>
#include <stdlib.h>
#include <string.h>
#include <time.h>

uint8_t zukeroha_tag(uint8_t mode, uint8_t streams, const uint8_t *key, size_t key_len, uint32_t office, uint64_t serial,
                     const uint8_t *header, size_t header_len, const uint8_t *body, size_t body_len, uint8_t *out, size_t out_len);

/* The same C, compiled at -O2. */
void smac_tables_o2(void);
void smac_tag_o2(int mode, int streams, const uint8_t key[32], const uint8_t iv[16], const uint8_t *body, size_t len, uint8_t tag[32]);

static const uint8_t key[32] = {1, 2, 3, 4, 5, 6, 7, 8, 9, 10, 11, 12, 13, 14, 15, 16, 17, 18, 19, 20, 21, 22, 23, 24, 25, 26, 27, 28, 29, 30, 31, 32};
static const uint8_t iv[16] = {7, 0, 0, 0, 0, 0, 0, 42};

static double now(void) {
    struct timespec t;
    clock_gettime(CLOCK_MONOTONIC, &t);
    return (double)t.tv_sec + 1e-9 * (double)t.tv_nsec;
}

int main(void) {
    static const int modes[][2] = {{1, 0}, {2, 0}, {3, 0}, {4, 1}, {4, 4}, {4, 8}, {4, 16}};
    static const size_t tags[] = {0, 16, 20, 32, 16};
    static const char *names[] = {"", "SMAC-1", "SMAC-3/4", "SMAC-1/2", "SMAC-1xN"};
    size_t len = 1 << 20;
    uint8_t *body = malloc(len), ours[32], theirs[32];
    for (size_t i = 0; i < len; i++) body[i] = (uint8_t)(i * 131 + (i >> 8));
    smac_tables();
    smac_tables_o2();
    printf("%-10s %8s %8s %7s %8s %7s\n", "mode", "ours", "C -O3", "ratio", "C -O2", "ratio");
    for (size_t m = 0; m < sizeof modes / sizeof modes[0]; m++) {
        int mode = modes[m][0], n = modes[m][1];
        double best[3] = {1e9, 1e9, 1e9}, t[4];
        for (int turn = 0; turn < 15; turn++) {
            t[0] = now();
            for (int k = 0; k < 8; k++)
                if (zukeroha_tag((uint8_t)mode, (uint8_t)n, key, 32, 7, 42, body, 0, body, len, ours, tags[mode])) return 1;
            t[1] = now();
            for (int k = 0; k < 8; k++) smac_tag(mode, n, key, iv, body, len, theirs);
            t[2] = now();
            if (memcmp(ours, theirs, tags[mode])) { printf("the tags differ\n"); return 1; }
            for (int k = 0; k < 8; k++) smac_tag_o2(mode, n, key, iv, body, len, theirs);
            t[3] = now();
            if (memcmp(ours, theirs, tags[mode])) { printf("the tags differ\n"); return 1; }
            for (int i = 0; i < 3; i++)
                if (t[i + 1] - t[i] < best[i]) best[i] = t[i + 1] - t[i];
        }
        double speed[3];
        for (int i = 0; i < 3; i++) speed[i] = 8.0 * (double)len / best[i] / 1e9;
        char name[16];
        if (n) snprintf(name, sizeof name, "SMAC-1x%d", n); else snprintf(name, sizeof name, "%s", names[mode]);
        printf("%-10s %8.2f %8.2f %7.2f %8.2f %7.2f\n", name, speed[0], speed[1], speed[0] / speed[1], speed[2], speed[0] / speed[2]);
    }
    return 0;
}
