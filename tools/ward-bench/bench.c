// Rows of the ward's screen by the archive and by plain loops, over the same samples. EACH is X(NAME) for each compiler's loops.
// usage: bench         nanoseconds a row, the best of many rounds, all of them by turns in one run
//        bench once 0, bench once 1    every row, or every row of the preview, a single time by each, for a profiler
#include "../../include/decoder.h"
#include "loops.h"
#include <stdio.h>
#include <stdlib.h>
#include <string.h>
#include <time.h>

enum { WIDTH = 1920, ROWS = 16 };

#define X(name) DECLARE(name)
EACH
#undef X

static uint16_t plane[WIDTH * ROWS];
static uint8_t out[WIDTH];

// Row r of a run, and how many samples it has.
static size_t archive(bool preview, size_t r) {
    size_t turn_plane = 0, turn_row = r, written = 0;
    uint8_t number = lomsakeun_ward_row(
        preview, &turn_plane, &turn_row, 0, r, false, WIDTH, ROWS, plane, WIDTH * ROWS, NULL, 0, NULL, 0, 0, 0, WIDTH, ROWS, out, WIDTH, &written);
    if (number != 0) exit(number);
    return written;
}

// One way to make a row: by the archive where there is no loop.
struct way {
    const char *name;
    int (*row)(const sample *, count, byte *);
    int (*preview)(const sample *, const sample *, count, byte *);
};

static const struct way ways[] = {
    {"archive", NULL, NULL},
#define X(name) \
    {#name ", not tested", CALLED(name, row), CALLED(name, preview)}, \
    {#name ", tested, joined", CALLED(name, row_joined), CALLED(name, preview_joined)}, \
    {#name ", tested one by one", CALLED(name, row_each), CALLED(name, preview_each)},
    EACH
#undef X
};

enum { WAYS = sizeof ways / sizeof *ways };

static void make(const struct way *way, bool preview, size_t r) {
    if (way->row == NULL) archive(preview, r);
    else if (preview) way->preview(plane + 2 * r * WIDTH, plane + (2 * r + 1) * WIDTH, WIDTH / 2, out);
    else way->row(plane + r * WIDTH, WIDTH, out);
    __asm__ volatile("" : : : "memory");
}

static double now(void) {
    struct timespec t;
    clock_gettime(CLOCK_MONOTONIC, &t);
    return t.tv_sec * 1e9 + t.tv_nsec;
}

// Every row by one way; nanoseconds a row.
static double all(const struct way *way, bool preview) {
    size_t rows = preview ? ROWS / 2 : ROWS;
    double start = now();
    for (size_t r = 0; r < rows; r++) make(way, preview, r);
    return (now() - start) / rows;
}

// Every way gives the archive's samples.
static void compare(bool preview) {
    for (size_t r = 0; r < (preview ? ROWS / 2 : ROWS); r++) {
        uint8_t row[WIDTH];
        size_t n = archive(preview, r);
        memcpy(row, out, n);
        for (size_t k = 1; k < WAYS; k++) {
            make(&ways[k], preview, r);
            if (memcmp(row, out, n) != 0) {
                printf("%s: row %zu differs\n", ways[k].name, r);
                exit(1);
            }
        }
    }
}

// For a profiler: nothing else is run.
static int once(bool preview) {
    for (size_t k = 0; k < WAYS; k++) all(&ways[k], preview);
    return 0;
}

int main(int words, char **word) {
    for (size_t i = 0; i < WIDTH * ROWS; i++) plane[i] = rand() % 1024;
    if (words == 3 && strcmp(word[1], "once") == 0) return once(word[2][0] == '1');
    double best[2][WAYS];
    for (int preview = 0; preview < 2; preview++) {
        compare(preview);
        for (size_t k = 0; k < WAYS; k++) best[preview][k] = 1e18;
    }
    for (int round = 0; round < 4000; round++) {
        for (int preview = 0; preview < 2; preview++) {
            for (size_t k = 0; k < WAYS; k++) {
                double t = all(&ways[k], preview);
                if (t < best[preview][k]) best[preview][k] = t;
            }
        }
    }
    for (size_t k = 0; k < WAYS; k++) printf("%-28s a row %5.0f ns, of the preview %5.0f ns\n", ways[k].name, best[0][k], best[1][k]);
}
