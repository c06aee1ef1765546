/* The bytes of stack that each call of the archive needs, by painting: a call is made on a stack of its own whose bytes all have one value,
 * and the lowest byte that has another afterwards tells how far down the call went. Counted are the arguments past the sixth, which lie on
 * the stack, the return address and all below it: where that lies is seen by making the same call with a function that does nothing.
 * Each call is made on many inputs, of every side, mode, kind and tree, and the most that one of them needs is printed. */
#include "decoder.h"
#include <stdio.h>
#include <stdlib.h>
#include <string.h>
#include <ucontext.h>

enum { SIZE = 128, UNITS = SIZE / 4 * SIZE / 4, ROOTS = 4, ROOM = 1 << 18 };

static uint16_t y[SIZE * SIZE], u[SIZE * SIZE / 4], v[SIZE * SIZE / 4], lent[SIZE * SIZE], run[257], block[64 * 64], out[2][2 * UNITS];
static int16_t residual[SIZE * SIZE * 3 / 2], motion[4 * UNITS];
static uint32_t words[UNITS];
static uint8_t splits[1024 * ROOTS], records[4 * UNITS], modes[UNITS], keep[UNITS], ranks[180], five[5], strengths[208], text[81920], one;
static int8_t refs[2 * UNITS], table[2][70], points[58];
static size_t counted[2];
static uint8_t rows[UNITS], bytes[2 * SIZE * SIZE * 3 / 2 + 300], torn[1024 * ROOTS];
static uint16_t changes[425 * ROOTS];
static size_t said[8];
static const char *sheet = "width=16\nheight=8\ntr_log2=6\nv_edge=own\nsplits=11110\n";

/* ---- the calls. Of call k, input i; `real` is false for the function that does nothing. The answer is false past the last input. */
static uint8_t nothing(void) { return 0; }
static uint8_t answer;
static int more, arguments, painted;
/* What is made ready for a call, on the program's own stack and not on the painted one. */
#define BEFORE if (!painted)
#define PLACE(_1, _2, _3, _4, _5, _6, _7, _8, _9, _10, _11, _12, _13, _14, _15, _16, _17, _18, _19, _20, _21, _22, _23, _24, _25, _26, _27, _28, _29, _30, _31, _32, n, ...) n
#define COUNT(...) PLACE(__VA_ARGS__, 32, 31, 30, 29, 28, 27, 26, 25, 24, 23, 22, 21, 20, 19, 18, 17, 16, 15, 14, 13, 12, 11, 10, 9, 8, 7, 6, 5, 4, 3, 2, 1, 0)
#define CALL(f, ...) do { arguments = COUNT(__VA_ARGS__); __typeof__(&f) volatile g = real ? f : (__typeof__(&f))nothing; answer = g(__VA_ARGS__); } while (0)

static const size_t sides[] = {4, 8, 16, 32, 64};

/* A tree whose leaves all have this side, and words that are done, intra or not. */
static void tree(size_t side, int intra) {
    memset(splits, 0, sizeof splits);
    for (size_t root = 0; root < ROOTS; root++)
        for (size_t level = 0; level < 4; level++)
            if (64u >> level > side) memset(splits + 1024 * root + 256 * level, 1, 256);
    for (size_t i = 0; i < UNITS; i++) words[i] = 1u << 31 | (intra ? 1u << 15 : 0) | 37u << 16 | (i % 3 == 0) << 24;
    for (size_t i = 0; i < 4 * UNITS; i++) motion[i] = i * 7 % 11;
    for (size_t i = 0; i < 2 * UNITS; i++) refs[i] = i * 5 % 3 - 1;
    for (size_t i = 0; i < UNITS; i++) keep[i] = i % 5 == 0;
}

static size_t leaves_of(size_t side, int masked) {
    size_t count = SIZE / side * (SIZE / side), at = 0;
    for (size_t k = 0; k < count; k++) {
        uint8_t mask = masked ? 7 - k % 8 : 0;
        records[4 * k] = k % 6, records[4 * k + 1] = 37, records[4 * k + 2] = mask, records[4 * k + 3] = 0;
        at += side * side * (mask & 1) + side * side / 4 * ((mask >> 1 & 1) + (mask >> 2));
    }
    return at;
}

static void tables(int real, int i) {
    CALL(lomsakeun_derived_chroma_qp_mapping_tables, i & 1, i & 2, i & 1 ? 40 : 58, points, 58, points, 58, i & 1 ? 40 : 58, points, 58, points, 58, table[0], 70, table[1], 70);
    more = i < 3;
}
static void avail_intra(int real, int i) { CALL(lomsakeun_get_avail_intra, SIZE, SIZE, words, UNITS, 64, 64, sides[i], &one); more = i < 4; }
static void avail_inter(int real, int i) { CALL(lomsakeun_get_avail_inter, SIZE, SIZE, words, UNITS, 64, 64, sides[i], &one); more = i < 4; }
static void mpm(int real, int i) { CALL(lomsakeun_get_mpm, SIZE, SIZE, words, UNITS, modes, UNITS, ranks, 180, i, i, five, 5); more = i < 4; }
static void nbr(int real, int i) {
    size_t side = sides[i / 4], n = side >> (i & 1);
    y[63 * SIZE + 64] = u[31 * SIZE / 2 + 32] = i == 19 ? 1024 : 512;
    CALL(lomsakeun_get_nbr, i & 1, SIZE, SIZE, i & 1 ? u : y, i & 1 ? SIZE * SIZE / 4 : SIZE * SIZE, words, UNITS, 64, 64, side, i & 2, run, 4 * n + 1);
    y[63 * SIZE + 64] = u[31 * SIZE / 2 + 32] = 512;
    more = i < 19;
}
static void ipred(int real, int i) { size_t side = 2 << i / 5; CALL(lomsakeun_ipred_b, i % 5, side, run, 4 * side + 1, block, side * side); more = i < 29; }
static void recon(int real, int i) { size_t n = 4 << i / 2 * 2; CALL(lomsakeun_recon, i & 1, 2 << i / 2, lent, n, residual, n, block, n); more = i < 11; }
static void recon_plane(int real, int i) {
    size_t side = sides[i / 4], n = side >> (i & 1);
    CALL(lomsakeun_recon_plane, i & 1, SIZE, SIZE, 64, 64, side, i & 2, lent, n * n, residual, n * n, i & 1 ? u : y, i & 1 ? SIZE * SIZE / 4 : SIZE * SIZE);
    more = i < 19;
}
static void check(int real, int i) { BEFORE tree(sides[i], 1); CALL(lomsakeun_check, SIZE, SIZE, splits, sizeof splits); more = i < 4; }
static void leaves(int real, int i) { BEFORE tree(sides[i], 1); CALL(lomsakeun_leaves, SIZE, SIZE, splits, sizeof splits, 64, 64, out[0], 768, counted); more = i < 4; }
static void rank(int real, int i) { CALL(lomsakeun_visiting_rank, i, i, &one); more = i < 15; }
static void list(int real, int i) {
    BEFORE tree(sides[i / 2], 1);
    CALL(lomsakeun_list_edges, SIZE, SIZE, splits, sizeof splits, 5 + i % 2, out[0], 2 * UNITS, out[1], 2 * UNITS, counted, counted + 1);
    more = i < 9;
}
static void reconstruct(int real, int i) {
    size_t side = sides[i / 4], count = SIZE / side * (SIZE / side), long_ = leaves_of(side, i & 1);
    BEFORE tree(side, 1);
    CALL(lomsakeun_reconstruct, SIZE, SIZE, 1, splits, sizeof splits, records, 4 * count, residual, long_, lent, SIZE * SIZE,
         lent, SIZE * SIZE / 4, lent, SIZE * SIZE / 4, i & 2, y, SIZE * SIZE, u, SIZE * SIZE / 4, v, SIZE * SIZE / 4, words, UNITS, modes, UNITS, keep, UNITS);
    more = i < 19;
}
static void deblock(int real, int i) {
    BEFORE tree(sides[i / 8], i & 1);
    CALL(lomsakeun_deblock, SIZE, SIZE, y, SIZE * SIZE, u, SIZE * SIZE / 4, v, SIZE * SIZE / 4, words, UNITS, splits, sizeof splits,
         motion, 4 * UNITS, refs, 2 * UNITS, keep, UNITS, table[0], 70, table[1], 70, strengths, 208, 5 + (i >> 1 & 1), i & 4, 0, 1, counted, counted + 1);
    more = i < 39;
}
/* Bands 0 and 1: the first is lent its own rows alone, and the second those above it too. */
static void band(int real, int i) {
    size_t n = i & 8 ? 1 : 0, high = n ? SIZE : 64, next = n;
    BEFORE tree(sides[i / 16], i & 1);
    CALL(lomsakeun_deblock_band, &next, n, SIZE, SIZE, y, SIZE * high, u, SIZE * high / 4, v, SIZE * high / 4, words, SIZE / 16 * high, splits + 2048 * n, 2048,
         motion, SIZE / 4 * high, refs, SIZE / 8 * high, keep, SIZE / 16 * high, table[0], 70, table[1], 70, strengths, 208, 5 + (i >> 1 & 1), i & 4, 0, 1, counted, counted + 1);
    more = i < 79;
}
static void fill(int real, int i) { BEFORE tree(4, i); CALL(lomsakeun_fill_rows, SIZE, SIZE, words, UNITS, motion, 4 * UNITS, refs, 2 * UNITS, rows, UNITS); more = i < 1; }
static void by_rows(int real, int i) {
    BEFORE tree(sides[i / 8], i & 1);
    BEFORE lomsakeun_fill_rows(SIZE, SIZE, words, UNITS, motion, 4 * UNITS, refs, 2 * UNITS, rows, UNITS);
    CALL(lomsakeun_deblock_by_rows, SIZE, SIZE, y, SIZE * SIZE, u, SIZE * SIZE / 4, v, SIZE * SIZE / 4, words, UNITS, splits, sizeof splits,
         motion, 4 * UNITS, refs, 2 * UNITS, keep, UNITS, rows, i & 2 ? UNITS : 0, table[0], 70, table[1], 70, strengths, 208, 5 + (i >> 2 & 1), 0, 0, 1, counted, counted + 1);
    more = i < 39;
}
static void set_motion(int real, int i) {
    BEFORE tree(4, i & 1);
    CALL(lomsakeun_set_motion, SIZE, SIZE, i % 3, i / 3, 1, 2, 3, 4, 0, 1, words, UNITS, motion, 4 * UNITS, refs, 2 * UNITS, rows, UNITS);
    more = i < 8;
}
static void set_flag(int real, int i) {
    BEFORE tree(4, i & 1);
    CALL(lomsakeun_set_flag, SIZE, SIZE, i % 3, i / 3, i & 1, i & 2, words, UNITS, motion, 4 * UNITS, refs, 2 * UNITS, rows, UNITS);
    more = i < 8;
}
static void put_map(int real, int i) { size_t at = 0; BEFORE tree(sides[i], 1); CALL(lomsakeun_put_map, SIZE, SIZE, splits, sizeof splits, bytes, sizeof bytes, &at); more = i < 4; }
static void get_map(int real, int i) {
    size_t at = 0;
    BEFORE tree(sides[i], 1);
    BEFORE lomsakeun_put_map(SIZE, SIZE, splits, sizeof splits, bytes, sizeof bytes, &at);
    at = 0;
    CALL(lomsakeun_get_map, SIZE, SIZE, bytes, sizeof bytes, &at, torn, sizeof torn);
    more = i < 4;
}
static void mend(int real, int i) {
    BEFORE tree(sides[i / 2], 1);
    BEFORE if (i & 1) memset(splits, 9, sizeof splits);
    CALL(lomsakeun_mend, SIZE, SIZE, splits, sizeof splits, torn, sizeof torn, changes, 425 * ROOTS, counted);
    more = i < 9;
}

/* A stream of one frame of 128 by 128 in `bytes`, whose frame starts at `at`. */
static size_t at;
static void stream(void) {
    lomsakeun_write_header(1, SIZE, SIZE, 25, 1, 1, 1, bytes, 256, &at);
    memmove(bytes + at, "FRAME\n", 6);
    for (size_t i = 0; i < SIZE * SIZE * 3 / 2; i++) bytes[at + 6 + 2 * i] = i, bytes[at + 7 + 2 * i] = i % 4;
}
static void read_header(int real, int i) {
    BEFORE stream();
    CALL(lomsakeun_read_header, bytes, i ? at / 2 : sizeof bytes, said, said + 1, said + 2, said + 3, said + 4, said + 5, said + 6, said + 7);
    more = i < 1;
}
static void write_header(int real, int i) {
    CALL(lomsakeun_write_header, 1, SIZE, i & 1 ? 4096 : 4, i & 2 ? 65535 : 25, i & 2 ? 65535 : 1, 1, 1, bytes, 256, counted);
    more = i < 3;
}
static void read_frame(int real, int i) {
    BEFORE stream();
    CALL(lomsakeun_read_frame, bytes, i ? at : sizeof bytes, at, SIZE, SIZE, y, SIZE * SIZE, u, SIZE * SIZE / 4, v, SIZE * SIZE / 4, said, said + 1);
    more = i < 1;
}
static void write_frame(int real, int i) {
    CALL(lomsakeun_write_frame, 1, SIZE, SIZE, y, SIZE * SIZE, u, SIZE * SIZE / 4, v, SIZE * SIZE / 4, bytes, 6 + SIZE * SIZE * 3);
    more = i < 0;
}
static void import_frame(int real, int i) {
    BEFORE stream();
    CALL(lomsakeun_import_frame, bytes, i ? at : sizeof bytes, y, SIZE * SIZE, u, SIZE * SIZE / 4, v, SIZE * SIZE / 4, said, said + 1, said + 2, said + 3, said + 4, said + 5, said + 6, said + 7);
    more = i < 1;
}
/* The first row of each plane of a window, full and as a preview. */
static void ward_row(int real, int i) {
    size_t plane = i / 2, turn[2] = {plane, 0};
    CALL(lomsakeun_ward_row, i & 1, turn, turn + 1, plane, 0, 1, SIZE, SIZE, y, SIZE * SIZE, u, SIZE * SIZE / 4, v, SIZE * SIZE / 4, 32, 32, 96, 96, text, SIZE, counted);
    more = i < 5;
}
static void listing(int real, int i) { CALL(lomsakeun_listing, (const uint8_t *)sheet, strlen(sheet) - i, text, sizeof text, counted); more = i < 60; }

static const struct { const char *name; void (*make)(int, int); } calls[] = {
    {"derived_chroma_qp_mapping_tables", tables}, {"get_avail_intra", avail_intra}, {"get_avail_inter", avail_inter}, {"get_mpm", mpm},
    {"get_nbr", nbr}, {"ipred_b", ipred}, {"recon", recon}, {"recon_plane", recon_plane}, {"check", check}, {"leaves", leaves},
    {"put_map", put_map}, {"get_map", get_map}, {"mend", mend}, {"visiting_rank", rank}, {"list_edges", list}, {"reconstruct", reconstruct},
    {"deblock", deblock}, {"deblock_band", band}, {"fill_rows", fill}, {"set_motion", set_motion}, {"set_flag", set_flag}, {"deblock_by_rows", by_rows},
    {"listing", listing}, {"read_header", read_header}, {"write_header", write_header}, {"read_frame", read_frame}, {"write_frame", write_frame},
    {"import_frame", import_frame}, {"ward_row", ward_row},
};

/* ---- the painted stack */
static uint8_t room[ROOM] __attribute__((aligned(64)));
static ucontext_t here, there;
static void (*making)(int, int);
static int real_now, input_now;
static void make(void) { making(real_now, input_now); }

/* How far from its lowest byte the stack stays as it was painted. */
static size_t untouched(int real, uint8_t paint) {
    painted = 0;
    making(0, input_now);
    painted = 1;
    memset(room, paint, ROOM);
    getcontext(&there);
    there.uc_stack.ss_sp = room, there.uc_stack.ss_size = ROOM, there.uc_link = &here;
    makecontext(&there, make, 0);
    real_now = real;
    swapcontext(&here, &there);
    size_t at = 0;
    while (at < ROOM && room[at] == paint) at++;
    return at;
}

int main(void) {
    for (int i = 0; i < SIZE * SIZE; i++) y[i] = 400 + i * 37 % 200, lent[i] = i % 1024;
    for (int i = 0; i < SIZE * SIZE / 4; i++) u[i] = v[i] = 400 + i * 53 % 200;
    for (int i = 0; i < 208; i++) strengths[i] = i % 52 / 4;
    for (int i = 0; i < 70; i++) table[0][i] = table[1][i] = i < 12 ? 0 : i > 63 ? 51 : i - 12;
    for (int i = 0; i < 257; i++) run[i] = i;
    tree(64, 1);
    for (size_t k = 0; k < sizeof calls / sizeof calls[0]; k++) {
        size_t most = 0, accepted = 0, inputs = 0;
        making = calls[k].make;
        for (input_now = 0, more = 1; more; input_now++, inputs++) {
            untouched(1, 0); /* what the linker does at a first call is not the call's */
            for (int paint = 0x5a; paint <= 0xa5; paint += 0xa5 - 0x5a) {
                size_t site = untouched(0, paint), down = untouched(1, paint), past = arguments > 6 ? 8 * (arguments - 6) : 0;
                if (site - down + 8 + past > most) most = site - down + 8 + past;
            }
            accepted += answer == 0;
        }
        printf("%-34s %6zu   %zu of %zu inputs accepted\n", calls[k].name, most, accepted, inputs);
    }
}
