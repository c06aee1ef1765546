/* One small picture from its leaf records to its finished samples: the chroma QP tables, the driver, deblocking. Its luma is printed before and after.
 *
 *     tools/archive
 *     cc examples/picture.c -I include -L target/staticlib -l decoder_c -o picture && ./picture
 */
#include "decoder.h"
#include <stdio.h>
#include <stdlib.h>

/* 16 by 8 samples: 4 by 2 units, one root. */
enum { W = 16, H = 8, LUMA = W * H, CHROMA = LUMA / 4, UNITS = LUMA / 16 };

static void done(const char *what, uint8_t number) {
    if (number != LOMSAKEUN_DONE) {
        fprintf(stderr, "%s is refused: %d\n", what, number);
        exit(1);
    }
}

static void print(const char *what, const uint16_t *y) {
    printf("%s\n", what);
    for (int row = 0; row < H; row++) {
        for (int column = 0; column < W; column++) printf(" %4d", y[W * row + column]);
        printf("\n");
    }
}

int main(void) {
    /* The tree: the blocks of 64, 32 and 16 at the corner are cut, since they reach past the picture, and so is the left one of two of 8. */
    static uint8_t splits[LOMSAKEUN_SPLITS_PER_ROOT];
    splits[136] = splits[256 + 68] = splits[512 + 34] = splits[768 + 17] = 1;

    /* Five leaves, four of 4x4 and one of 8x8. Each is predicted by DC at QP 37; the last has a residual in Y, 24 in each of its samples.
       The second is kept, by its last byte: deblocking leaves its samples as they are. */
    static const uint8_t leaves[5 * 4] = {0, 37, 0, 0, 0, 37, 0, 1, 0, 37, 0, 0, 0, 37, 0, 0, 0, 37, 1, 0};
    static int16_t residual[64];
    for (int i = 0; i < 64; i++) residual[i] = 24;

    /* No leaf takes the lent prediction, but it has to be there. What the picture's planes and maps hold at entry counts for nothing. */
    static uint16_t lent_y[LUMA], lent_u[CHROMA], lent_v[CHROMA], y[LUMA], u[CHROMA], v[CHROMA];
    static uint32_t words[UNITS];
    static uint8_t modes[UNITS], keep[UNITS];
    done("the picture", lomsakeun_reconstruct(
        W, H, true, splits, sizeof splits, leaves, sizeof leaves, residual, 64, lent_y, LUMA, lent_u, CHROMA, lent_v, CHROMA, false,
        y, LUMA, u, CHROMA, v, CHROMA, words, UNITS, modes, UNITS, keep, UNITS));
    print("reconstructed", y);

    /* One pivot at QP 16 maps each chroma QP to itself. */
    static const int8_t a[LOMSAKEUN_POINTS_LENGTH], b[LOMSAKEUN_POINTS_LENGTH];
    static int8_t t0[LOMSAKEUN_TABLE_LENGTH], t1[LOMSAKEUN_TABLE_LENGTH];
    done("a chroma table", lomsakeun_derived_chroma_qp_mapping_tables(
        true, true, 1, a, sizeof a, b, sizeof b, 1, a, sizeof a, b, sizeof b, t0, sizeof t0, t1, sizeof t1));

    /* Strength 4 * 3 on every edge: a decoder lends its own table, four rows of 52. All units are intra, so no motion is read. */
    static const int16_t motion[4 * UNITS];
    static const int8_t refs[2 * UNITS];
    static uint8_t strengths[LOMSAKEUN_STRENGTHS_LENGTH];
    for (int i = 0; i < LOMSAKEUN_STRENGTHS_LENGTH; i++) strengths[i] = 3;
    size_t vertical, horizontal;
    done("deblocking", lomsakeun_deblock(
        W, H, y, LUMA, u, CHROMA, v, CHROMA, words, UNITS, splits, sizeof splits, motion, 4 * UNITS, refs, sizeof refs,
        keep, UNITS, t0, sizeof t0, t1, sizeof t1, strengths, sizeof strengths, 6, 0, 0, true, &vertical, &horizontal));
    print("deblocked", y);
    printf("%zu vertical edges, %zu horizontal\n", vertical, horizontal);
}
