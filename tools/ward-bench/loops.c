// The rule as anyone would write it down: see loops.h.
#include "loops.h"

DECLARE(NAME)

static unsigned screen(unsigned v) {
    unsigned q = (v + 2) / 4;
    return 255 < q ? 255 : q;
}

int CALLED(NAME, row)(const sample *p, count n, byte *out) {
    for (count i = 0; i < n; i++) out[i] = screen(p[i]);
    return 0;
}

int CALLED(NAME, row_joined)(const sample *p, count n, byte *out) {
    unsigned all = 0;
    for (count i = 0; i < n; i++) all |= p[i];
    return 1023 < all ? 7 : CALLED(NAME, row)(p, n, out);
}

int CALLED(NAME, row_each)(const sample *p, count n, byte *out) {
    for (count i = 0; i < n; i++) {
        if (1023 < p[i]) return 7;
    }
    return CALLED(NAME, row)(p, n, out);
}

int CALLED(NAME, preview)(const sample *p, const sample *q, count n, byte *out) {
    for (count i = 0; i < n; i++) out[i] = (screen(p[2 * i]) + screen(p[2 * i + 1]) + screen(q[2 * i]) + screen(q[2 * i + 1]) + 2) / 4;
    return 0;
}

int CALLED(NAME, preview_joined)(const sample *p, const sample *q, count n, byte *out) {
    unsigned all = 0;
    for (count i = 0; i < 2 * n; i++) all |= p[i] | q[i];
    return 1023 < all ? 7 : CALLED(NAME, preview)(p, q, n, out);
}

int CALLED(NAME, preview_each)(const sample *p, const sample *q, count n, byte *out) {
    for (count i = 0; i < 2 * n; i++) {
        if (1023 < p[i] || 1023 < q[i]) return 7;
    }
    return CALLED(NAME, preview)(p, q, n, out);
}
