// The plain loops beside the ward's row, once for each compiler: NAME is put before theirs.
typedef unsigned short sample;
typedef unsigned char byte;
typedef unsigned long count;

#define PASTE(a, b) a##_##b
#define CALLED(a, b) PASTE(a, b)

// A row of n samples, and a row of n samples of the preview: without a test; after a test of all their samples joined; after a test of each. A test answers
// 7 or 0.
#define DECLARE(name) \
    int CALLED(name, row)(const sample *p, count n, byte *out); \
    int CALLED(name, row_joined)(const sample *p, count n, byte *out); \
    int CALLED(name, row_each)(const sample *p, count n, byte *out); \
    int CALLED(name, preview)(const sample *p, const sample *q, count n, byte *out); \
    int CALLED(name, preview_joined)(const sample *p, const sample *q, count n, byte *out); \
    int CALLED(name, preview_each)(const sample *p, const sample *q, count n, byte *out);
