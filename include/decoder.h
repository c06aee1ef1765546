/* The decoder's calls for C. `tools/archive` writes the archive to link, target/staticlib/libdecoder_c.a.
 *
 * Every call answers a number: 0 is done, any other a refusal. Every input is accepted, and a refused call writes to no lent slice;
 * the values that it hands back through a pointer are then 0, and a position that goes in and out through one is as it was.
 *
 * A slice is a pointer to its first element and its length in elements. The caller sees to these, which no call can test:
 * a pointer is not NULL, also where the length is 0, and that many elements lie behind it; a slice that is written overlaps no other
 * argument; a bool is true or false.
 *
 * No call allocates or keeps anything from one call to the next: it works on the caller's buffers and on its stack. So calls on different
 * slices may run on different threads at the same time; a slice that is only read may be passed to several.
 *
 * Bytes of stack that each call was measured to need, its arguments and its return address among them (tools/stack/run):
 * derived_chroma_qp_mapping_tables 448, get_avail_intra 80, get_avail_inter 85, get_mpm 120, get_nbr 480, ipred_b 144, recon 72, recon_plane 241,
 * check 2,064, leaves 2,136, put_map 472, get_map 992, mend 504, visiting_rank 8, list_edges 3,848, reconstruct 11,952, deblock 7,120, deblock_band
 * 6,848, fill_rows 712, set_motion 312, set_flag 280, deblock_by_rows 7,152, listing 53,024, read_header 440, write_header 232, read_frame 248,
 * write_frame 112, import_frame 584, ward_row 473.
 *
 * Sizes, lengths and their order are in specs/ of the crate that each call names; w and h are the picture's sides in luma samples. */
#ifndef LOMSAKEUN_DECODER_H
#define LOMSAKEUN_DECODER_H

#include <stdbool.h>
#include <stddef.h>
#include <stdint.h>

/* What is lent, and how many elements it has. w and h are the sides of the picture, or of what a call says it is lent of one.
 *
 * By format. These calls take a bool colour: reconstruct, deblock, deblock_by_rows, deblock_band, write_header, write_frame and ward_row.
 * A grey picture has no chroma, and what belongs to chroma has length 0.
 *
 *                           colour                        grey
 *   y, pred_y               w*h                           w*h             samples, row by row
 *   u, v, pred_u, pred_v    (w/2)*(h/2) each              0
 *   table0, table1          70 each                       0               the chroma QP of QP q at 12 + q
 *   u_offset, v_offset      -12..12                       0               else LOMSAKEUN_SETTING
 *   a leaf's mask           0..7                          0 or 1          else LOMSAKEUN_RECORD
 *   out of write_frame      6 + 2*(w*h + 2*(w/2)*(h/2))   6 + 2*w*h       but a stream has colour: a grey picture is LOMSAKEUN_SETTING
 *
 * read_frame and import_frame are not told a format: a stream's frame has colour. get_nbr and recon_plane take one component, of which a grey
 * picture has luma. All else is lent alike in both formats:
 *
 *   words                   (w/4)*(h/4), a word a unit of 4x4 luma samples, row by row: bit 15 intra, 16..22 QP, 24 luma-coded, 31 done
 *   modes                   (w/4)*(h/4), a byte a unit: 0 DC, 1 horizontal, 2 vertical, 3 UL, 4 UR, 255 none
 *   keep                    (w/4)*(h/4), a byte a unit: 1 where deblocking moves no sample, else 0
 *   rows                    (w/4)*(h/4), a byte a unit (fill_rows); deblock_by_rows takes 0 too, which is no map
 *   motion, refs            four numbers a unit, list 0 x, y, list 1 x, y; and two
 *   splits                  1024 a root of 64x64, roots row by row. The byte of a block of 64, 32, 16 or 8 is at 256*level + 16*row + column,
 *                           level 0 to 3, with the row and column of the unit at its centre, in its root: 136 for 64, 768 + 17 for the
 *                           first of 8. It is 1 where the block is cut and else 0. Bytes that no such block has may be anything.
 *   map; out, list          1024 a root (get_map); 1024 and 425 a root (mend)
 *   buf, src                any number of bytes (put_map, get_map)
 *   leaves, residual        4 bytes a leaf, and the samples of the blocks that the masks name (reconstruct)
 *   a0, b0, a1, b1          58 each
 *   t0, t1                  70 each, as table0 and table1
 *   strengths               4*52: four rows, an entry a QP
 *   table, ranks            6*6*5, and 5 (get_mpm)
 *   plane                   w*h in luma, (w/2)*(h/2) in chroma (get_nbr); so is rec of recon_plane
 *   run                     4*n + 1 samples, n being the block's side in its component: left downwards, the corner, up rightwards
 *   block, pred, coef, rec  n*n; a block of recon_plane is named by its luma side, and n is half of that in chroma
 *   out of leaves           768: x, y and side of at most 256 leaves
 *   vertical, horizontal    2*(w/4)*(h/4)
 *   input, s                any number of bytes (listing; a stream)
 *   out                     81920 of listing, 256 of write_header, w of ward_row
 *
 * What a call only writes may hold anything at entry: so the planes, the words, the modes and the keep bytes of reconstruct. */

/* The version of these calls; bindings/rust has the same. CHANGELOG.md says what changed. */
#define LOMSAKEUN_VERSION "0.1.0"

#ifdef __cplusplus
extern "C" {
#endif

/* What a call answers. */
enum {
    LOMSAKEUN_DONE = 0,
    LOMSAKEUN_SIZE = 1,     /* w or h is not a multiple of 4 from 4 to 4096 */
    LOMSAKEUN_LENGTH = 2,   /* a lent slice has the wrong length */
    LOMSAKEUN_SETTING = 3,  /* a transform limit other than 5 or 6; an offset outside -12..12, or not 0 in a grey picture; of a stream, a number outside 1..65535 or a grey picture */
    LOMSAKEUN_SPLIT = 4,    /* a split byte reached by the walk is not 0 or 1 */
    LOMSAKEUN_LEAF = 5,     /* a leaf reaches past the picture */
    LOMSAKEUN_QP = 6,       /* a luma QP above 51 */
    LOMSAKEUN_SAMPLE = 7,   /* a sample over 1023 */
    LOMSAKEUN_BLOCK = 8,    /* a block's or a unit's place, or a side */
    LOMSAKEUN_MODE = 9,     /* a mode, or a consulted mode byte */
    LOMSAKEUN_POINTS = 10,  /* the count of chroma points outside 1..58, or an a below 0 among them */
    LOMSAKEUN_PIVOT = 11,   /* a pivot outside -12..57 */
    LOMSAKEUN_SHEET = 12,   /* a malformed sheet */
    LOMSAKEUN_RECORD = 13,  /* the leaf or residual list's length, a mask or a keep byte */
    LOMSAKEUN_BAND = 14,    /* a band that is not the position's next, or is past the last */
    LOMSAKEUN_KEEP = 15,    /* a byte of the keep map that is not 0 or 1 */
    LOMSAKEUN_BITS = 16,    /* bits that run out, a fill bit that is not 0, or too little room for a map's own bytes */
    LOMSAKEUN_STREAM = 17,  /* a malformed header or frame line of a stream */
    LOMSAKEUN_SHORT = 18,   /* a stream that ends before its frame does */
    LOMSAKEUN_ROWS = 19,    /* a map of edge rows that differs from the rule */
    LOMSAKEUN_OLD = 20,     /* a sheet of the time when V read table0 on vertical edges; the listing's text has it */
    LOMSAKEUN_WINDOW = 21,  /* a window of the screen off the multiples of 4, empty or outside */
    LOMSAKEUN_TURN = 22     /* a row of the screen out of turn */
};

/* The bits of availability's answer. RIGHT_UP is the unit above the block's last column. */
enum {
    LOMSAKEUN_UP = 1,
    LOMSAKEUN_LEFT = 2,
    LOMSAKEUN_RIGHT = 4,
    LOMSAKEUN_UP_LEFT = 8,
    LOMSAKEUN_UP_RIGHT = 16,
    LOMSAKEUN_LOW_LEFT = 32,
    LOMSAKEUN_LOW_RIGHT = 64,
    LOMSAKEUN_RIGHT_UP = 128
};

/* The lengths that no picture or block decides. */
enum {
    LOMSAKEUN_POINTS_LENGTH = 58,
    LOMSAKEUN_TABLE_LENGTH = 70,
    LOMSAKEUN_RANK_TABLE_LENGTH = 180,
    LOMSAKEUN_RANKS_LENGTH = 5,
    LOMSAKEUN_STRENGTHS_LENGTH = 208,
    LOMSAKEUN_SPLITS_PER_ROOT = 1024,
    LOMSAKEUN_LEAVES_LENGTH = 768,
    LOMSAKEUN_CHANGES_PER_ROOT = 425,
    LOMSAKEUN_LISTING_LENGTH = 81920,
    LOMSAKEUN_HEADER_LENGTH = 256,
    LOMSAKEUN_FRAME_LINE_LENGTH = 6
};

/* The two chroma QP tables from their points (chroma_qp). Under same_table the second points are not read. */
uint8_t lomsakeun_derived_chroma_qp_mapping_tables(
    bool global_offset, bool same_table,
    size_t count0, const int8_t *a0, size_t a0_len, const int8_t *b0, size_t b0_len,
    size_t count1, const int8_t *a1, size_t a1_len, const int8_t *b1, size_t b1_len,
    int8_t *t0, size_t t0_len, int8_t *t1, size_t t1_len);

/* Which neighbours of the luma block of side at (x, y) are there, for intra prediction (avail): a bit a neighbour. */
uint8_t lomsakeun_get_avail_intra(
    size_t w, size_t h, const uint32_t *words, size_t words_len,
    size_t x, size_t y, size_t side, uint8_t *neighbours);

/* The same for inter prediction. */
uint8_t lomsakeun_get_avail_inter(
    size_t w, size_t h, const uint32_t *words, size_t words_len,
    size_t x, size_t y, size_t side, uint8_t *neighbours);

/* The five mode ranks for the unit of column x and row y, copied from the lent table (mpm). */
uint8_t lomsakeun_get_mpm(
    size_t w, size_t h, const uint32_t *words, size_t words_len, const uint8_t *modes, size_t modes_len,
    const uint8_t *table, size_t table_len, size_t x, size_t y, uint8_t *ranks, size_t ranks_len);

/* A block's neighbour samples: left downwards, the corner, up rightwards (nbr). The block is named in luma samples. */
uint8_t lomsakeun_get_nbr(
    bool chroma, size_t w, size_t h, const uint16_t *plane, size_t plane_len, const uint32_t *words, size_t words_len,
    size_t x, size_t y, size_t side, bool constrained, uint16_t *run, size_t run_len);

/* A block's prediction from its run (ipred): 0 DC, 1 horizontal, 2 vertical, 3 UL, 4 UR. */
uint8_t lomsakeun_ipred_b(
    uint8_t mode, size_t side, const uint16_t *run, size_t run_len, uint16_t *block, size_t block_len);

/* Prediction and residual into a block (recon). */
uint8_t lomsakeun_recon(
    bool coded, size_t side, const uint16_t *pred, size_t pred_len, const int16_t *coef, size_t coef_len,
    uint16_t *rec, size_t rec_len);

/* Prediction and residual into a plane (recon). The block is named in luma samples. */
uint8_t lomsakeun_recon_plane(
    bool chroma, size_t w, size_t h, size_t x, size_t y, size_t side, bool coded,
    const uint16_t *pred, size_t pred_len, const int16_t *coef, size_t coef_len, uint16_t *rec, size_t rec_len);

/* Whether the walk over a picture's split bytes is refused (split). */
uint8_t lomsakeun_check(size_t w, size_t h, const uint8_t *splits, size_t splits_len);

/* The leaves of the root at (x, y), in the order of the walk (split): x, y and side of each, in luma samples. */
uint8_t lomsakeun_leaves(
    size_t w, size_t h, const uint8_t *splits, size_t splits_len, size_t x, size_t y,
    uint16_t *out, size_t out_len, size_t *count);

/* The split map into a buffer, by its digits as bits (pack): from position *at on, in bits, at the start of a byte. *at moves on behind the
 * map; on a refusal it stays. */
uint8_t lomsakeun_put_map(
    size_t w, size_t h, const uint8_t *splits, size_t splits_len, uint8_t *buf, size_t buf_len, size_t *at);

/* The split map from a buffer, by its digits as bits (pack): as above. */
uint8_t lomsakeun_get_map(
    size_t w, size_t h, const uint8_t *src, size_t src_len, size_t *at, uint8_t *map, size_t map_len);

/* A torn split map, mended into out (mend), of the same length: a block that reaches past the picture is cut, a byte above 1 inside the picture
 * becomes 0, and all other bytes are copied. list has 425 numbers a root: for each change its root, level, place in the level, old and new
 * value, in the order of the walk; its rest is not written. The walk accepts what is written (lomsakeun_check). */
uint8_t lomsakeun_mend(
    size_t w, size_t h, const uint8_t *splits, size_t splits_len, uint8_t *out, size_t out_len,
    uint16_t *list, size_t list_len, size_t *count);

/* The visiting rank of the unit of column x and row y of a root (rank). */
uint8_t lomsakeun_visiting_rank(size_t x, size_t y, uint8_t *rank);

/* The edges that each pass of deblocking visits, in order (split): x and y of each, and how many edges. */
uint8_t lomsakeun_list_edges(
    size_t w, size_t h, const uint8_t *splits, size_t splits_len, uint8_t limit,
    uint16_t *vertical, size_t vertical_len, uint16_t *horizontal, size_t horizontal_len,
    size_t *vertical_count, size_t *horizontal_count);

/* Reconstructs a picture (driver): its blocks in the order of the walk, each predicted from what stands around it or taken from the lent
 * prediction, with its residual; then its unit words, its modes and its keep bytes. leaves has four bytes a leaf: kind (a mode, or 5
 * for the lent prediction), QP, mask (1 Y, 2 U, 4 V) and keep (1 where deblocking is to leave the block as it is, else 0). residual has the masked
 * blocks one after another: Y, U and V of each leaf. A prediction is lent for every plane, also where no leaf takes it. */
uint8_t lomsakeun_reconstruct(
    size_t w, size_t h, bool colour, const uint8_t *splits, size_t splits_len, const uint8_t *leaves, size_t leaves_len,
    const int16_t *residual, size_t residual_len, const uint16_t *pred_y, size_t pred_y_len,
    const uint16_t *pred_u, size_t pred_u_len, const uint16_t *pred_v, size_t pred_v_len, bool constrained,
    uint16_t *y, size_t y_len, uint16_t *u, size_t u_len, uint16_t *v, size_t v_len,
    uint32_t *words, size_t words_len, uint8_t *modes, size_t modes_len, uint8_t *keep, size_t keep_len);

/* Deblocks a picture (df): its planes are filtered and done is set in every word; how many edges each pass visited.
 * keep has a mark a unit, 0 or 1: no sample of a unit marked 1 is moved, and its edges are visited and counted as any other.
 * U's QP is mapped by table0, V's by table1. colour: the picture has chroma. The luma plane, the words and the counts of a grey picture are those
 * of the same in colour. */
uint8_t lomsakeun_deblock(
    size_t w, size_t h, uint16_t *y, size_t y_len, uint16_t *u, size_t u_len, uint16_t *v, size_t v_len,
    uint32_t *words, size_t words_len, const uint8_t *splits, size_t splits_len,
    const int16_t *motion, size_t motion_len, const int8_t *refs, size_t refs_len, const uint8_t *keep, size_t keep_len,
    const int8_t *table0, size_t table0_len, const int8_t *table1, size_t table1_len,
    const uint8_t *strengths, size_t strengths_len,
    uint8_t limit, int8_t u_offset, int8_t v_offset, bool colour, size_t *vertical_count, size_t *horizontal_count);

/* Deblocks one band of a picture (df). A band is 64 luma rows, the last one maybe fewer; they are numbered from 0, from the top. w and h are
 * the whole picture's sides, and band is the number of the band.
 *
 * Lent are the rows of the band above, if any, followed by those of the band: for band 0 its own rows alone, for any other 64 rows and its
 * own. y, u and v (half as many rows), words, motion, refs and keep cover just these rows. splits has the band's own bytes alone, 1024 for each of
 * its roots. Tables, strengths and settings are as for a picture.
 *
 * next is the position: set it to 0 before band 0, and hand it to each call as the call before left it. A call that is done moves it on by
 * one; a refused one leaves it, so that the same band can be mended and called again. A band other than next, or past the last, is 14.
 *
 * The band's vertical edges are filtered and then its horizontal ones, the edge above it included; of the band above, the last two rows of
 * each plane may be written. Done is set in the band's own words, and the counts are the band's. Marks, QPs and samples are checked in the band
 * and in the 4 luma rows above it, with their units and their chroma rows, and no further up.
 *
 * After a band, all its rows but its last two luma rows and its last two chroma rows are final, and so are all rows above it. After the last
 * band all rows are final, and equal what one call over the picture makes of it, where nothing was altered between the calls. */
uint8_t lomsakeun_deblock_band(
    size_t *next, size_t band,
    size_t w, size_t h, uint16_t *y, size_t y_len, uint16_t *u, size_t u_len, uint16_t *v, size_t v_len,
    uint32_t *words, size_t words_len, const uint8_t *splits, size_t splits_len,
    const int16_t *motion, size_t motion_len, const int8_t *refs, size_t refs_len, const uint8_t *keep, size_t keep_len,
    const int8_t *table0, size_t table0_len, const int8_t *table1, size_t table1_len,
    const uint8_t *strengths, size_t strengths_len,
    uint8_t limit, int8_t u_offset, int8_t v_offset, bool colour, size_t *vertical_count, size_t *horizontal_count);

/* A map of edge rows, a byte a unit (rows): the strength row of its left edge in bits 0..1, that of its top edge in bits 2..3, and 0 where no unit
 * lies on that side. This fills it. */
uint8_t lomsakeun_fill_rows(
    size_t w, size_t h, const uint32_t *words, size_t words_len, const int16_t *motion, size_t motion_len,
    const int8_t *refs, size_t refs_len, uint8_t *rows, size_t rows_len);

/* Sets the motion and the references of the unit of column x and row y, and in the map, whatever it holds, the rows of that unit's four edges;
 * no other bit of it. A map that was right stays right. */
uint8_t lomsakeun_set_motion(
    size_t w, size_t h, size_t x, size_t y, int16_t x0, int16_t y0, int16_t x1, int16_t y1, int8_t refi0, int8_t refi1,
    const uint32_t *words, size_t words_len, int16_t *motion, size_t motion_len, int8_t *refs, size_t refs_len,
    uint8_t *rows, size_t rows_len);

/* The same for a bit of the unit's word: the luma-coded bit where coded is true, else the intra bit. */
uint8_t lomsakeun_set_flag(
    size_t w, size_t h, size_t x, size_t y, bool coded, bool on, uint32_t *words, size_t words_len,
    const int16_t *motion, size_t motion_len, const int8_t *refs, size_t refs_len, uint8_t *rows, size_t rows_len);

/* Deblocking that is lent such a map, or none, which has length 0. The planes, words and counts are the same. A map that is not right is 19, last. */
uint8_t lomsakeun_deblock_by_rows(
    size_t w, size_t h, uint16_t *y, size_t y_len, uint16_t *u, size_t u_len, uint16_t *v, size_t v_len,
    uint32_t *words, size_t words_len, const uint8_t *splits, size_t splits_len,
    const int16_t *motion, size_t motion_len, const int8_t *refs, size_t refs_len, const uint8_t *keep, size_t keep_len,
    const uint8_t *rows, size_t rows_len,
    const int8_t *table0, size_t table0_len, const int8_t *table1, size_t table1_len,
    const uint8_t *strengths, size_t strengths_len,
    uint8_t limit, int8_t u_offset, int8_t v_offset, bool colour, size_t *vertical_count, size_t *horizontal_count);

/* The text that `edgelist` prints for a sheet (sheet), and its length. */
uint8_t lomsakeun_listing(const uint8_t *input, size_t input_len, uint8_t *out, size_t out_len, size_t *length);

/* What the header at the start of a YUV4MPEG2 stream says (y4m_header): the sides, F as f / g and A as a / b, each 0 where it has none, and the place
 * after it. at: for LOMSAKEUN_STREAM the byte's place, here and below. */
uint8_t lomsakeun_read_header(
    const uint8_t *s, size_t s_len, size_t *w, size_t *h, size_t *f, size_t *g, size_t *a, size_t *b, size_t *next, size_t *at);

/* The header of a picture's stream, at the start of 256 bytes (y4m_header_out), and how many bytes it has. colour: the picture has chroma. */
uint8_t lomsakeun_write_header(
    bool colour, size_t w, size_t h, size_t f, size_t g, size_t a, size_t b, uint8_t *out, size_t out_len, size_t *count);

/* The frame at a place of a stream, into the planes of a picture of w by h (y4m_frame), and the place after it. */
uint8_t lomsakeun_read_frame(
    const uint8_t *s, size_t s_len, size_t place, size_t w, size_t h, uint16_t *y, size_t y_len,
    uint16_t *u, size_t u_len, uint16_t *v, size_t v_len, size_t *next, size_t *at);

/* A picture's frame (y4m_frame_out), into exactly its bytes: 6 and two a sample. */
uint8_t lomsakeun_write_frame(
    bool colour, size_t w, size_t h, const uint16_t *y, size_t y_len, const uint16_t *u, size_t u_len,
    const uint16_t *v, size_t v_len, uint8_t *out, size_t out_len);

/* The first frame of a stream, into planes of the lengths of its header's picture (y4m): what the header says, and the place after the frame. */
uint8_t lomsakeun_import_frame(
    const uint8_t *s, size_t s_len, uint16_t *y, size_t y_len, uint16_t *u, size_t u_len, uint16_t *v, size_t v_len,
    size_t *w, size_t *h, size_t *f, size_t *g, size_t *a, size_t *b, size_t *next, size_t *at);

/* A row of a crop window for the ward's screen (ward): 8-bit samples of plane 0, 1 or 2 (Y, U, V), first in out, which has w bytes for every row; the rest
 * of out is left as it was. preview: the run at half the size. turn_plane and turn_row are the turn: a run starts at 0 and 0, and each call hands the next
 * one back, or the same where it is refused. plane and row name the row that is asked for. */
uint8_t lomsakeun_ward_row(
    bool preview, size_t *turn_plane, size_t *turn_row, size_t plane, size_t row, bool colour, size_t w, size_t h,
    const uint16_t *y, size_t y_len, const uint16_t *u, size_t u_len, const uint16_t *v, size_t v_len,
    size_t left, size_t top, size_t right, size_t bottom, uint8_t *out, size_t out_len, size_t *written);

#ifdef __cplusplus
}
#endif

#endif
