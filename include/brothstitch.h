/* Brothstitch: does a point lie inside an outline with cut-outs? The C interface of the proved library.
 *
 * Link libbrothstitch.a; `make install PREFIX=..` puts it, this header and a pkg-config file in place.
 *
 * Quick start (a test compiles and runs it):
 *
 *     #include <brothstitch.h>
 *     #include <stdio.h>
 *
 *     int main(void) {
 *         const uint32_t sizes[] = {5};
 *         const int32_t coords[] = {0, 0, 10, 0, 10, 10, 0, 10, 0, 0};
 *         int32_t boxes[4];
 *         uint64_t value;
 *         uint32_t made = brothstitch_make(sizes, 1, coords, 10, 1.0, BROTHSTITCH_MODE_FLOAT, boxes, 4, &value);
 *         if (made != BROTHSTITCH_DONE) {
 *             return printf("refusal %u, place %u\n", made - BROTHSTITCH_REFUSED, (unsigned)value);
 *         }
 *         uint32_t said = brothstitch_inside(sizes, 1, coords, 10, boxes, 4, 1.0, BROTHSTITCH_MODE_FLOAT, NULL, 0, NULL,
 *                                            0, NULL, 0, NULL, 0, NULL, 0, 5.0, 5.0, BROTHSTITCH_EDGE_EXCLUDED, &value);
 *         return printf("%s\n", said == BROTHSTITCH_YES ? "inside" : "outside") < 0;
 *     }
 *
 * What a host owes: the default floating-point environment of IEEE 754 (round to nearest, subnormal numbers kept). A program
 * that is linked with -ffast-math or -Ofast may have subnormal numbers flushed to zero from its start on, and then answers in
 * Float mode can be wrong. value is never NULL; each call writes it. A call needs at most about 90 KB of stack (measured: 81 KB for a
 * tree's build down to depth 64 by the last quadrant each time, 24 KB for its search).
 *
 * A slice goes over as its pointer and its length, in numbers of its type and not in bytes. With length 0
 * the pointer is not followed. Slices that a call writes must not overlap any other.
 *
 * Every call takes any numbers and any content, reads and writes only what it is lent, keeps nothing, and
 * returns
 *     0          no, done, or clockwise
 *     1          yes, built, or anticlockwise
 *     2          no turn (brothstitch_turn alone)
 *     100 + n    refusal n
 * It always sets *value: to a count where it says so, to the refusal's place, else to 0.
 *
 *     n  when                                                          place
 *     1  no ring, or a ring under 2 points                             ring, 0 if none
 *     2  over 64 rings, or a ring over 4,097 points                    64, or ring
 *     3  ring sizes do not add up to the coordinates lent, two a       0
 *        point (or the record of boxes is short)
 *     4  a ring's first and last point differ                          ring
 *     5  scale not finite, or not above 0                              0
 *     7  a list at a height that is not finite                         0
 *     8  lent room too small, or over 65,536 stripes called for        0
 *     9  index damaged where it was read                               where
 *    10  well-known binary ends early, or goes on behind the polygon   byte
 *    11  well-known binary of another byte order or type               byte
 *    12  a scaled coordinate not finite, or not in i32 once rounded    ring
 *    15  a number in a packed tree that is longer than it has to be,   its first
 *        or over 64 bits                                               byte
 * 6 is withdrawn: no call gives it, and its number stands for nothing else.
 *
 * Rings are numbered from 0, the exterior first; the lowest at fault is named; checks run in that order,
 * each over all rings before the next. A call on one ring numbers it 0. Refusals 1 to 7 touch no room
 * that was lent; 8, 9 and 15 leave all room lent for writing zero. After success, room past the used part is zero, and work
 * room is all zero.
 *
 * What comes again:
 *     coords, points   a ring: two numbers a point, first point equal to last; and its point count
 *     edge             0: a point on the edge is outside; else it is inside
 *     mode             0: Float, rounded arithmetic; else Integer: the query snaps to whole numbers, and the
 *                      test is exact; both take any coordinates, so the record of boxes is one for both
 *     threshold        rings with fewer segments (points less one) get no index
 *     stripes, list    a stripe index: two numbers a stripe, where its part of list starts and how long
 *                      it is; with least and height, the least y and the height of the ring
 *     bytes            a packed tree
 */
#ifndef BROTHSTITCH_H
#define BROTHSTITCH_H

#include <stddef.h>
#include <stdint.h>

#ifdef __cplusplus
extern "C" {
#endif

/* ---- Names for the numbers. ------------------------------------------------------------------------ */

#define BROTHSTITCH_VERSION "0.1.0"
#define BROTHSTITCH_VERSION_NUMBER 100 /* major * 10,000 + minor * 100 + patch */

/* What a call returns. From BROTHSTITCH_REFUSED on it is a refusal, whose number is what is above it. */
#define BROTHSTITCH_NO 0u
#define BROTHSTITCH_YES 1u
#define BROTHSTITCH_DONE 0u
#define BROTHSTITCH_BELOW_THRESHOLD 0u
#define BROTHSTITCH_BUILT 1u
#define BROTHSTITCH_CLOCKWISE 0u
#define BROTHSTITCH_ANTICLOCKWISE 1u
#define BROTHSTITCH_NO_TURN 2u
#define BROTHSTITCH_REFUSED 100u

#define BROTHSTITCH_TOO_FEW 1u
#define BROTHSTITCH_TOO_MANY 2u
#define BROTHSTITCH_SIZES_DIFFER 3u
#define BROTHSTITCH_NOT_CLOSED 4u
#define BROTHSTITCH_BAD_SCALE 5u
#define BROTHSTITCH_BAD_HEIGHT 7u
#define BROTHSTITCH_NO_ROOM 8u
#define BROTHSTITCH_DAMAGED 9u
#define BROTHSTITCH_ENDS 10u
#define BROTHSTITCH_UNKNOWN 11u
#define BROTHSTITCH_UNSTORED 12u
#define BROTHSTITCH_LOOSE 15u

#define BROTHSTITCH_EDGE_EXCLUDED 0u
#define BROTHSTITCH_EDGE_ALLOWED 1u
#define BROTHSTITCH_MODE_FLOAT 0u
#define BROTHSTITCH_MODE_INTEGER 1u
#define BROTHSTITCH_OPTION_STRIPES 1u
#define BROTHSTITCH_OPTION_TREE 2u

#define BROTHSTITCH_MAX_RINGS 64
#define BROTHSTITCH_MIN_POINTS 2
#define BROTHSTITCH_MAX_POINTS 4097
#define BROTHSTITCH_MAX_STRIPES 65536
#define BROTHSTITCH_DEFAULT_THRESHOLD 64

/* Numbers a ring in boxes. */
#define BROTHSTITCH_BOX 4

/* Numbers a ring in table, and which of them is which. */
#define BROTHSTITCH_ROW 10
#define BROTHSTITCH_ROW_SEGMENTS 0
#define BROTHSTITCH_ROW_UNDER 1 /* 1 if an index was asked for and the ring is below the threshold */
#define BROTHSTITCH_ROW_KINDS 2 /* bit 0 stripes, bit 1 a tree */
#define BROTHSTITCH_ROW_STRIPES_START 3 /* where its stripes start in stripes */
#define BROTHSTITCH_ROW_STRIPES 4 /* how many stripes it has, two numbers each */
#define BROTHSTITCH_ROW_LIST_START 5 /* where its list starts in list */
#define BROTHSTITCH_ROW_ENTRIES 6 /* how long its list is */
#define BROTHSTITCH_ROW_FULLEST 7 /* how many entries are in its fullest stripe */
#define BROTHSTITCH_ROW_BYTES_START 8 /* where its bytes start in bytes */
#define BROTHSTITCH_ROW_BYTES 9 /* how many they are */

/* ---- Lists: the segments of a ring whose closed height range holds y. ----------------------------- */

/* By looking at every segment, in rising order. The segments' numbers go to out; *value: how many. */
uint32_t brothstitch_list_scan(const int32_t *coords, size_t coords_len, size_t points, double y,
                               uint32_t *out, size_t out_len, uint64_t *value);

/* By a stripe index, whoever wrote it. The same list, if it was built from the ring. Place of damage: 0 where
 * there are no stripes, else a position in list, or its length.
 *
 * Lend the used part of the stripes and no more: stripes_len is twice the number of stripes that
 * brothstitch_build_stripes told. Every two numbers lent count as a stripe, and the height is shared out over
 * all of them; so with zeros behind the used part a height falls into the wrong stripe, and segments are
 * missed with no refusal. The same holds of brothstitch_ring_stripes. list may have numbers behind. */
uint32_t brothstitch_list_stripes(const int32_t *coords, size_t coords_len, size_t points, double least,
                                  double height, const uint32_t *stripes, size_t stripes_len,
                                  const uint32_t *list, size_t list_len, double y, uint32_t *out,
                                  size_t out_len, uint64_t *value);

/* By a packed tree, whoever wrote it; only its used part is lent. The same segments, in the tree's order,
 * if it was built from the ring. Place of damage: the byte where the damaged field starts. */
uint32_t brothstitch_list_tree(const int32_t *coords, size_t coords_len, size_t points, const uint8_t *bytes,
                               size_t bytes_len, double y, uint32_t *out, size_t out_len, uint64_t *value);

/* ---- Ring tests: is the point inside this ring? 1 yes, 0 no. A NaN or infinite point is outside. -- */

/* By looking at every segment. */
uint32_t brothstitch_ring_scan(const int32_t *coords, size_t coords_len, size_t points, double x, double y,
                               uint32_t edge, uint64_t *value);

/* By a stripe index. Lend the used part of the stripes and no more, as for brothstitch_list_stripes: zeros
 * behind it miss segments with no refusal, and turn inside into outside. */
uint32_t brothstitch_ring_stripes(const int32_t *coords, size_t coords_len, size_t points, double least,
                                  double height, const uint32_t *stripes, size_t stripes_len,
                                  const uint32_t *list, size_t list_len, double x, double y, uint32_t edge,
                                  uint64_t *value);

/* By a packed tree. */
uint32_t brothstitch_ring_tree(const int32_t *coords, size_t coords_len, size_t points, const uint8_t *bytes,
                               size_t bytes_len, double x, double y, uint32_t edge, uint64_t *value);

/* In whole numbers, exactly, for any coordinates and any place. */
uint32_t brothstitch_ring_grid(const int32_t *coords, size_t coords_len, size_t points, int64_t x, int64_t y,
                               uint32_t edge, uint64_t *value);

/* ---- The turn of a ring: BROTHSTITCH_ANTICLOCKWISE, BROTHSTITCH_CLOCKWISE or BROTHSTITCH_NO_TURN. --- */

/* 1 anticlockwise (its exact area is above zero), 0 clockwise (below zero), 2 none (the
 * area is 0: one point, a ring squeezed to a line, or one that goes as far round one way as the other).
 * Backwards the same points give the opposite turn, or 2 again. */
uint32_t brothstitch_turn(const int32_t *coords, size_t coords_len, size_t points, uint64_t *value);

/* ---- Building an index of one ring: 1 built, 0 below the threshold. ------------------------------- */

/* The stripes; *value: how many stripes, so that 2 * *value numbers of stripes are the used part, which is what
 * a later call is lent. span gets least and height (two numbers); stats gets segments, stripes, entries in
 * all, and entries in the fullest stripe (four numbers). */
uint32_t brothstitch_build_stripes(const int32_t *coords, size_t coords_len, size_t points, size_t threshold,
                                   uint32_t *stripes, size_t stripes_len, uint32_t *list, size_t list_len,
                                   double *span, size_t span_len, uint64_t *stats, size_t stats_len,
                                   uint64_t *value);

/* The packed tree; *value: how many bytes. work has six numbers a node and one a segment. */
uint32_t brothstitch_build_tree(const int32_t *coords, size_t coords_len, size_t points, size_t threshold,
                                uint8_t *bytes, size_t bytes_len, uint32_t *work, size_t work_len,
                                uint64_t *value);

/* ---- Outlines: all rings one after the other in coords, the point count of each in sizes. --------- */

/* Checks an outline, and writes the record of its boxes: four numbers a ring, least x, least y, greatest
 * x, greatest y. 0 done; *value: how many rings. */
uint32_t brothstitch_make(const uint32_t *sizes, size_t sizes_len, const int32_t *coords, size_t coords_len,
                          double scale, uint32_t mode, int32_t *boxes, size_t boxes_len, uint64_t *value);

/* Reads an outline from well-known binary (OGC 06-103r4): one polygon, type 3, of either byte order, and nothing behind it.
 * Each double is multiplied by scale once and rounded, halves away from zero. The point count of each ring goes to sizes, all
 * rings' numbers to coords: what brothstitch_make takes, in either mode. 0 done; *value: how many rings; *numbers: how many
 * numbers coords has, 0 with a refusal. Refusals in the order 5; 10 and 11 as the bytes are read, place the first byte of the
 * field; then 1, 2, 12 and 4 over the whole shape; and last 8. Only 8 touches sizes and coords, and leaves both zero. */
uint32_t brothstitch_read_wkb(const uint8_t *bytes, size_t bytes_len, double scale, uint32_t *sizes,
                              size_t sizes_len, int32_t *coords, size_t coords_len, uint64_t *numbers,
                              uint64_t *value);

/* Builds the indexes of all rings; options: bit 0 stripes, bit 1 trees. 0 done; *value: how many rings.
 * table gets a row of ten numbers a ring, BROTHSTITCH_ROW_SEGMENTS and so on. A part that the ring has not got starts
 * behind those of the rings before it, and has nothing in it.
 * spans gets two numbers a ring, least and height, zeros for a ring without stripes. */
uint32_t brothstitch_build(const uint32_t *sizes, size_t sizes_len, const int32_t *coords, size_t coords_len,
                           uint32_t options, size_t threshold, uint64_t *table, size_t table_len,
                           double *spans, size_t spans_len, uint32_t *stripes, size_t stripes_len,
                           uint32_t *list, size_t list_len, uint8_t *bytes, size_t bytes_len, uint32_t *work,
                           size_t work_len, uint64_t *value);

/* Is the point, multiplied by scale, inside the outline? 1 yes, 0 no. boxes is what brothstitch_make
 * wrote, read as it stands: it is not held against the points. A record that is not this outline's own is no
 * refusal, and its answer is not the outline's: with a wrong box of ring 0 a point inside is told outside, and
 * with a wrong box of another ring a tree of that ring is searched wrongly. Make it anew whenever sizes or
 * coords change, or ask brothstitch_inside_plain, which needs none. table, spans, stripes, list and bytes are what brothstitch_build wrote; a number
 * missing from table counts as 0, so with all five empty every ring is scanned. A part, or a span, that table
 * tells of and that does not lie wholly in its slice is refusal 9, place 0. With both kinds a ring's stripes
 * are read. Places of damage (9 and 15) count from the start of the ring's own part. */
uint32_t brothstitch_inside(const uint32_t *sizes, size_t sizes_len, const int32_t *coords, size_t coords_len,
                            const int32_t *boxes, size_t boxes_len, double scale, uint32_t mode,
                            const uint64_t *table, size_t table_len, const double *spans, size_t spans_len,
                            const uint32_t *stripes, size_t stripes_len, const uint32_t *list,
                            size_t list_len, const uint8_t *bytes, size_t bytes_len, double x, double y,
                            uint32_t edge, uint64_t *value);

/* The same question by the points alone: no record and no index is lent, and every ring is scanned. The
 * boxes are worked out from the points at each call. Nothing that is lent here can be stale: the answer is that
 * of brothstitch_inside with the outline's own record, and with any indexes built from its rings. */
uint32_t brothstitch_inside_plain(const uint32_t *sizes, size_t sizes_len, const int32_t *coords,
                                  size_t coords_len, double scale, uint32_t mode, double x, double y,
                                  uint32_t edge, uint64_t *value);

#ifdef __cplusplus
}
#endif

#endif
